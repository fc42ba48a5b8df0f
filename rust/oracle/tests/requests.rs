//! The lists of requests: what they must cover, and how long they may be.

use oracle::calls::answer;
use oracle::requests::part;
use std::collections::HashSet;

/// The requests of a part, each with its answer.
fn answered(name: &str) -> Vec<(String, String)> {
    let requests = part(name).unwrap().into_iter();
    let answer = |request: String| {
        let answer = answer(&request).unwrap_or_else(|bad| panic!("{request}: {bad:?}"));
        (request, answer)
    };
    requests.map(answer).collect()
}

/// The readings and the writings.
fn both() -> Vec<(String, String)> {
    let mut lines = answered("readings");
    lines.extend(answered("writings"));
    lines
}

fn count(lines: &[(String, String)], request: &str, answer: &str) -> usize {
    let first = |text: &str| text.split(' ').next().unwrap_or_default().to_string();
    let wanted = |line: &&(String, String)| first(&line.0) == request && first(&line.1) == answer;
    lines.iter().filter(wanted).count()
}

#[test]
fn operators_are_asked_about_in_full() {
    let lines = answered("operators");
    assert_eq!(lines.len(), 2 * 256 * 8 + 4 * 15 + 32 * 4 * 2 + 16 * 4 * 2);
    assert_eq!(count(&lines, "numeric", "5"), 128 * 8);
    assert_eq!(count(&lines, "bitmask", "5"), 192 * 8);
}

#[test]
fn rules_meet_every_refusal() {
    let lines = both();
    for refusal in ["1", "2", "3", "4", "5"] {
        assert!(count(&lines, "parse", refusal) >= 10, "{refusal}");
    }
    assert!(count(&lines, "encode", "7") >= 5);
    assert!(count(&lines, "parse", "0") >= 1_000);
    assert!(count(&lines, "encode", "0") >= 1_000);
}

#[test]
fn requests_stay_within_what_a_replay_holds() {
    let lines = answered("replayed");
    let lengths = lines.iter().map(|(a, b)| a.len() + b.len() + 4);
    assert!(lengths.clone().max().unwrap() < 16_000);
    assert!(lengths.sum::<usize>() < 1_500_000);
}

/// Outside these bounds the proved code refuses what the original accepts.
#[test]
fn rules_stay_within_what_is_compared() {
    for (request, _) in both() {
        match request.split_once(' ').unwrap() {
            ("parse", "-") => (),
            ("parse", octets) => assert!(octets.len() <= 2 * 4_097),
            (_, rule) => {
                assert!(rule.split(';').count() <= 13);
                assert!(rule.matches('=').count() <= 2_047);
            }
        }
    }
}

#[test]
fn no_request_stands_twice() {
    for name in ["operators", "readings", "writings", "replayed"] {
        let requests = part(name).unwrap();
        let distinct: HashSet<&String> = requests.iter().collect();
        assert_eq!(distinct.len(), requests.len());
    }
}

/// The crate `replay` reads no rules to write.
#[test]
fn operators_and_readings_are_replayed() {
    let mut replayed = part("operators").unwrap();
    replayed.extend(part("readings").unwrap());
    assert_eq!(part("replayed"), Some(replayed));
}

#[test]
fn a_part_that_is_not_there_is_none() {
    assert_eq!(part("none"), None);
}

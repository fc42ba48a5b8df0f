//! Which rule decides: document 01's cases, its refusals in their order, and ties.

mod common;

use common::{flow, list, packet, packet_to, rule};
use standard::{choose, direct, Flow, Packet, Refusal};

/// What both choosers answer.
fn chosen(flows: &[Flow], packet: &Packet) -> Result<Option<usize>, Refusal> {
    let answer = choose(flows, packet);
    assert_eq!(direct::choose(flows, packet), answer);
    answer
}

fn flows(texts: &[&str]) -> Vec<Flow> {
    texts.iter().map(|text| flow(4, text)).collect()
}

#[test]
fn three_addresses() {
    let rules = flows(&["03 01 08 0A", "04 01 10 0A 01"]);
    assert_eq!(chosen(&rules, &packet_to([10, 1, 2, 3])), Ok(Some(1)));
    assert_eq!(chosen(&rules, &packet_to([10, 2, 0, 1])), Ok(Some(0)));
    assert_eq!(chosen(&rules, &packet_to([11, 0, 0, 1])), Ok(None));
    let turned = flows(&["04 01 10 0A 01", "03 01 08 0A"]);
    assert_eq!(chosen(&turned, &packet_to([10, 1, 2, 3])), Ok(Some(0)));
    assert_eq!(chosen(&turned, &packet_to([10, 2, 0, 1])), Ok(Some(1)));
    assert_eq!(chosen(&turned, &packet_to([11, 0, 0, 1])), Ok(None));
}

#[test]
fn the_preceding_rule_decides_wherever_it_stands() {
    let texts = [
        "00",
        "03 03 81 00",
        "02 02 00",
        "02 01 00",
        "05 01 00 03 81 00",
        "03 03 81 06",
    ];
    for first in 0..texts.len() {
        let turned: Vec<&str> = (0..texts.len())
            .map(|at| texts[(first + at) % texts.len()])
            .collect();
        let place = chosen(&flows(&turned), &packet(4)).expect("all are good");
        assert_eq!(place.map(|place| turned[place]), Some("05 01 00 03 81 00"));
    }
}

/// Of rules that rank equal the first decides, also where they differ in reserved bits.
#[test]
fn ties() {
    let plain = flow(4, "03 03 87 06");
    let reserved = Flow {
        family: 4,
        rule: rule(&[list(3, &[(0x8F, 6)])]),
    };
    let other = flow(4, "03 04 87 06");
    for one in [&plain, &reserved] {
        for two in [&plain, &reserved] {
            let rules = [other.clone(), one.clone(), two.clone(), other.clone()];
            assert_eq!(chosen(&rules, &packet(4)), Ok(Some(1)));
        }
    }
    assert_eq!(chosen(&vec![plain; 64], &packet(4)), Ok(Some(0)));
}

#[test]
fn no_rules() {
    assert_eq!(chosen(&[], &packet(4)), Ok(None));
    assert_eq!(chosen(&[], &packet(5)), Err(Refusal::BadPacket));
}

#[test]
fn refusals_in_order() {
    let bad = Flow {
        family: 4,
        rule: rule(&[list(3, &[(0xC1, 6)])]),
    };
    let of_none = Flow {
        family: 7,
        rule: rule(&[]),
    };
    let (four, six) = (flow(4, "00"), flow(6, "00"));
    let too_many = vec![bad.clone(); 65];
    assert_eq!(
        chosen(&too_many, &packet(5)),
        Err(Refusal::TooManyRules(65))
    );
    assert_eq!(
        chosen(&vec![four.clone(); 100], &packet(4)),
        Err(Refusal::TooManyRules(100))
    );
    assert_eq!(chosen(&too_many[..64], &packet(5)), Err(Refusal::BadPacket));
    assert_eq!(chosen(&too_many[..64], &packet(4)), Err(Refusal::BadRecord));
    // A bad rule comes before one of another family, wherever the two stand.
    for bad in [bad, of_none] {
        let rules = [six.clone(), four.clone(), bad];
        assert_eq!(chosen(&rules, &packet(4)), Err(Refusal::BadRecord));
        assert_eq!(
            chosen(&rules[..2], &packet(4)),
            Err(Refusal::MixedFamily(0))
        );
        assert_eq!(
            chosen(&rules[..2], &packet(6)),
            Err(Refusal::MixedFamily(1))
        );
    }
}

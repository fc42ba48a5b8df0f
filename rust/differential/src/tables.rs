//! Tables of rules to choose from, and packets for them.

use crate::stored::{Stored, FAMILY, FIRST, WORDS};
use crate::{flows, packets, records, MOST_RULES};
use inputs::Random;
use standard::Flow;

/// Adds a rule with its operators to a table, which has them all in one pair of lists.
pub fn push(table: &mut Stored, rule: &Stored) {
    let first = table.values.len() as u64;
    table.words.extend(&rule.words);
    let own = table.words.len() - rule.words.len();
    if let Some(place) = table.words.get_mut(own + FIRST) {
        *place = place.wrapping_add(first);
    }
    // Operators that only one of the lists has are no operators.
    let places = rule.values.len().min(rule.octets.len());
    table.values.extend(&rule.values[..places]);
    table.octets.extend(&rule.octets[..places]);
}

/// A table of no rules.
pub fn empty() -> Stored {
    Stored {
        words: Vec::new(),
        values: Vec::new(),
        octets: Vec::new(),
    }
}

/// Puts the operators of all rules into one pair of lists, which each of them is lent.
pub fn share_lists(rules: &mut [Stored]) {
    let mut table = empty();
    rules.iter().for_each(|rule| push(&mut table, rule));
    for (rule, words) in rules.iter_mut().zip(table.words.chunks(WORDS)) {
        rule.words = words.to_vec();
        rule.values = table.values.clone();
        rule.octets = table.octets.clone();
    }
}

/// A random table and the words of a packet: rules that are much like one another, so that several
/// match and some rank equal, a packet near one of them; one time in five with one or two faults.
/// Tells how it was made.
pub fn random(random: &mut Random) -> (Stored, Vec<u64>, &'static str) {
    let family = random.pick(&[4, 6]);
    let count = match random.below(16) {
        0 => random.below(2),
        1..=9 => 2 + random.below(6),
        10..=13 => 8 + random.below(9),
        14 => 16 + random.below(32),
        _ => MOST_RULES - random.below(3),
    };
    let mut rules = rules(family, count, random);
    let differ = flows::distinguish(&mut rules.iter_mut().collect::<Vec<_>>(), random);
    let aim = match rules.is_empty() {
        true => flows::good(family, random),
        false => rules[random.below(rules.len())].clone(),
    };
    let packet = packets::near(&aim, random).0;
    let mut packet = packets::words(&packet).to_vec();
    let mut table = store_all(&rules, random);
    let mut what = match rules.len() {
        _ if differ => "distinguishers that differ",
        0 => "no rules",
        1 => "one rule",
        2..=8 => "2 to 8 rules",
        9..=63 => "9 to 63 rules",
        _ => "64 rules",
    };
    if random.once_in(5) {
        what = fault(&mut table, &mut packet, random);
        if random.once_in(2) {
            fault(&mut table, &mut packet, random);
            what = "two faults";
        }
    }
    (table, packet, what)
}

/// So many rules: each like one that is there, or the same, or any.
fn rules(family: u8, count: usize, random: &mut Random) -> Vec<Flow> {
    let mut rules: Vec<Flow> = Vec::new();
    let odds = random.pick(&[2, 4, 16]);
    while rules.len() < count {
        let next = match rules.len() {
            0 => flows::good(family, random),
            _ if random.once_in(odds) => flows::good(family, random),
            there => flows::like(&rules[random.below(there)], random).0,
        };
        rules.push(next);
    }
    rules
}

/// Stores the rules; of two that are the same the later may name the operators of the earlier.
fn store_all(rules: &[Flow], random: &mut Random) -> Stored {
    let mut table = empty();
    let mut rule = Stored::new(0);
    for (place, flow) in rules.iter().enumerate() {
        let same = rules[..place].iter().position(|other| other == flow);
        match same {
            Some(same) if random.once_in(2) => {
                let words = table.words[same * WORDS..(same + 1) * WORDS].to_vec();
                table.words.extend(words);
            }
            _ => {
                flows::store(flow, random, &mut rule);
                push(&mut table, &rule);
            }
        }
    }
    table
}

/// Spoils the packet or the table, so that it is refused most often.
fn fault(table: &mut Stored, packet: &mut Vec<u64>, random: &mut Random) -> &'static str {
    let rules = table.words.len() / WORDS;
    let at = random.below(rules.max(1)) * WORDS;
    match random.below(10) {
        0 if packet.len() == packets::WORDS => {
            packets::spoil(random, packet);
            "a packet spoiled"
        }
        1 | 2 if rules != 0 => {
            damage_rule(table, at, random);
            "a rule damaged"
        }
        3 if rules != 0 => {
            // A rule without prefixes is as good in the other family, if it has no flow label.
            let held = table.words[at + FAMILY];
            table.words[at + FAMILY] =
                random.pick(&[held ^ 2, held ^ 2, 0, 5, 255, 256 + 4, u64::MAX]);
            "another family"
        }
        4 if rules != 0 => {
            exchange_rule(table, at, random);
            "a rule of the other family"
        }
        5 => {
            let over = 1 + random.below(WORDS - 1);
            let words = (0..over).map(|_| random.below(2) as u64);
            table.words.extend(words);
            "words left over"
        }
        6 if rules != 0 => {
            let words = table.words[at..at + WORDS].to_vec();
            for _ in rules..MOST_RULES + 1 + random.pick(&[0, 0, 1, 70]) {
                table.words.extend(&words);
            }
            "too many rules"
        }
        7 if rules != 0 && widen_rule(table, at, random) => "a value too wide for its type",
        8 if rules != 0 => {
            records::damage_distinguisher(random, &mut table.words[at..at + WORDS]);
            "a distinguisher damaged"
        }
        _ => {
            shorten_lists(table, random);
            "lists too short"
        }
    }
}

/// Damages the rule whose words begin at this place, or the lists.
fn damage_rule(table: &mut Stored, at: usize, random: &mut Random) {
    let mut rule = Stored {
        words: table.words[at..at + WORDS].to_vec(),
        values: std::mem::take(&mut table.values),
        octets: std::mem::take(&mut table.octets),
    };
    records::damage(random, &mut rule);
    table.words[at..at + WORDS].copy_from_slice(&rule.words);
    (table.values, table.octets) = (rule.values, rule.octets);
}

/// Makes a value too wide, of the rule whose words begin at this place or of the next that can have
/// one: whether there is such a rule.
fn widen_rule(table: &mut Stored, at: usize, random: &mut Random) -> bool {
    let (before, from) = table.words.split_at(at);
    let mut rules = from.chunks_exact(WORDS).chain(before.chunks_exact(WORDS));
    rules.any(|words| flows::widen(random, words, &mut table.octets))
}

/// Puts a rule of the other family in place of the one whose words begin at this place.
fn exchange_rule(table: &mut Stored, at: usize, random: &mut Random) {
    let family = if table.words[at + FAMILY] == 4 { 6 } else { 4 };
    let mut rule = Stored::new(0);
    flows::store(&flows::good(family, random), random, &mut rule);
    let mut other = empty();
    let places = table.values.len().min(table.octets.len());
    other.values = table.values[..places].to_vec();
    other.octets = table.octets[..places].to_vec();
    push(&mut other, &rule);
    table.words[at..at + WORDS].copy_from_slice(&other.words);
    (table.values, table.octets) = (other.values, other.octets);
}

/// Takes up to three places from the end of one list or of both.
fn shorten_lists(table: &mut Stored, random: &mut Random) {
    let fewer = random.below(4);
    let lists = random.below(3);
    if lists != 0 {
        table
            .values
            .truncate(table.values.len().saturating_sub(fewer));
    }
    if lists != 1 {
        table
            .octets
            .truncate(table.octets.len().saturating_sub(fewer));
    }
}

//! Matches, rankings and choices put to the proved code and to its peers, and every answer compared.
//! All that is lent is only read here, so that the answers are all there is to compare. The two
//! choosers that are timed beside the proved one are held to the same answers.

use crate::compare::{numbers_text, record_text, refusal_text, Comparison};
use crate::stored::{Stored, FAMILY, WORDS};
use crate::{archive, flows, packets, peers, records, tables, Answer};
use inputs::Random;
use standard::Flow;

/// In how many ways of being made the random cases came: their number by the way's name.
pub type Ways = std::collections::BTreeMap<&'static str, u64>;

impl Comparison {
    /// Compares whether the rule matches the packet that words lend.
    pub fn matching(&mut self, rule: &Stored, packet: &[u64]) {
        let wanted = peers::matches(rule, packet);
        self.count(
            wanted,
            ["does not match", "matches"][wanted.first as usize % 2],
        );
        let found = Answer::from(archive::matches(rule, packet));
        self.same("match", [found, wanted], &[], &[rule], packet);
    }

    /// Compares which of two rules precedes.
    pub fn ranking(&mut self, one: &Stored, other: &Stored) {
        let wanted = peers::rank(one, other);
        let told = ["equal", "the first precedes", "the second precedes"];
        self.count(wanted, told[wanted.first as usize % 3]);
        let found = Answer::from(archive::rank(one, other));
        let timed = peers::timed_rank(one, other);
        self.same("ranking", [found, wanted], &timed, &[one, other], &[]);
    }

    /// Compares which rule of a table decides.
    pub fn choosing(&mut self, table: &Stored, packet: &[u64]) {
        let wanted = peers::choose(table, packet);
        self.count(wanted, ["no rule", "a rule"][wanted.first as usize % 2]);
        let found = Answer::from(archive::choose(table, packet));
        let timed = peers::timed_choose(table, packet);
        self.same("choice", [found, wanted], &timed, &[table], packet);
    }

    /// Whether what the proved code answered is what was wanted, and what those answer too that are
    /// timed beside it.
    fn same(
        &mut self,
        what: &str,
        [found, wanted]: [Answer; 2],
        timed: &[Answer],
        records: &[&Stored],
        packet: &[u64],
    ) {
        self.calls += 1;
        if found == wanted && timed.iter().all(|&answer| answer == wanted) {
            return;
        }
        let mut lines = vec![format!("differ: {what}")];
        lines.extend(records.iter().flat_map(|record| rule_lines(record)));
        lines.push(format!("  packet: {packet:X?}"));
        let timed = timed.iter().map(|answer| ("timed", answer));
        for (whose, answer) in [("proved", &found), ("wanted", &wanted)]
            .into_iter()
            .chain(timed)
        {
            let told = match answer.status {
                0 => numbers_text(*answer),
                _ => refusal_text(*answer),
            };
            lines.push(format!("  {whose}: {told}"));
        }
        self.difference(&lines);
    }
}

/// The rules that words store, and the lists.
pub(crate) fn rule_lines(record: &Stored) -> Vec<String> {
    let rules = record.words.chunks(WORDS);
    let rules = rules.map(|words| format!("  rule: {}", record_text(words, &[], &[])));
    let lists = record_text(&[], &record.values, &record.octets);
    rules.chain([format!("  lists: {lists}")]).collect()
}

/// A random match: a rule, and a packet near what it or one like it asks for; one time in five
/// the rule is damaged, also in its distinguisher, or has a value that is too wide, the packet is
/// spoiled or of the other family, or the words are too few or more.
pub fn random_match(random: &mut Random, comparison: &mut Comparison, ways: &mut Ways) {
    let family = random.pick(&[4, 6]);
    let mut flow = flows::good(family, random);
    flows::distinguish(&mut [&mut flow], random);
    let (packet, mut way) = match random.below(8) {
        0 => packets::near(&flows::like(&flow, random).0, random),
        _ => packets::near(&flow, random),
    };
    let mut packet = packets::words(&packet).to_vec();
    let mut rule = Stored::new(0);
    flows::store(&flow, random, &mut rule);
    match random.below(24) {
        0 => {
            records::damage(random, &mut rule);
            way = "a rule damaged";
        }
        1 => {
            packets::spoil(random, &mut packet);
            way = "a packet spoiled";
        }
        2 => {
            let other = packets::any(family ^ 2, random);
            packet = packets::words(&other).to_vec();
            way = "a packet of the other family";
        }
        3 => {
            behind(random, &mut rule);
            way = "words behind the rule, or too few";
        }
        4 if flows::widen(random, &rule.words, &mut rule.octets) => way = TOO_WIDE,
        5 => {
            records::damage_distinguisher(random, &mut rule.words);
            way = DISTINGUISHER_DAMAGED;
        }
        _ => {}
    }
    *ways.entry(way).or_insert(0) += 1;
    comparison.matching(&rule, &packet);
}

const TOO_WIDE: &str = "a value too wide for its type";
const DISTINGUISHER_DAMAGED: &str = "a distinguisher damaged";

/// Puts words behind a rule's own, or takes some of those away.
fn behind(random: &mut Random, rule: &mut Stored) {
    let count = random.pick(&[0, 1, 55, 63, 64, 65, 67, 128]);
    rule.words.resize_with(count, || random.value());
}

/// A random ranking: mostly of rules that differ in one thing, or in two.
pub fn random_ranking(random: &mut Random, comparison: &mut Comparison, ways: &mut Ways) {
    let (mut one, mut other, mut way) = two_flows(random);
    if flows::distinguish(&mut [&mut one, &mut other], random) {
        way = "distinguishers that differ";
    }
    let mut stored = [Stored::new(0), Stored::new(0)];
    flows::store(&one, random, &mut stored[0]);
    flows::store(&other, random, &mut stored[1]);
    let which = random.below(2);
    match random.below(24) {
        0 => {
            records::damage(random, &mut stored[which]);
            way = "one damaged";
        }
        1 => {
            behind(random, &mut stored[which]);
            way = "words behind one, or too few";
        }
        2 => {
            tables::share_lists(&mut stored);
            way = "both in one pair of lists";
        }
        3 => {
            stored[which].words[FAMILY] ^= 2;
            way = "a family exchanged";
        }
        4 => {
            let rule = &mut stored[which];
            if flows::widen(random, &rule.words, &mut rule.octets) {
                way = TOO_WIDE;
            }
        }
        5 => {
            records::damage_distinguisher(random, &mut stored[which].words);
            way = DISTINGUISHER_DAMAGED;
        }
        _ => {}
    }
    *ways.entry(way).or_insert(0) += 1;
    comparison.ranking(&stored[which], &stored[1 - which]);
}

/// Two rules, and in what they differ.
fn two_flows(random: &mut Random) -> (Flow, Flow, &'static str) {
    let family = random.pick(&[4, 6]);
    let one = flows::good(family, random);
    let (other, way) = flows::like(&one, random);
    match random.below(12) {
        0 => (one, flows::good(family, random), "any two"),
        1 => (one, flows::good(family ^ 2, random), "of both families"),
        2 | 3 => (one, flows::like(&other, random).0, "two things"),
        _ => (one, other, way),
    }
}

/// A random choice.
pub fn random_choice(random: &mut Random, comparison: &mut Comparison, ways: &mut Ways) {
    let (table, packet, way) = tables::random(random);
    *ways.entry(way).or_insert(0) += 1;
    comparison.choosing(&table, &packet);
}

//! Rank held to octets: rules that are well-formed and of one family and one distinguisher are
//! written by the proved code, read back and ranked, every two both ways round, and the answers
//! held to one another and to `standard`.

use crate::compare::Comparison;
use crate::decisions::{rule_lines, Ways};
use crate::requests::hex;
use crate::stored::{self, Stored};
use crate::{archive, pairs, Answer, Form, LONGEST_INPUT};
use inputs::Random;
use standard::{Component, Content, Flow};
use std::cmp::Ordering;

/// A rule as it is lent, and what the proved code makes of it.
struct Known<'a> {
    lent: &'a Stored,
    flow: Flow,
    written: Vec<u8>,
    read: Stored,
}

impl Comparison {
    /// Compares of these rules every two and every three. None of them may be refused.
    pub fn among(&mut self, rules: &[Stored]) {
        let known = rules.iter().map(|rule| self.known(rule));
        let known: Vec<Known> = match known.collect() {
            Some(known) => known,
            None => return,
        };
        let mut ranks = vec![vec![Ordering::Equal; known.len()]; known.len()];
        for one in 0..known.len() {
            for other in one + 1..known.len() {
                match self.pair(&known[one], &known[other]) {
                    Some([forth, back]) => {
                        ranks[one][other] = forth;
                        ranks[other][one] = back;
                    }
                    None => return,
                }
            }
        }
        for three in threes(known.len()).filter(|&three| !is_carried(&ranks, three)) {
            let mut lines = vec!["differ: ranks of three".to_string()];
            lines.extend(three.iter().flat_map(|&at| known[at].lines()));
            let [one, two, third] = three;
            for [one, other] in [[one, two], [two, third], [one, third]] {
                lines.push(format!("  ranked: {:?}", ranks[one][other]));
            }
            self.difference(&lines);
        }
    }

    /// Writes a rule with room for all, and reads what was written. Nothing where it is refused.
    fn known<'a>(&mut self, lent: &'a Stored) -> Option<Known<'a>> {
        let Stored {
            words,
            values,
            octets,
        } = lent;
        let flow = stored::flow(words, values, octets);
        let form = match flow.rule.distinguisher {
            None => Form::Standard(flow.family),
            Some(_) => Form::WithDistinguisher(flow.family),
        };
        let operators = flow.rule.components.iter().map(operators_in).sum();
        let mut known = Known {
            lent,
            flow,
            written: vec![0; LONGEST_INPUT],
            read: Stored::new(0),
        };
        self.calls += 2;
        let answer = archive::write(form, words, values, octets, &mut known.written);
        let written = Answer::from(answer);
        known.written.truncate(written.first as usize);
        let read = &mut known.read;
        read.values.resize(operators, 0);
        read.octets.resize(operators, 0);
        let found = Answer::from(archive::read(
            form,
            &known.written,
            &mut read.words,
            &mut read.values,
            &mut read.octets,
        ));
        let wanted = Answer::accepted(known.written.len(), operators);
        if written.is_accepted() && found == wanted {
            return Some(known);
        }
        let mut lines = vec!["differ: writing of a rule, and reading of that".to_string()];
        lines.extend(known.lines());
        lines.push(format!("  proved: {written:?}, then {found:?}"));
        self.difference(&lines);
        None
    }

    /// Compares two rules: how they rank, by both ways round. Nothing where they are refused.
    fn pair(&mut self, one: &Known, other: &Known) -> Option<[Ordering; 2]> {
        self.calls += 2;
        let answers = [
            Answer::from(archive::rank(one.lent, other.lent)),
            Answer::from(archive::rank(other.lent, one.lent)),
        ];
        let mut wrong = Vec::new();
        let ranks = match answers.map(order) {
            [Some(forth), Some(back)] => Some([forth, back]),
            _ => None,
        };
        match ranks {
            Some(ranks) => wrong.extend(self.wrong_ranks(one, other, ranks)),
            None => wrong.push("two well-formed rules are ranked"),
        }
        if !wrong.is_empty() {
            let mut lines = vec!["differ: ranks of two".to_string()];
            lines.extend(one.lines().chain(other.lines()));
            lines.push(format!("  proved: {answers:?}"));
            lines.extend(wrong.iter().map(|sentence| format!("  not so: {sentence}")));
            self.difference(&lines);
        }
        ranks
    }

    /// Which sentences do not hold of the ranks of two rules.
    fn wrong_ranks(
        &mut self,
        one: &Known,
        other: &Known,
        [forth, back]: [Ordering; 2],
    ) -> impl Iterator<Item = &'static str> {
        let bodies = order_of_bodies(one.body(), other.body());
        let by_octets = is_by_octets(&one.flow, &other.flow);
        let told = match (forth, by_octets) {
            (Ordering::Equal, _) if one.lent == other.lent => "equal and lent alike",
            (Ordering::Equal, _) => "equal but lent otherwise",
            (_, true) => "ordered by octets",
            _ if bodies == forth => "prefixes in the order of their octets",
            _ => "prefixes against the order of their octets",
        };
        self.count(Answer::accepted(0, 0), told);
        let is_equal = forth == Ordering::Equal;
        let sentences = [
            (
                "the other way round the answer is the opposite",
                back == forth.reverse(),
            ),
            (
                "they rank equal exactly if they are written alike",
                is_equal == (one.written == other.written),
            ),
            (
                "they rank equal exactly if what is written reads as the same rule",
                is_equal == (one.read == other.read),
            ),
            (
                "they rank as their bodies do octet by octet",
                !by_octets || bodies == forth,
            ),
            (
                "they rank as by the standard code",
                standard::rank(&one.flow, &other.flow) == Ok(forth),
            ),
        ];
        let wrong = sentences.into_iter().filter(|(_, holds)| !holds);
        wrong.map(|(sentence, _)| sentence)
    }
}

impl Known<'_> {
    /// What follows the length field.
    fn body(&self) -> &[u8] {
        match self.written[0] {
            0..=239 => &self.written[1..],
            _ => &self.written[2..],
        }
    }

    fn lines(&self) -> impl Iterator<Item = String> {
        let written = format!("  written: {}", hex(&self.written));
        rule_lines(self.lent).into_iter().chain([written])
    }
}

fn operators_in(component: &Component) -> usize {
    match &component.content {
        Content::Prefix(_) => 0,
        Content::List(list) => list.len(),
    }
}

/// How two rules rank by an answer, if it is one.
fn order(answer: Answer) -> Option<Ordering> {
    let orders = [Ordering::Equal, Ordering::Less, Ordering::Greater];
    let is_answer = |place: &usize| answer == Answer::accepted(*place, 0);
    (0..3).find(is_answer).map(|place| orders[place])
}

/// Whether two rules are to rank as their bodies do: where the first component in which they differ
/// is not a prefix in both, or is one of the same length in both.
fn is_by_octets(one: &Flow, other: &Flow) -> bool {
    let mut pairs = one.rule.components.iter().zip(&other.rule.components);
    // Reserved bits may tell two lists apart that are written alike; behind a list is no prefix.
    match pairs.find(|(one, other)| one != other) {
        // Prefixes of two types are told apart by the types.
        Some((one, other)) if one.kind == other.kind => is_told(&one.content, &other.content),
        _ => true,
    }
}

/// Whether two contents of a type are no prefixes, or such of the same length: the offset comes next
/// in the octets, and in rank it comes first.
fn is_told(one: &Content, other: &Content) -> bool {
    match (one, other) {
        (Content::Prefix(one), Content::Prefix(other)) => one.length == other.length,
        _ => true,
    }
}

/// Octet by octet, an ended body counting above every octet.
fn order_of_bodies(one: &[u8], other: &[u8]) -> Ordering {
    with_end(one).cmp(with_end(other))
}

fn with_end(body: &[u8]) -> impl Iterator<Item = u16> + '_ {
    let ended = 1 + u16::from(u8::MAX);
    body.iter().copied().map(u16::from).chain([ended])
}

/// Every three of so many, in every order.
fn threes(count: usize) -> impl Iterator<Item = [usize; 3]> {
    let twos = (0..count).flat_map(move |one| (0..count).map(move |two| (one, two)));
    let threes = twos.flat_map(move |(one, two)| (0..count).map(move |third| [one, two, third]));
    threes.filter(|[one, two, third]| one != two && two != third && one != third)
}

/// Whether what precedes a rule precedes all that the rule does, and what ranks equal to it ranks
/// as it does.
fn is_carried(ranks: &[Vec<Ordering>], [one, two, third]: [usize; 3]) -> bool {
    let (from_one, from_two) = (ranks[one][third], ranks[two][third]);
    match ranks[one][two] {
        Ordering::Equal => from_one == from_two,
        Ordering::Less => from_two != Ordering::Less || from_one == Ordering::Less,
        Ordering::Greater => true,
    }
}

/// A random set of rules.
pub fn random_set(random: &mut Random, comparison: &mut Comparison, ways: &mut Ways) {
    let (rules, made) = pairs::random(random);
    let pairs = rules.len() * (rules.len() - 1) / 2;
    *ways.entry("further apart").or_insert(0) += (pairs - made.len()) as u64;
    for way in made {
        *ways.entry(way).or_insert(0) += 1;
    }
    comparison.among(&rules);
}

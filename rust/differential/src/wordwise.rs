//! The straightforward Rust chooser over rules as they are stored, to time the proved one beside it.
//!
//! It is lent what the proved one is: the words of the rules, their operators in two lists, the
//! words of a packet. It makes the same checks: the number of rules, the packet, then of each rule
//! that its words are a record and that the standard writing takes it, the families, the
//! distinguishers. Then it goes over the rules once more and keeps the best that matches. Prefixes
//! are looked at where they stand, lists are asked what `standard::direct` asks; nothing is
//! allocated.

use crate::packets;
use crate::stored::{Stored, COUNT, DISTINGUISHED, FAMILY, FIRST, UNUSED, WORDS};
use crate::stored::{IPV4, IPV6_OFFSET};
use crate::{LONGEST_BODY, MOST_COMPONENTS, MOST_OPERATORS, MOST_RULES};
use standard::{direct, Operator, Packet, Refusal, DISTINGUISHER_OCTETS};
use std::cmp::Ordering;

/// The place of the rule that decides.
pub fn choose(table: &Stored, packet: &[u64]) -> Result<Option<usize>, Refusal> {
    let words = table.words.chunks_exact(WORDS);
    let left_over = !words.remainder().is_empty();
    let rules = words.map(|words| Lent::new(words, &table.values, &table.octets));
    if rules.len() > MOST_RULES {
        return Err(Refusal::TooManyRules(rules.len()));
    }
    let packet = packets::packet(packet);
    if !packet.is_in_range() {
        return Err(Refusal::BadPacket);
    }
    if left_over || !rules.clone().all(|rule| rule.is_well_formed()) {
        return Err(Refusal::BadRecord);
    }
    let is_other = |rule: Lent| rule.words[FAMILY] != packet.family;
    if let Some(place) = rules.clone().position(is_other) {
        return Err(Refusal::MixedFamily(place));
    }
    let first = rules.clone().next().map(Lent::distinguisher);
    let differs = |rule: Lent| Some(rule.distinguisher()) != first;
    if let Some(place) = rules.clone().position(differs) {
        return Err(Refusal::MixedDistinguisher(place));
    }
    let mut best: Option<(usize, Lent)> = None;
    for (place, rule) in rules.enumerate() {
        let precedes = |(_, best): (usize, Lent)| order(rule, best) == Ordering::Less;
        if rule.matches(&packet) && best.map_or(true, precedes) {
            best = Some((place, rule));
        }
    }
    Ok(best.map(|(place, _)| place))
}

/// Which of two rules precedes.
pub fn rank(one: &Stored, other: &Stored) -> Result<Ordering, Refusal> {
    if one.words.len() < WORDS || other.words.len() < WORDS {
        return Err(Refusal::BadRecord);
    }
    let [one, other] = [one, other].map(|rule| Lent::new(&rule.words, &rule.values, &rule.octets));
    if !one.is_well_formed() || !other.is_well_formed() {
        return Err(Refusal::BadRecord);
    }
    if one.words[FAMILY] != other.words[FAMILY] {
        return Err(Refusal::MixedFamily(1));
    }
    if one.distinguisher() != other.distinguisher() {
        return Err(Refusal::MixedDistinguisher(1));
    }
    Ok(order(one, other))
}

/// A rule's words and the lists that they speak of, equally long.
#[derive(Clone, Copy)]
pub(crate) struct Lent<'a> {
    words: &'a [u64],
    values: &'a [u64],
    octets: &'a [u8],
}

/// The words of a component: type + 16 x form, then length + 256 x offset and an address, or start
/// and count.
pub(crate) type Group = [u64; 4];

impl<'a> Lent<'a> {
    /// The rule at the front of at least 64 words.
    pub(crate) fn new(words: &'a [u64], values: &'a [u64], octets: &'a [u8]) -> Self {
        let places = values.len().min(octets.len());
        Lent {
            words: &words[..WORDS],
            values: &values[..places],
            octets: &octets[..places],
        }
    }

    /// The distinguisher's words: 1 and its number, or 0 and 0.
    pub(crate) fn distinguisher(self) -> [u64; 2] {
        [self.words[DISTINGUISHED], self.words[DISTINGUISHED + 1]]
    }

    /// The components in turn, of which there must not be too many.
    pub(crate) fn groups(self) -> impl Iterator<Item = Group> + 'a {
        let used = &self.words[..4 * self.words[COUNT] as usize];
        used.chunks_exact(4)
            .map(|group| [group[0], group[1], group[2], group[3]])
    }

    /// The operators of a list, if they are within the lent lists.
    pub(crate) fn list(
        self,
        [_, start, count, _]: Group,
    ) -> Option<impl Iterator<Item = Operator> + Clone + 'a> {
        let from = self.words[FIRST].checked_add(start)?;
        let places = from as usize..from.checked_add(count)? as usize;
        let octets = self.octets.get(places.clone())?;
        let pairs = octets.iter().zip(self.values.get(places)?);
        Some(pairs.map(|(&octet, &value)| Operator { octet, value }))
    }

    fn is_well_formed(self) -> bool {
        let family = self.words[FAMILY];
        let body = || self.body_octets(family);
        [4, 6].contains(&family) && body().map_or(false, |octets| octets <= LONGEST_BODY)
    }

    /// The octets of the body that the rule is written with in a family, 4 or 6, if its words are a
    /// record that the standard writing takes.
    pub(crate) fn body_octets(self, family: u64) -> Option<usize> {
        let count = self.words[COUNT];
        if count > MOST_COMPONENTS as u64 || self.words[FAMILY] > 255 {
            return None;
        }
        let is_empty = |words: &[u64]| words.iter().all(|&word| word == 0);
        if !is_empty(&self.words[4 * count as usize..COUNT]) || !is_empty(&self.words[UNUSED..]) {
            return None;
        }
        let mut body = match self.distinguisher() {
            [0, 0] => 0,
            [1, _] => DISTINGUISHER_OCTETS,
            _ => return None,
        };
        let (mut previous, mut operators) = (0, 0);
        for group in self.groups() {
            let (kind, form) = (group[0] % 16, group[0] / 16);
            let octets = match (kind, form, family) {
                (1 | 2, IPV4, 4) | (1 | 2, IPV6_OFFSET, 6) => prefix_octets(group),
                (3..=13, 0, _) if group[3] == 0 => {
                    operators = group[2].saturating_add(operators);
                    let list = self.list(group);
                    list.and_then(|list| direct::list_octets(family as u8, kind as u8, list))
                }
                _ => None,
            };
            match octets {
                Some(octets) if kind > previous => body += octets,
                _ => return None,
            }
            previous = kind;
        }
        Some(body).filter(|_| operators <= MOST_OPERATORS as u64)
    }

    /// Whether the rule, which is well-formed, matches.
    fn matches(self, packet: &Packet) -> bool {
        self.groups().all(|group| match group[0] % 16 {
            1 => (address(group) ^ packet.destination) & mask(group) == 0,
            2 => (address(group) ^ packet.source) & mask(group) == 0,
            kind => self
                .list(group)
                .map_or(false, |list| direct::list_matches(kind as u8, list, packet)),
        })
    }
}

/// The address of a prefix, as a packet has it.
pub(crate) fn address([named, _, high, low]: Group) -> u128 {
    match named / 16 {
        IPV4 => high.into(),
        _ => u128::from(high) << 64 | u128::from(low),
    }
}

/// The bits of an address from the prefix's offset up to its length.
fn mask([named, range, ..]: Group) -> u128 {
    let (offset, length) = ((range / 256) as u32, (range % 256) as u32);
    let size = if named / 16 == IPV4 { 32 } else { 128 };
    let from = |place: u32| u128::MAX.checked_shr(128 - size + place).unwrap_or(0);
    from(offset) & !from(length)
}

/// The octets that a prefix is written in, if it is a good one of its form.
fn prefix_octets(group: Group) -> Option<usize> {
    let [named, range, _, low] = group;
    let (offset, length) = (range / 256, range % 256);
    let in_range = match named / 16 {
        IPV4 => offset == 0 && length <= 32 && low == 0,
        _ => range == 0 || (offset < length && length <= 128),
    };
    if !in_range || address(group) & !mask(group) != 0 {
        return None;
    }
    let fixed = if named / 16 == IPV4 { 2 } else { 3 };
    Some(fixed + (length - offset + 7) as usize / 8)
}

/// The order of two rules that are well-formed in one family; a rule that goes on precedes.
fn order(one: Lent, other: Lent) -> Ordering {
    for (ours, theirs) in one.groups().zip(other.groups()) {
        let (kind, other_kind) = (ours[0] % 16, theirs[0] % 16);
        let order = match kind {
            _ if kind != other_kind => kind.cmp(&other_kind),
            1 | 2 => order_of_prefixes(ours, theirs),
            _ => match (one.list(ours), other.list(theirs)) {
                (Some(one), Some(other)) => direct::order_of_lists(kind as u8, one, other),
                _ => unreachable!("the lists were tested"),
            },
        };
        if order != Ordering::Equal {
            return order;
        }
    }
    other.words[COUNT].cmp(&one.words[COUNT])
}

/// The offset, the bits that both have, the longer.
fn order_of_prefixes(ours: Group, theirs: Group) -> Ordering {
    let by_offset = (ours[1] / 256).cmp(&(theirs[1] / 256));
    let both = mask(ours) & mask(theirs);
    let by_bits = by_offset.then_with(|| (address(ours) & both).cmp(&(address(theirs) & both)));
    by_bits.then_with(|| theirs[1].cmp(&ours[1]))
}

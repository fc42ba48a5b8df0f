//! Whether a rule matches a packet.

use crate::checking::check;
use crate::packets::Packet;
use crate::refusals::Refusal;
use crate::rules::{Address, Component, Content, Flow, Operator, Prefix, Rule};
use crate::terms::{width, AND, EQUAL, GREATER, LESS, MATCH, NOT};

/// Whether the rule matches; refused as the chooser refuses this rule alone and the packet.
pub fn matches(flow: &Flow, packet: &Packet) -> Result<bool, Refusal> {
    check(std::slice::from_ref(flow), packet)?;
    Ok(is_match(&flow.rule, packet))
}

/// RFC 8955, 4.2: every component must match. Rule and packet were tested.
pub(crate) fn is_match(rule: &Rule, packet: &Packet) -> bool {
    let matches = |component: &Component| match &component.content {
        Content::Prefix(prefix) => {
            let address = [packet.destination, packet.source][usize::from(component.kind != 1)];
            prefix_matches(prefix, address)
        }
        Content::List(list) => numbers(component.kind, packet)
            .into_iter()
            .any(|number| list_matches(component.kind, list, packet.family, number)),
    };
    rule.components.iter().all(matches)
}

/// RFC 8955, 4.2.2.1 and RFC 8956, 3.1: the bits from the offset up to the length are the prefix's.
fn prefix_matches(prefix: &Prefix, packet: u128) -> bool {
    let (address, size) = match prefix.address {
        Address::Ipv4(address) => (u128::from(address), 32),
        Address::Ipv6(address) => (address, 128),
    };
    let bit = |address: u128, place: u8| address >> (size - 1 - place) & 1;
    let mut bits = prefix.offset.unwrap_or(0)..prefix.length;
    bits.all(|place| bit(address, place) == bit(packet, place))
}

/// The packet's numbers that a type speaks of (RFC 8955, 4.2.2.3 to 4.2.2.12; RFC 8956, 3.7). One of
/// them has to satisfy the whole list: of a field that is absent there is none, of the ports there
/// are two.
fn numbers(kind: u8, packet: &Packet) -> Vec<u64> {
    let source_port = packet.ports.map(|(source, _)| source);
    let destination_port = packet.ports.map(|(_, destination)| destination);
    let found = match kind {
        3 => [Some(packet.protocol), None],
        4 => [source_port, destination_port],
        5 => [destination_port, None],
        6 => [source_port, None],
        7 => [packet.icmp.map(|(kind, _)| kind), None],
        8 => [packet.icmp.map(|(_, code)| code), None],
        9 => [packet.flags, None],
        10 => [Some(packet.length), None],
        11 => [Some(packet.dscp), None],
        12 => [Some(packet.fragment), None],
        _ => [packet.label, None],
    };
    found.into_iter().flatten().collect()
}

fn list_matches(kind: u8, list: &[Operator], family: u64, number: u64) -> bool {
    let mut alternatives = alternatives(list).into_iter();
    match kind {
        9 => {
            let holds = |one: &Operator| mask_holds(one, !0, header_octets(one, number));
            alternatives.any(|joined| joined.iter().all(holds))
        }
        12 => {
            // RFC 8955, 4.2.2.12: four bits. RFC 8956, 3.6: there is no DF.
            let counted = if family == 6 { 0b1110 } else { 0b1111 };
            alternatives.any(|joined| joined.iter().all(|one| mask_holds(one, counted, number)))
        }
        // RFC 8955, 4.2.2.11: six bits.
        11 => alternatives.any(|joined| Numbers::of_all(joined, 0b11_1111).has(number)),
        _ => alternatives.any(|joined| Numbers::of_all(joined, !0).has(number)),
    }
}

/// RFC 8955, 4.2.1.1: AND joins an operator to the one before it, and binds tighter than OR. So a
/// list is a choice between runs of joined operators, each begun by one that has no AND.
fn alternatives(list: &[Operator]) -> Vec<&[Operator]> {
    let begins = |place: &usize| list[*place].octet & AND == 0;
    let starts: Vec<usize> = (0..list.len()).filter(begins).collect();
    let ends = starts.iter().skip(1).copied().chain([list.len()]);
    let runs = starts.iter().zip(ends);
    runs.map(|(&start, end)| &list[start..end]).collect()
}

/// RFC 8955, 4.2.2.9: a mask of one octet is held to octet 14 of the TCP header, a longer one to
/// octets 13 and 14 with the data offset taken as 0.
fn header_octets(operator: &Operator, flags: u64) -> u64 {
    let [.., octet_13, octet_14] = flags.to_be_bytes();
    match width(operator.octet) {
        1 => octet_14.into(),
        _ => u16::from_be_bytes([octet_13 & 0x0F, octet_14]).into(),
    }
}

/// RFC 8955, 4.2.1.2: with the match bit every bit of the mask must be set, without it one of them;
/// NOT turns that around. Only some bits of the mask are counted.
fn mask_holds(operator: &Operator, counted: u64, data: u64) -> bool {
    let mut wanted = (0..64).filter(|bit| (operator.value & counted) >> bit & 1 == 1);
    let is_set = |bit: u32| data >> bit & 1 == 1;
    let holds = match operator.octet & MATCH {
        0 => wanted.any(is_set),
        _ => wanted.all(is_set),
    };
    holds != (operator.octet & NOT != 0)
}

/// A set of numbers: intervals, each with its least and its greatest number, that do not overlap.
struct Numbers(Vec<(u64, u64)>);

impl Numbers {
    /// RFC 8955, 4.2.1.1: less, equal, greater, whichever are set; none of them is the empty set and
    /// all of them is every number. Only some bits of the value are counted.
    fn of(operator: &Operator, counted: u64) -> Numbers {
        let value = operator.value & counted;
        let below = value.checked_sub(1).map(|last| (0, last));
        let above = value.checked_add(1).map(|first| (first, u64::MAX));
        let parts = [
            (LESS, below),
            (EQUAL, Some((value, value))),
            (GREATER, above),
        ];
        let set =
            |(bit, part): (u8, Option<(u64, u64)>)| part.filter(|_| operator.octet & bit != 0);
        Numbers(parts.into_iter().filter_map(set).collect())
    }

    /// The numbers that satisfy all of these.
    fn of_all(operators: &[Operator], counted: u64) -> Numbers {
        let every = Numbers(vec![(0, u64::MAX)]);
        operators.iter().fold(every, |common, operator| {
            common.and(&Numbers::of(operator, counted))
        })
    }

    fn and(&self, other: &Numbers) -> Numbers {
        let overlap = |one: &(u64, u64), two: &(u64, u64)| (one.0.max(two.0), one.1.min(two.1));
        let pairs = self
            .0
            .iter()
            .flat_map(|one| other.0.iter().map(move |two| overlap(one, two)));
        Numbers(pairs.filter(|(first, last)| first <= last).collect())
    }

    fn has(&self, number: u64) -> bool {
        let mut intervals = self.0.iter();
        intervals.any(|&(first, last)| (first..=last).contains(&number))
    }
}

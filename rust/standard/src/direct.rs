//! The chooser as one writes it for use, to time the proved one beside it.
//!
//! It makes the same checks in the same order and gives the same answers as `choose`: how many
//! rules there are, the packet, each rule (one walk over its components and operators, which also
//! counts the octets that it takes), the families, the distinguishers. Then it goes over the rules
//! once more and keeps the best that matches. It allocates nothing, asks for masks instead of bits,
//! gives up a run of joined operators at the first that fails, a list at the first run that holds
//! and a rule at the first component that does not match.
//!
//! What it asks of a prefix and of a list it asks of them wherever they stand: rules that are stored
//! in another form than `Rule` can be chosen from in the same way.

use crate::packets::Packet;
use crate::refusals::Refusal;
use crate::rules::{Address, Component, Content, Flow, Operator, Prefix, Rule};
use crate::terms::{code, is_ipv6_range, most_code, width, BODY, COMPONENTS, OPERATORS, RULES};
use crate::terms::{AND, END, EQUAL, GREATER, LESS, MATCH, NOT};
use std::cmp::Ordering;

/// As `crate::choose`.
pub fn choose(flows: &[Flow], packet: &Packet) -> Result<Option<usize>, Refusal> {
    if flows.len() > RULES {
        return Err(Refusal::TooManyRules(flows.len()));
    }
    if !packet.is_in_range() {
        return Err(Refusal::BadPacket);
    }
    if !flows.iter().all(is_well_formed) {
        return Err(Refusal::BadRecord);
    }
    let is_other = |flow: &Flow| u64::from(flow.family) != packet.family;
    if let Some(place) = flows.iter().position(is_other) {
        return Err(Refusal::MixedFamily(place));
    }
    let differs = |flow: &Flow| flow.rule.distinguisher != flows[0].rule.distinguisher;
    if let Some(place) = flows.iter().position(differs) {
        return Err(Refusal::MixedDistinguisher(place));
    }
    let mut best: Option<usize> = None;
    for (place, flow) in flows.iter().enumerate() {
        let precedes = |best: usize| order(&flow.rule, &flows[best].rule) == Ordering::Less;
        if is_match(&flow.rule, packet) && best.map_or(true, precedes) {
            best = Some(place);
        }
    }
    Ok(best)
}

/// As `crate::rank`.
pub fn rank(one: &Flow, other: &Flow) -> Result<Ordering, Refusal> {
    if !is_well_formed(one) || !is_well_formed(other) {
        return Err(Refusal::BadRecord);
    }
    if one.family != other.family {
        return Err(Refusal::MixedFamily(1));
    }
    if one.rule.distinguisher != other.rule.distinguisher {
        return Err(Refusal::MixedDistinguisher(1));
    }
    Ok(order(&one.rule, &other.rule))
}

fn is_well_formed(flow: &Flow) -> bool {
    let Flow { family, rule } = flow;
    if ![4, 6].contains(family) || rule.components.len() > COMPONENTS {
        return false;
    }
    let (mut previous, mut operators) = (0, 0);
    let mut body = rule.distinguisher.map_or(0, |octets| octets.len());
    for Component { kind, content } in &rule.components {
        let octets = match content {
            Content::Prefix(prefix) => prefix_octets(*family, *kind, prefix),
            Content::List(list) => list_octets(*family, *kind, list.iter().copied()),
        };
        match octets {
            Some(octets) if *kind > previous => body += octets,
            _ => return false,
        }
        if let Content::List(list) = content {
            operators += list.len();
        }
        previous = *kind;
    }
    operators <= OPERATORS && body <= BODY
}

/// The octets that a prefix of this type is written in, if it is a good one in the family.
pub fn prefix_octets(family: u8, kind: u8, prefix: &Prefix) -> Option<usize> {
    let length = prefix.length;
    let (fixed, bits, beside) = match (family, prefix.address, prefix.offset) {
        (4, Address::Ipv4(address), None) if length <= 32 => {
            let past = u32::MAX.checked_shr(length.into()).unwrap_or(0);
            (2, length, u128::from(address & past))
        }
        (6, Address::Ipv6(address), Some(offset)) if is_ipv6_range(length, offset) => {
            (3, length - offset, address & !between(offset, length))
        }
        _ => return None,
    };
    let is_good = [1, 2].contains(&kind) && beside == 0;
    is_good.then(|| fixed + (usize::from(bits) + 7) / 8)
}

/// The address bits from the offset up to the length.
fn between(offset: u8, length: u8) -> u128 {
    let from = |place: u8| u128::MAX.checked_shr(place.into()).unwrap_or(0);
    from(offset) & !from(length)
}

/// The octets that a list of this type is written in, if it is a good one in the family.
pub fn list_octets(family: u8, kind: u8, list: impl Iterator<Item = Operator>) -> Option<usize> {
    if !(3..=12).contains(&kind) && (kind, family) != (13, 6) {
        return None;
    }
    let (mut octets, mut ended) = (1, false);
    let most = most_code(kind);
    for (place, Operator { octet, value }) in list.enumerate() {
        let width = width(octet);
        let fits = code(octet) <= most && (width == 8 || value >> (8 * width) == 0);
        if ended || !fits || (place == 0 && octet & AND != 0) {
            return None;
        }
        octets += 1 + width;
        ended = octet & END != 0;
    }
    ended.then_some(octets)
}

fn is_match(rule: &Rule, packet: &Packet) -> bool {
    let matches = |component: &Component| match &component.content {
        Content::Prefix(prefix) => prefix_matches(component.kind, prefix, packet),
        Content::List(list) => list_matches(component.kind, list.iter().copied(), packet),
    };
    rule.components.iter().all(matches)
}

/// Whether a good prefix of this type covers the packet's address.
pub fn prefix_matches(kind: u8, prefix: &Prefix, packet: &Packet) -> bool {
    let packet = match kind {
        1 => packet.destination,
        _ => packet.source,
    };
    match prefix.address {
        Address::Ipv4(address) => {
            let past = u32::MAX.checked_shr(prefix.length.into()).unwrap_or(0);
            (address ^ packet as u32) & !past == 0
        }
        Address::Ipv6(address) => {
            let bits = between(prefix.offset.unwrap_or(0), prefix.length);
            (address ^ packet) & bits == 0
        }
    }
}

/// Whether the packet satisfies a good list of this type.
pub fn list_matches(
    kind: u8,
    list: impl Iterator<Item = Operator> + Clone,
    packet: &Packet,
) -> bool {
    let numeric = |number| holds(list.clone(), |one| compares(one.octet, one.value, number));
    let ports = packet.ports;
    match kind {
        3 => numeric(packet.protocol),
        4 => ports.map_or(false, |(source, to)| numeric(source) || numeric(to)),
        5 => ports.map_or(false, |(_, destination)| numeric(destination)),
        6 => ports.map_or(false, |(source, _)| numeric(source)),
        7 => packet.icmp.map_or(false, |(kind, _)| numeric(kind)),
        8 => packet.icmp.map_or(false, |(_, code)| numeric(code)),
        9 => packet.flags.map_or(false, |flags| {
            holds(list, |one| masks(one.octet, one.value, flags))
        }),
        10 => numeric(packet.length),
        11 => holds(list, |one| compares(one.octet, one.value & 63, packet.dscp)),
        12 => {
            let counted = if packet.family == 6 { 14 } else { 15 };
            holds(list, |one| {
                masks(one.octet, one.value & counted, packet.fragment)
            })
        }
        _ => packet.label.map_or(false, numeric),
    }
}

/// Whether a run of joined operators, each begun by one without AND, is true throughout.
fn holds(list: impl Iterator<Item = Operator>, is_true: impl Fn(Operator) -> bool) -> bool {
    let mut run = false;
    for operator in list {
        let joined = operator.octet & AND != 0;
        if run && !joined {
            return true;
        }
        run = (run || !joined) && is_true(operator);
    }
    run
}

fn compares(octet: u8, value: u64, number: u64) -> bool {
    let bit = match number.cmp(&value) {
        Ordering::Less => LESS,
        Ordering::Equal => EQUAL,
        Ordering::Greater => GREATER,
    };
    octet & bit != 0
}

fn masks(octet: u8, mask: u64, data: u64) -> bool {
    let holds = match octet & MATCH {
        0 => data & mask != 0,
        _ => data & mask == mask,
    };
    holds != (octet & NOT != 0)
}

/// The order of two rules that are well-formed in one family; a rule that goes on precedes.
fn order(one: &Rule, other: &Rule) -> Ordering {
    let pairs = one.components.iter().zip(&other.components);
    for (ours, theirs) in pairs {
        let order = ours.kind.cmp(&theirs.kind);
        let order = order.then_with(|| order_of_contents(ours, theirs));
        if order != Ordering::Equal {
            return order;
        }
    }
    other.components.len().cmp(&one.components.len())
}

fn order_of_contents(ours: &Component, theirs: &Component) -> Ordering {
    match (&ours.content, &theirs.content) {
        (Content::Prefix(one), Content::Prefix(other)) => order_of_prefixes(one, other),
        (Content::List(one), Content::List(other)) => {
            order_of_lists(ours.kind, one.iter().copied(), other.iter().copied())
        }
        _ => unreachable!("the types are the same and were tested"),
    }
}

/// The order of two prefixes that are good in one family.
pub fn order_of_prefixes(one: &Prefix, other: &Prefix) -> Ordering {
    let common = one.length.min(other.length);
    let bits = |prefix: &Prefix| {
        let front = match prefix.address {
            Address::Ipv4(address) => u128::from(address) << 96,
            Address::Ipv6(address) => address,
        };
        front.checked_shr(u32::from(128 - common)).unwrap_or(0)
    };
    let by_offset = one.offset.cmp(&other.offset);
    let by_bits = by_offset.then_with(|| bits(one).cmp(&bits(other)));
    by_bits.then_with(|| other.length.cmp(&one.length))
}

/// The order of two good lists of a type. Equal operator octets have values of one width, so their
/// octets compare as the numbers do; and where one list goes on, the other had its end mark.
pub fn order_of_lists(
    kind: u8,
    one: impl Iterator<Item = Operator>,
    other: impl Iterator<Item = Operator>,
) -> Ordering {
    let kept = if [9, 12].contains(&kind) { 0xF3 } else { 0xF7 };
    let written = |operator: Operator| (operator.octet & kept, operator.value);
    one.map(written).cmp(other.map(written))
}

//! Packets: the 20 words that lend one, and the making of those that lie near what a rule asks for.
//!
//! The words: family; destination and source, each in a high and a low half; protocol; length; DSCP;
//! fragment bits; then what may be absent, each behind a word that is 1 where it is there and else 0:
//! source and destination port, ICMP type and code, TCP flags, flow label; and a last word of 0.

use crate::neutral;
use inputs::Random;
use standard::{Address, Component, Content, Flow, Operator, Packet, Prefix, Rule};

pub const WORDS: usize = protocol::PACKET;
/// The words that say what is there, and the last.
pub const PRESENT: [usize; 4] = [9, 12, 15, 17];
pub const LAST: usize = 19;

/// The greatest number of each word that has one in a family 6 packet which is in range.
pub const MOST: [(usize, u64); 11] = [
    (5, 255),
    (6, 65_575),
    (7, 63),
    (8, 15),
    (10, 65_535),
    (11, 65_535),
    (13, 255),
    (14, 255),
    (16, 0xFFF),
    (18, 0xF_FFFF),
    (LAST, 0),
];

/// The words of a packet. Behind a word that says that something is absent stands 0.
pub fn words(packet: &Packet) -> [u64; WORDS] {
    neutral::packet(packet).words()
}

/// The packet that words lend; where they lend none, one of no family, which is out of range.
pub fn packet(words: &[u64]) -> Packet {
    let says = |at: &usize| words[*at] <= 1;
    let lends = words.len() == WORDS && PRESENT.iter().all(says) && words[LAST] == 0;
    let held = |at: usize| if lends { words[at] } else { 0 };
    let address = |at: usize| u128::from(held(at)) << 64 | u128::from(held(at + 1));
    let there = |at: usize| Some(()).filter(|()| held(at) == 1);
    Packet {
        family: held(0),
        destination: address(1),
        source: address(3),
        protocol: held(5),
        length: held(6),
        dscp: held(7),
        fragment: held(8),
        ports: there(9).map(|()| (held(10), held(11))),
        icmp: there(12).map(|()| (held(13), held(14))),
        flags: there(15).map(|()| held(16)),
        label: there(17).map(|()| held(18)),
    }
}

/// The greatest number that the field of a list's type has.
pub fn most(kind: u8) -> u64 {
    match kind {
        4..=6 => 65_535,
        9 => 0xFFF,
        10 => 65_575,
        11 => 63,
        12 => 15,
        13 => 0xF_FFFF,
        _ => 255,
    }
}

/// A packet in range: numbers of any size, some at the ends of their ranges, some fields absent.
pub fn any(family: u8, random: &mut Random) -> Packet {
    let mut number = |kind| number_below(most(kind), random);
    let mut packet = Packet {
        family: family.into(),
        destination: 0,
        source: 0,
        protocol: number(3),
        length: number(10),
        dscp: number(11),
        fragment: number(12),
        ports: Some((number(6), number(5))),
        icmp: Some((number(7), number(8))),
        flags: Some(number(9)),
        label: Some(number(13)).filter(|_| family == 6),
    };
    for address in [&mut packet.destination, &mut packet.source] {
        let any = u128::from(random.number()) << 64 | u128::from(random.number());
        *address = if family == 4 { any >> 96 } else { any };
    }
    for _ in 0..random.below(3) {
        take_away(random, &mut packet);
    }
    packet
}

fn number_below(most: u64, random: &mut Random) -> u64 {
    match random.below(6) {
        0 => 0,
        1 => most,
        2 => random.value() % (most + 1),
        _ => random.below(most as usize + 1) as u64,
    }
}

/// Makes a field absent that may be.
fn take_away(random: &mut Random, packet: &mut Packet) {
    match random.below(4) {
        0 => packet.ports = None,
        1 => packet.icmp = None,
        2 => packet.flags = None,
        _ => packet.label = None,
    }
}

/// A packet whose fields lie at or next to what the components of a rule ask for. How it was made:
/// every field drawn once, or again while it does not satisfy its component; then now and then
/// with one fault.
pub fn near(flow: &Flow, random: &mut Random) -> (Packet, &'static str) {
    let mut packet = any(flow.family, random);
    let draws = random.pick(&[1, 4, 16]);
    for component in &flow.rule.components {
        let alone = Flow {
            family: flow.family,
            rule: Rule {
                distinguisher: None,
                components: vec![component.clone()],
            },
        };
        for _ in 0..draws {
            draw(component, random, &mut packet);
            if standard::matches(&alone, &packet) == Ok(true) {
                break;
            }
        }
    }
    let faults = flow.rule.components.len();
    match random.below(8) {
        0 if faults != 0 => {
            let component = &flow.rule.components[random.below(faults)];
            draw(component, random, &mut packet);
            (packet, "one field drawn anew")
        }
        1 => {
            take_away(random, &mut packet);
            (packet, "one field absent")
        }
        2 if faults != 0 => {
            let component = &flow.rule.components[random.below(faults)];
            change_bit(component.kind, random, &mut packet);
            (packet, "one bit changed")
        }
        _ if draws == 1 => (packet, "fields near the rule's"),
        _ => (packet, "fields that mostly satisfy"),
    }
}

/// Draws the field of a component at or next to what it asks for.
fn draw(component: &Component, random: &mut Random, packet: &mut Packet) {
    match &component.content {
        Content::Prefix(prefix) => {
            let address = match component.kind {
                1 => &mut packet.destination,
                _ => &mut packet.source,
            };
            *address = near_prefix(prefix, *address, random);
        }
        Content::List(list) if !list.is_empty() => {
            let number = near_operator(component.kind, random.pick(list), random);
            put(component.kind, number, random, packet);
        }
        Content::List(_) => {}
    }
}

/// The address with the prefix's bits in place of its own, half of the time with one changed: at the
/// prefix's ends, next to them or anywhere.
fn near_prefix(prefix: &Prefix, address: u128, random: &mut Random) -> u128 {
    let (own, size) = match prefix.address {
        Address::Ipv4(own) => (u128::from(own), 32),
        Address::Ipv6(own) => (own, 128),
    };
    let (offset, length) = (prefix.offset.unwrap_or(0), prefix.length.min(size));
    let bit = |place: u8| 1u128 << (size - 1 - place);
    let bits = (offset..length).fold(0, |bits, place| bits | bit(place));
    let inside = address & !bits | own & bits;
    let changed = match random.below(10) {
        0 => offset.wrapping_sub(1),
        1 => offset,
        2 => length.wrapping_sub(1),
        3 => length,
        4 => random.below(size.into()) as u8,
        _ => size,
    };
    match changed < size {
        true => inside ^ bit(changed),
        false => inside,
    }
}

/// A number at an operator's value or next to it, or at an end of the field's range; flags that are
/// the mask, or it with a bit changed.
fn near_operator(kind: u8, operator: Operator, random: &mut Random) -> u64 {
    let most = most(kind);
    let value = match kind {
        9 | 11 | 12 => operator.value & most,
        _ => operator.value,
    };
    let number = match (kind, random.below(10)) {
        (9 | 12, 0..=2) => value,
        (9 | 12, 3..=5) => value ^ 1 << random.below(if kind == 9 { 12 } else { 4 }),
        (9 | 12, 6) => 0,
        (9 | 12, 7) => most,
        (9 | 12, _) => random.below(most as usize + 1) as u64,
        (_, 0..=2) => value,
        (_, 3 | 4) => value.saturating_add(1),
        (_, 5 | 6) => value.saturating_sub(1),
        _ => number_below(most, random),
    };
    number.min(most)
}

/// Puts a number where a type looks for it; of the ports it is one or both.
fn put(kind: u8, number: u64, random: &mut Random, packet: &mut Packet) {
    let ports = packet.ports.unwrap_or((0, 0));
    let icmp = packet.icmp.unwrap_or((0, 0));
    match (kind, random.below(3)) {
        (3, _) => packet.protocol = number,
        (4, 0) => packet.ports = Some((number, number)),
        (4, 1) | (5, _) => packet.ports = Some((ports.0, number)),
        (4, _) | (6, _) => packet.ports = Some((number, ports.1)),
        (7, _) => packet.icmp = Some((number, icmp.1)),
        (8, _) => packet.icmp = Some((icmp.0, number)),
        (9, _) => packet.flags = Some(number),
        (10, _) => packet.length = number,
        (11, _) => packet.dscp = number,
        (12, _) => packet.fragment = number,
        _ => packet.label = Some(number).filter(|_| packet.family == 6),
    }
}

/// Changes a bit of the field that a type looks at; of the least number of bits that hold it.
fn change_bit(kind: u8, random: &mut Random, packet: &mut Packet) {
    let flip = 1 << random.below(64 - most(kind).leading_zeros() as usize);
    let size = if packet.family == 4 { 32 } else { 128 };
    let pair = |pair: (u64, u64)| match kind {
        4 | 6 | 7 => (pair.0 ^ flip, pair.1),
        _ => (pair.0, pair.1 ^ flip),
    };
    match kind {
        1 => packet.destination ^= 1 << random.below(size),
        2 => packet.source ^= 1 << random.below(size),
        3 => packet.protocol ^= flip,
        4..=6 => packet.ports = packet.ports.map(pair),
        7 | 8 => packet.icmp = packet.icmp.map(pair),
        9 => packet.flags = packet.flags.map(|flags| flags ^ flip),
        10 => packet.length = (packet.length ^ flip).min(most(10)),
        11 => packet.dscp ^= flip,
        12 => packet.fragment ^= flip,
        _ => packet.label = packet.label.map(|label| label ^ flip),
    }
}

/// Makes the words of a packet such as no packet in range has, or changes one that is looked at by
/// nobody.
pub fn spoil(random: &mut Random, words: &mut Vec<u64>) {
    match random.below(8) {
        0 | 1 => {
            let (at, most) = random.pick(&MOST);
            words[at] = most + 1;
        }
        2 => {
            let (at, most) = random.pick(&MOST);
            words[at] = (most + 1).saturating_add(random.value());
        }
        3 => words[random.pick(&PRESENT)] = random.pick(&[0, 1, 2, u64::MAX]),
        4 => words[0] = random.pick(&[0, 1, 3, 4, 5, 6, 7, 256 + 4, 1 << 32 | 6, u64::MAX]),
        5 => words[1 + random.below(4)] |= 1 << random.below(64),
        6 => words.resize(random.pick(&[0, 1, 19, 21, 40]), 0),
        _ => words[random.below(WORDS)] ^= 1 << random.below(64),
    }
}

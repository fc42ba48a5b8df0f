//! Matches, rankings and choices that are made by rule: those that every run has.

use crate::packets;
use crate::stored::{Stored, COUNT, FAMILY, IPV4, IPV4_OFFSET, IPV6, IPV6_OFFSET, WORDS};
use crate::{flows, records, tables, LONGEST_BODY, MOST_OPERATORS, MOST_RULES};
use inputs::{framed, list_of, octets, Random, DISTINGUISHERS};
use standard::{Address, Component, Content, Flow, Operator, Packet, Prefix, Rule};
use standard::{Distinguisher, DISTINGUISHER_OCTETS};

/// Whoever is handed a rule and the words of a packet, or a table and those.
pub type TakeWithPacket<'a> = &'a mut dyn FnMut(&Stored, &[u64]);
/// Whoever is handed two rules.
pub type TakeTwo<'a> = &'a mut dyn FnMut(&Stored, &Stored);

pub const FAMILIES: [u8; 2] = [4, 6];

/// All matches that are made by rule.
pub fn matches(take: TakeWithPacket) {
    numeric(take);
    widths(take);
    joined(take);
    masks(take);
    tcp_flags(take);
    wide_and_joined_masks(take);
    dscp(take);
    prefix_bits(take);
    prefix_forms(take);
    absent(take);
    packet_words(take);
    rule_words(take);
    distinguished(take);
    for (family, rule) in long_and_wide_rules() {
        take(&rule, &packets::words(&full(family, 37)));
    }
}

/// All rankings that are made by rule.
pub fn rankings(take: TakeTwo) {
    ranked_prefixes(take);
    ranked_lists(take);
    ranked_types(take);
    ranked_distinguishers(take);
    let rules = long_and_wide_rules();
    for ((_, one), (_, other)) in rules.iter().zip(&rules[1..]) {
        take(one, one);
        take(one, other);
        take(other, one);
    }
    for family in FAMILIES {
        for one in 0..=255 {
            // A family that there is not, and one that is not the other's.
            let (mut rule, other) = (Stored::new(one), Stored::new(family.into()));
            take(&rule, &other);
            take(&other, &rule);
            rule.words[COUNT] = 14;
            take(&rule, &other);
            take(&other, &rule);
        }
    }
}

/// All choices that are made by rule.
pub fn choices(take: TakeWithPacket) {
    three_addresses(take);
    turned(take);
    refused(take);
    numbers_of_rules(take);
    mixed_distinguishers(take);
    for (family, rule) in long_and_wide_rules() {
        let mut table = table(&[flow(family, "00")]);
        tables::push(&mut table, &rule);
        take(&table, &packets::words(&full(family, 37)));
    }
}

/// A packet of this family with every field that it can have, its numbers all these.
fn full(family: u8, number: u64) -> Packet {
    let at_most = |kind| number.min(packets::most(kind));
    Packet {
        family: family.into(),
        destination: 0,
        source: 0,
        protocol: at_most(3),
        length: at_most(10),
        dscp: at_most(11),
        fragment: at_most(12),
        ports: Some((at_most(6), at_most(5))),
        icmp: Some((at_most(7), at_most(8))),
        flags: Some(at_most(9)),
        label: Some(at_most(13)).filter(|_| family == 6),
    }
}

fn stored(family: u8, components: Vec<Component>) -> Stored {
    let rule = Rule {
        distinguisher: None,
        components,
    };
    stored_rule(&Flow { family, rule })
}

pub fn stored_rule(flow: &Flow) -> Stored {
    let mut record = Stored::new(0);
    record.put_standard(flow.family, &flow.rule);
    record
}

/// None, and all that are made by rule.
fn distinguishers() -> impl Iterator<Item = Option<Distinguisher>> {
    [None].into_iter().chain(DISTINGUISHERS.map(Some))
}

fn with(distinguisher: Option<Distinguisher>, flow: &Flow) -> Flow {
    let mut flow = flow.clone();
    flow.rule.distinguisher = distinguisher;
    flow
}

pub fn list(kind: u8, operators: &[(u8, u64)]) -> Component {
    let operators = operators.iter();
    let operators = operators.map(|&(octet, value)| Operator { octet, value });
    Component {
        kind,
        content: Content::List(operators.collect()),
    }
}

/// The types of a family that have lists, those of one kind.
fn list_types(family: u8, bitmask: bool) -> impl Iterator<Item = u8> {
    let last = if family == 6 { 13 } else { 12 };
    (3..=last).filter(move |kind| [9, 12].contains(kind) == bitmask)
}

/// Each type with each operator octet and a value at the ends of its field's range and of each width,
/// also of those that the type does not have, against the numbers around it.
fn numeric(take: TakeWithPacket) {
    for family in FAMILIES {
        for kind in list_types(family, false).chain(list_types(family, true)) {
            let most = packets::most(kind);
            let ends = [0, 1, 5, most - 1, most, most + 1, 255, 256, 65_535, 65_536];
            let far = [(1 << 32) - 1, 1 << 32, u64::MAX - 1, u64::MAX];
            for value in ends.into_iter().chain(far) {
                for low in 0..16 {
                    let octet = 0x80 | flows::least_code(value) << 4 | low;
                    let rule = stored(family, vec![list(kind, &[(octet, value)])]);
                    let below = value.saturating_sub(1);
                    let above = value.saturating_add(1);
                    for number in [below, value, above, 0, most] {
                        take(&rule, &packets::words(&full(family, number)));
                        take(&rule, &packets::words(&lopsided(family, number, true)));
                        take(&rule, &packets::words(&lopsided(family, number, false)));
                    }
                }
            }
        }
    }
}

/// Each width with the greatest value that it holds, the next and twice that, as the only operator, the
/// first and the last.
fn widths(take: TakeWithPacket) {
    for family in FAMILIES {
        for kind in list_types(family, false).chain(list_types(family, true)) {
            for code in 0..3u8 {
                let over = 1u64 << (8 << code);
                for value in [over - 1, over, 2 * over] {
                    let own = 0x03 | code << 4;
                    for operators in [
                        &[(0x80 | own, value)][..],
                        &[(own, value), (0x81, 3)],
                        &[(0x01, 3), (0x80 | own, value)],
                    ] {
                        let rule = stored(family, vec![list(kind, operators)]);
                        take(&rule, &packets::words(&full(family, 3)));
                    }
                }
            }
        }
    }
}

/// As `full`, but of each pair only one has the number; the other has another.
fn lopsided(family: u8, number: u64, first: bool) -> Packet {
    let mut packet = full(family, number);
    for (pair, most) in [(&mut packet.ports, 65_535), (&mut packet.icmp, 255)] {
        let own = number.min(most);
        *pair = Some(match first {
            true => (own, most - own),
            false => (most - own, own),
        });
    }
    packet
}

/// Up to four operators, each below, at or above a value, every later one joined or not, against
/// numbers around their values; for the ports with two numbers that each satisfy another part.
fn joined(take: TakeWithPacket) {
    let values = [7, 9, 8, 7];
    for count in 1..=4 {
        for pattern in 0..1usize << (3 * count - 1) {
            let octet = |place: usize| {
                let comparison = [4, 1, 2, 6][pattern >> (2 * place) & 3];
                let and = place != 0 && pattern >> (2 * count + place - 1) & 1 == 1;
                comparison | if and { 0x40 } else { 0 }
            };
            let mut operators: Vec<(u8, u64)> = (0..count)
                .map(|place| (octet(place), values[place]))
                .collect();
            operators[count - 1].0 |= 0x80;
            let kind = [3, 4, 5, 6, 7, 8, 10, 11][pattern % 8];
            let rule = stored(4, vec![list(kind, &operators)]);
            for number in 6..=10 {
                let mut packet = full(4, number);
                take(&rule, &packets::words(&packet));
                if kind == 4 {
                    packet.ports = Some((number, 16 - number));
                    take(&rule, &packets::words(&packet));
                }
            }
        }
    }
}

/// Every fragment mask of an octet against every fragment bits; masks of TCP flags against flags that
/// have them, lack a bit of them or have none.
fn masks(take: TakeWithPacket) {
    for family in FAMILIES {
        for low in [0, 1, 2, 3, 0x0C, 0x0D] {
            for mask in 0..=255 {
                let rule = stored(family, vec![list(12, &[(0x80 | low, mask)])]);
                for fragment in 0..16 {
                    let mut packet = full(family, 0);
                    packet.fragment = fragment;
                    take(&rule, &packets::words(&packet));
                }
            }
            for mask in (0..=255).step_by(5).chain([1, 2, 4, 8, 16, 32, 64, 128]) {
                let rule = stored(family, vec![list(9, &[(0x80 | low, mask)])]);
                for flags in [
                    0,
                    mask,
                    mask ^ 1,
                    mask ^ 0x80,
                    !mask & 0xFF,
                    0xFF,
                    mask & 0x3F,
                ] {
                    take(&rule, &packets::words(&full(family, flags)));
                }
            }
        }
    }
}

/// TCP flags over their whole range against masks of one and of two octets by each of the four
/// operators, and every mask of two octets against flags that have it and lack a bit of it or have
/// one more.
fn tcp_flags(take: TakeWithPacket) {
    let mut put = |family, octet, mask, flags: u64| {
        let rule = stored(family, vec![list(9, &[(octet, mask)])]);
        take(&rule, &packets::words(&full(family, flags)));
    };
    let one_octet = [0x00, 0x02, 0x12, 0xFF].map(|mask| (0x80, mask));
    let two_octets = [
        0x0000, 0x0012, 0x0100, 0x0112, 0x0F00, 0x0FFF, 0x1000, 0x8102, 0xFFFF,
    ];
    let two_octets = two_octets.map(|mask| (0x90, mask));
    for low in 0..4 {
        for family in FAMILIES {
            for (octet, mask) in one_octet.into_iter().chain(two_octets) {
                for flags in 0..=0xFFF {
                    put(family, octet | low, mask, flags);
                }
            }
        }
        for mask in 0..=0xFFFF {
            let family = FAMILIES[mask as usize % 2];
            put(family, 0x90 | low, mask, mask & 0xFFF);
            put(family, 0x90 | low, mask, (mask ^ 1 << (mask % 12)) & 0xFFF);
        }
    }
}

/// Masks that are wider than what they are held to, or than their type has them, and two masks that
/// are joined or not.
fn wide_and_joined_masks(take: TakeWithPacket) {
    let wide = [
        (0x10, 0x100),
        (0x10, 0x112),
        (0x10, 0x1012),
        (0x20, 0x1_0012),
        (0x30, 1 << 63 | 0x12),
        (0x30, 1 << 63),
    ];
    for family in FAMILIES {
        for kind in [9, 12] {
            for (width, mask) in wide {
                for low in 0..4 {
                    let rule = stored(family, vec![list(kind, &[(0x80 | width | low, mask)])]);
                    for flags in [0, 0x02, 0x10, 0x12, 0xFF, 0x100, 0xFFF] {
                        take(&rule, &packets::words(&full(family, flags)));
                    }
                }
            }
            for pair in 0..32 {
                let and = if pair & 16 == 0 { 0 } else { 0x40 };
                let operators = [(pair & 3, 0x12), (0x80 | and | pair >> 2 & 3, 0x06)];
                let rule = stored(family, vec![list(kind, &operators)]);
                for flags in 0..32 {
                    take(&rule, &packets::words(&full(family, flags)));
                }
            }
        }
    }
}

/// Every DSCP value of an octet in every comparison against the numbers around what is left of it.
fn dscp(take: TakeWithPacket) {
    for family in FAMILIES {
        for value in 0..=255 {
            for low in 0..8 {
                let rule = stored(family, vec![list(11, &[(0x80 | low, value)])]);
                let cut = value % 64;
                for dscp in [cut.saturating_sub(1), cut, (cut + 1).min(63), 0, 63] {
                    let packet = Packet {
                        dscp,
                        ..full(family, 0)
                    };
                    take(&rule, &packets::words(&packet));
                }
            }
        }
    }
}

/// Every prefix length, in IPv6 with every offset, against addresses that differ from it in a bit.
fn prefix_bits(take: TakeWithPacket) {
    for kind in [1, 2] {
        for length in 0..=32 {
            let rule = prefix_rule(kind, 4, WHOLE, length, 0);
            for place in 0..=32 {
                let flip = if place < 32 { bit(place) >> 96 } else { 0 };
                take(&rule, &packet_with(kind, 4, WHOLE >> 96 ^ flip));
            }
        }
        for length in 0..=128 {
            for offset in (0..length).chain([0]) {
                let rule = prefix_rule(kind, 6, WHOLE, length, offset);
                let near = [
                    offset.wrapping_sub(1),
                    offset,
                    length.wrapping_sub(1),
                    length,
                ];
                let middle = [offset + (length - offset) / 2, 63, 64, 255];
                for place in near.into_iter().chain(middle) {
                    take(&rule, &packet_with(kind, 6, WHOLE ^ bit(place)));
                }
            }
        }
    }
}

/// Every form of prefix in each family with every length, offsets around it and bits beside it.
fn prefix_forms(take: TakeWithPacket) {
    for family in FAMILIES {
        let packet = packets::words(&full(family, 0));
        for form in [IPV4, IPV6, IPV4_OFFSET, IPV6_OFFSET] {
            for length in 0..=255u8 {
                let around = [length.saturating_sub(1), length, length.saturating_add(1)];
                for offset in [0, 1, 7].into_iter().chain(around) {
                    for address in records::addresses(form, length, offset) {
                        let mut rule = Stored::new(family.into());
                        rule.push_prefix(1 + length % 2, form, length, offset, address);
                        take(&rule, &packet);
                    }
                }
            }
        }
    }
}

/// A packet with the address that a type looks at; the other is unlike it, so that the two can't be
/// exchanged.
fn packet_with(kind: u8, family: u8, address: u128) -> [u64; packets::WORDS] {
    let other = !address & if family == 4 { 0xFFFF_FFFF } else { u128::MAX };
    let mut packet = full(family, 0);
    (packet.destination, packet.source) = match kind {
        1 => (address, other),
        _ => (other, address),
    };
    packets::words(&packet)
}

/// Each type with operators that are true of every number and of none, each field present and absent,
/// also with a number behind the word that says it is absent.
fn absent(take: TakeWithPacket) {
    for family in FAMILIES {
        for kind in list_types(family, false).chain(list_types(family, true)) {
            for octet in 0x80..=0x8F {
                let rule = stored(family, vec![list(kind, &[(octet, 0)])]);
                for missing in 0..16 {
                    let mut words = packets::words(&full(family, 3));
                    for (place, at) in packets::PRESENT.into_iter().enumerate() {
                        if missing >> place & 1 == 1 {
                            words[at] = 0;
                            take(&rule, &words);
                            words[at + 1] = u64::MAX;
                        }
                    }
                    take(&rule, &words);
                }
            }
        }
    }
}

/// Packets at the ends of every range and past them, and with every bit of every word changed; words
/// in every number to 22.
fn packet_words(take: TakeWithPacket) {
    for family in FAMILIES {
        let good = packets::words(&full(family, 3));
        for rule in [
            Stored::new(family.into()),
            Stored::new(10 - u64::from(family)),
            Stored::new(5),
        ] {
            for number in 0..=22 {
                let words: Vec<u64> = good.iter().copied().cycle().take(number).collect();
                take(&rule, &words);
                let mut longer = good.to_vec();
                longer.resize(number, 0);
                take(&rule, &longer);
            }
            for at in 0..packets::WORDS {
                let changed = (0..64).map(|bit| good[at] ^ 1 << bit);
                for number in changed.chain([0, 1, 2, u64::MAX]) {
                    let mut words = good;
                    words[at] = number;
                    take(&rule, &words);
                }
            }
            for (at, most) in packets::MOST {
                for number in [most.saturating_sub(1), most, most + 1] {
                    let mut words = good;
                    words[at] = number;
                    take(&rule, &words);
                }
            }
        }
    }
}

/// Each word of a rule changed in each bit, and too few words; the packet good, and not. The last
/// rule has a distinguisher.
fn rule_words(take: TakeWithPacket) {
    let bodies = [
        (
            4,
            "01 10 0A 01 02 08 0B 03 81 06 05 03 50 45 5A 91 01 BB 0C 81 02",
            None,
        ),
        (
            6,
            "01 20 00 20 01 0D B8 02 68 40 12 34 56 78 9A 0D 81 06",
            None,
        ),
        (6, "03 81 06 04 01 50 82 00 09 80 10", None),
        (4, "01 10 0A 01 03 81 06", Some(DISTINGUISHERS[1])),
    ];
    for (family, body, distinguisher) in bodies {
        let input = framed(&octets(body));
        let reading = standard::read(family, &input).expect("these are accepted");
        let mut rule = Stored::new(0);
        rule.put_standard(family, &reading.rule);
        rule.put_distinguisher(distinguisher);
        let mut packet = packets::words(&full(family, 6));
        for _ in 0..2 {
            for at in 0..WORDS {
                let held = rule.words[at];
                let near = [
                    held.wrapping_add(1),
                    held.wrapping_sub(1),
                    !held,
                    0,
                    u64::MAX,
                ];
                for number in (0..64).map(|bit| held ^ 1 << bit).chain(near) {
                    rule.words[at] = number;
                    take(&rule, &packet);
                }
                rule.words[at] = held;
            }
            for fewer in (0..WORDS).rev() {
                let mut short = rule.clone();
                short.words.truncate(fewer);
                take(&short, &packet);
            }
            packet[7] = 64;
        }
    }
}

/// Rules with each distinguisher and without, that match, do not match and are bad, against packets
/// of both families and one out of range.
fn distinguished(take: TakeWithPacket) {
    let mut wrong = packets::words(&full(4, 3));
    wrong[8] = 16;
    for family in FAMILIES {
        let packets = [4, 6].map(|family| packets::words(&full(family, 3)));
        for text in ["00", "03 03 81 03", "03 03 81 04"] {
            for distinguisher in distinguishers() {
                let rule = with(distinguisher, &flow(family, text));
                let bad = Flow {
                    family: 5,
                    ..rule.clone()
                };
                for packet in packets.iter().chain([&wrong]) {
                    take(&stored_rule(&rule), packet);
                    take(&stored_rule(&bad), packet);
                }
            }
        }
    }
}

/// An address without a pattern.
pub const WHOLE: u128 = 0x5A3C_96F1_0FF0_1234_8001_7FFE_C3C3_A55A;

/// The bit of an address at a place, none past its end.
pub fn bit(place: u8) -> u128 {
    (1u128 << 127).checked_shr(place.into()).unwrap_or(0)
}

/// A prefix that has the front bits of an address; the offset is looked at in IPv6 alone.
pub fn prefix(kind: u8, family: u8, address: u128, length: u8, offset: u8) -> Component {
    let (address, offset) = match family {
        4 => (Address::Ipv4((address >> 96) as u32), None),
        _ => (Address::Ipv6(address), Some(offset)),
    };
    let content = Content::Prefix(flows::cut(Prefix {
        address,
        length,
        offset,
    }));
    Component { kind, content }
}

/// A rule of such a prefix.
fn prefix_rule(kind: u8, family: u8, address: u128, length: u8, offset: u8) -> Stored {
    stored(family, vec![prefix(kind, family, address, length, offset)])
}

/// Prefixes of every two lengths, with the bits the same and one apart; in IPv6 with some offsets
/// each.
fn ranked_prefixes(take: TakeTwo) {
    for one in 0..=32u8 {
        for other in 0..=32u8 {
            let least = one.min(other);
            for place in [0, 1, least.wrapping_sub(1), least, 31, 255] {
                let rule = prefix_rule(1, 4, WHOLE, one, 0);
                take(&rule, &prefix_rule(1, 4, WHOLE ^ bit(place), other, 0));
            }
        }
    }
    for one in 0..=128u8 {
        for other in 0..=128u8 {
            let least = one.min(other);
            let offset = (one / 2 + other) % least.max(1);
            let offsets = [(0, 0), (offset, offset), (offset, 0), (0, offset)];
            // The others than 0 for some lengths alone: they would be too many.
            let some = if (one ^ other) % 4 == 0 { 4 } else { 1 };
            for (ours, theirs) in offsets.into_iter().take(some) {
                for place in [0, offset, 63, 64, least.wrapping_sub(1), least, 255] {
                    let rule = prefix_rule(1, 6, WHOLE, one, ours);
                    take(&rule, &prefix_rule(1, 6, WHOLE ^ bit(place), other, theirs));
                }
            }
        }
    }
}

/// Every two operator octets of a type in lists of one and two operators, and values of every width
/// that differ in one octet.
fn ranked_lists(take: TakeTwo) {
    for kind in [3, 9] {
        for one in 0..=255 {
            for other in (0..=255).step_by(3) {
                for rest in [&[][..], &[(0x81, 7)]] {
                    let of = |octet: u8| {
                        let mut pairs = vec![(octet, 5)];
                        pairs.extend(rest);
                        stored(4, vec![list(kind, &pairs)])
                    };
                    take(&of(one), &of(other));
                }
            }
        }
    }
    for kind in [3, 9, 11, 12] {
        for code in 0..4u8 {
            let whole = 0x1122_3344_5566_7788 >> (64 - (8u32 << code));
            let of = |value| stored(6, vec![list(kind, &[(0x01 | code << 4, value), (0x81, 1)])]);
            for place in 0..8u32 << code {
                take(&of(whole), &of(whole ^ 1 << place));
                take(&of(whole ^ 1 << place), &of(whole));
            }
        }
    }
}

/// Rules of every type up to this one, every two types and none.
pub fn of_two_types(family: u8, last: u8) -> impl Iterator<Item = Vec<Component>> {
    let component = move |kind: u8| match kind {
        1 | 2 => prefix(kind, family, 0x0A << 120, 8, 0),
        _ => list(kind, &[(0x81, 6)]),
    };
    let types = move |set: u32| (1..=last).filter(move |kind| set >> kind & 1 == 1);
    let sets = (0..2u32 << last).step_by(2);
    let sets = sets.filter(|set| set.count_ones() <= 2);
    sets.map(move |set| types(set).map(component).collect())
}

/// Rules of every type, every two types and none, against each other.
fn ranked_types(take: TakeTwo) {
    for family in FAMILIES {
        let rules = of_two_types(family, 13).map(|components| stored(family, components));
        let rules: Vec<Stored> = rules.collect();
        for one in &rules {
            rules.iter().for_each(|other| take(one, other));
        }
    }
}

/// Every two distinguishers, of rules that rank equal and not, in both families, and of one that is
/// bad.
fn ranked_distinguishers(take: TakeTwo) {
    let rules = |distinguisher| {
        let of = |family, text| with(distinguisher, &flow(family, text));
        let bad = Flow {
            family: 5,
            ..of(4, "00")
        };
        [of(4, "00"), of(4, "03 03 81 03"), of(6, "00"), bad]
    };
    for one in distinguishers().flat_map(rules) {
        for other in distinguishers().flat_map(rules) {
            take(&stored_rule(&one), &stored_rule(&other));
        }
    }
}

fn table(flows: &[Flow]) -> Stored {
    let mut table = tables::empty();
    for flow in flows {
        tables::push(&mut table, &stored_rule(flow));
    }
    table
}

fn flow(family: u8, text: &str) -> Flow {
    let rule = standard::read(family, &octets(text))
        .expect("these are accepted")
        .rule;
    Flow { family, rule }
}

/// Rules whose bodies are as long as they may be, nearly so and longer, of each width, without a
/// distinguisher and with one, which counts; and of as many operators as there may be and one more;
/// with their families.
fn long_rules() -> Vec<(u8, Stored)> {
    let mut rules = Vec::new();
    for family in FAMILIES {
        for length in LONGEST_BODY - 4..=LONGEST_BODY + 4 {
            for code in 0..4 {
                let mut rule = Stored::new(family.into());
                records::push_body(&mut rule, &list_of(4, length, code));
                rules.push((family, rule.clone()));
                rule.put_distinguisher(Some(DISTINGUISHERS[0]));
                rules.push((family, rule));
                let mut rule = Stored::new(family.into());
                records::push_body(&mut rule, &list_of(4, length - DISTINGUISHER_OCTETS, code));
                rule.put_distinguisher(Some(DISTINGUISHERS[1]));
                rules.push((family, rule));
            }
        }
        for count in [MOST_OPERATORS - 2, MOST_OPERATORS - 1, MOST_OPERATORS] {
            let octet = |place| if place + 1 == count { 0x81 } else { 0x01 };
            let mut rule = Stored::new(family.into());
            rule.push_list(4, (0..count).map(|place| (octet(place), 37)));
            rules.push((family, rule.clone()));
            rule.push_list(5, [(0x81, 37)].into_iter());
            rules.push((family, rule));
        }
    }
    rules
}

/// Rules of each list type with a value of each width, also of those that the type does not have, alone,
/// first and last; with their families.
fn wide_rules() -> Vec<(u8, Stored)> {
    let mut rules = Vec::new();
    for family in FAMILIES {
        for kind in list_types(family, false).chain(list_types(family, true)) {
            for own in [0x01, 0x11, 0x21, 0x31] {
                for operators in [
                    &[(0x80 | own, 37)][..],
                    &[(own, 37), (0x81, 37)],
                    &[(0x01, 37), (0x80 | own, 37)],
                ] {
                    rules.push((family, stored(family, vec![list(kind, operators)])));
                }
            }
        }
    }
    rules
}

fn long_and_wide_rules() -> Vec<(u8, Stored)> {
    [long_rules(), wide_rules()].concat()
}

/// Document 01's case.
fn three_addresses(take: TakeWithPacket) {
    let rules = [flow(4, "03 01 08 0A"), flow(4, "04 01 10 0A 01")];
    for destination in [0x0A01_0203, 0x0A02_0001, 0x0B00_0001] {
        let packet = Packet {
            destination,
            ..full(4, 0)
        };
        let [one, other] = rules.clone();
        take(&table(&rules), &packets::words(&packet));
        take(&table(&[other, one]), &packets::words(&packet));
    }
}

/// Rules that the packets of `turned` nearly all match: lists, and prefixes of each family.
const LISTS: [&str; 10] = [
    "00",
    "03 03 81 03",
    "03 03 82 03",
    "03 03 89 03",
    "05 03 01 03 81 04",
    "05 03 01 04 81 03",
    "06 03 81 03 0B 85 03",
    "03 09 81 03",
    "03 0B 85 03",
    "03 0C 80 03",
];
const PREFIXES: [(u8, [&str; 4]); 2] = [
    (
        4,
        [
            "02 01 00",
            "03 01 08 00",
            "02 02 00",
            "06 02 08 00 03 81 03",
        ],
    ),
    (
        6,
        [
            "03 01 00 00",
            "04 01 08 00 00",
            "04 01 08 07 00",
            "04 02 80 7F 80",
        ],
    ),
];

/// Some of those rules in many orders, one or the other twice; every second table with a
/// distinguisher.
fn turned(take: TakeWithPacket) {
    let mut random = Random::new(0xF20);
    for (family, prefixes) in PREFIXES {
        let texts = [&LISTS[..], &prefixes].concat();
        for turn in 0..4000 {
            let count = 1 + random.below(12);
            let own = DISTINGUISHERS[turn % DISTINGUISHERS.len()];
            let own = Some(own).filter(|_| turn % 2 == 1);
            let rules = (0..count).map(|_| with(own, &flow(family, random.pick(&texts))));
            let rules: Vec<Flow> = rules.collect();
            let packet = full(family, random.below(6) as u64);
            take(&table(&rules), &packets::words(&packet));
        }
    }
}

/// A bad rule, one of another family, one of another distinguisher and two of these in some places
/// among others; with a bad packet, words left over and too many rules.
fn refused(take: TakeWithPacket) {
    let good = flow(4, "03 03 81 03");
    let other = flow(6, "03 03 81 03");
    let mut bad = good.clone();
    bad.rule.components[0].kind = 13;
    let mut none = good.clone();
    none.family = 5;
    let mut wide = good.clone();
    wide.rule.components = vec![list(11, &[(0x01, 3), (0x91, 3)])];
    let zero = with(Some(DISTINGUISHERS[0]), &good);
    let own = with(Some(DISTINGUISHERS[1]), &good);
    let other_own = with(Some(DISTINGUISHERS[1]), &other);
    // It is good without one.
    let body = list_of(4, LONGEST_BODY - DISTINGUISHER_OCTETS + 1, 3);
    let reading = standard::read(4, &framed(&body)).expect("this is accepted");
    let mut long = own.clone();
    long.rule.components = reading.rule.components;
    let kinds = [
        &good, &other, &bad, &none, &wide, &zero, &own, &other_own, &long,
    ];
    let fine = packets::words(&full(4, 3));
    let mut wrong = fine;
    wrong[8] = 16;
    for count in [1, 2, 3, 8, 63, 64, 65] {
        for one in kinds {
            for two in kinds {
                for places in [(0, count - 1), (count / 2, count / 3), (count - 1, 0)] {
                    let mut rules = vec![good.clone(); count];
                    rules[places.0] = one.clone();
                    rules[places.1] = two.clone();
                    let mut table = table(&rules);
                    for left_over in [0, 1, 63] {
                        table.words.resize(count * WORDS + left_over, 0);
                        take(&table, &fine);
                        take(&table, &wrong);
                    }
                }
            }
        }
    }
}

/// One rule that has another distinguisher than the rest, or alone has one or none, at every place;
/// and several, of whose places the first that is not as place 0 counts.
fn mixed_distinguishers(take: TakeWithPacket) {
    let rule = flow(4, "03 03 81 03");
    let packet = packets::words(&full(4, 3));
    let kinds = [
        None,
        Some(DISTINGUISHERS[0]),
        Some(DISTINGUISHERS[5]),
        Some(DISTINGUISHERS[6]),
    ];
    for most in kinds {
        for one in kinds {
            for count in [1, 2, 3, 4, 31, MOST_RULES] {
                for place in 0..count {
                    let mut rules = vec![with(most, &rule); count];
                    rules[place] = with(one, &rule);
                    take(&table(&rules), &packet);
                }
            }
        }
    }
    for pattern in 0..1 << 10 {
        let own = |place: usize| with(kinds[pattern >> (2 * place) & 3], &rule);
        let rules: Vec<Flow> = (0..5).map(own).collect();
        take(&table(&rules), &packet);
    }
}

/// Every number of rules to beyond the most, all the same and all unlike, with every packet family.
fn numbers_of_rules(take: TakeWithPacket) {
    for count in (0..=MOST_RULES + 3).chain([128, 200]) {
        let same = vec![flow(4, "03 03 81 03"); count];
        let lengths = (0..count).map(|place| {
            let mut flow = flow(4, "03 0A 83 00");
            flow.rule.components = vec![list(10, &[(0x83, place as u64)])];
            flow
        });
        let unlike: Vec<Flow> = lengths.rev().collect();
        for rules in [same, unlike] {
            let mut table = table(&rules);
            for number in [0, 3, 40] {
                for family in [4, 5, 6] {
                    let mut packet = packets::words(&full(4, number));
                    packet[0] = family;
                    take(&table, &packet);
                }
            }
            if let Some(family) = table.words.get_mut(FAMILY) {
                *family = 6;
                take(&table, &packets::words(&full(4, 3)));
            }
        }
    }
}

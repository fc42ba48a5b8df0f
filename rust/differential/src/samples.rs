//! The requests whose answers are stored in `tests/standard-answers`: document 01's cases, the
//! RFCs' worked examples, edges of each call, and random ones; for each reading that is refused,
//! here and among those that `crates/replay/stdin` stores with the original's answers, the call
//! that tells where it broke; readings that expect a distinguisher and choices among rules that
//! have one or not, in the calls that tell it (`std_read` with `rd`, `decide`); and rankings of rules
//! that differ in little. The same in every run.

use crate::requests::{can_be_said, Request};
use crate::stored::{Stored, FAMILY, FIRST};
use crate::{flows, packets, records, Form, LONGEST_BODY, LONGEST_INPUT, MOST_COMPONENTS};
use inputs::{framed, list_of, octets, Random, DISTINGUISHERS, FIXED};
use standard::{Address, Component, Content, Flow, Operator, Packet, Rule};
use standard::{Distinguisher, DISTINGUISHER_OCTETS};

const FAMILIES: [u8; 2] = [4, 6];
/// Places enough for what is short.
const PLACES: usize = 64;

/// All requests.
pub fn all() -> Vec<Request> {
    let mut random = Random::new(0xF30);
    let mut list = Vec::new();
    readings(&mut random, &mut list);
    writings(&mut random, &mut list);
    widths(&mut list);
    matches(&mut random, &mut list);
    rankings(&mut random, &mut list);
    choices(&mut random, &mut list);
    places(&mut list);
    distinguished_readings(&mut random, &mut list);
    decisions(&mut random, &mut list);
    near_rankings(&mut list);
    list
}

fn read(family: u8, input: &[u8], values: usize, octets: usize) -> Request {
    Request::Read {
        family,
        input: input.to_vec(),
        values,
        octets,
    }
}

/// The fixed inputs; some of them cut, with their length made right; bodies around the lengths where
/// the length field changes; random ones.
fn readings(random: &mut Random, list: &mut Vec<Request>) {
    for family in FAMILIES {
        for text in FIXED {
            list.push(read(family, &octets(text), PLACES, PLACES));
        }
        let cut = [FIXED[27], FIXED[29], FIXED[32]];
        for body in cut.iter().map(|text| octets(text)[1..].to_vec()) {
            for end in 0..body.len() {
                list.push(read(family, &framed(&body[..end]), PLACES, PLACES));
            }
        }
        rooms(family, list);
        for length in (237..=242).chain([255, 256]) {
            let input = framed(&list_of(4, length, (length % 4) as u8));
            list.push(read(family, &input, 200, 200));
        }
        // Too few places: the answers to those that are accepted would be long.
        for (code, places) in [(0, 2046), (3, 400)] {
            let input = framed(&list_of(10, LONGEST_BODY, code));
            list.push(read(family, &input, places, places));
        }
        let mut input = Vec::new();
        for turn in 0..300 {
            inputs::random(Form::Standard(family), random, &mut input);
            input.truncate(48);
            let places = if turn % 8 == 0 {
                random.below(6)
            } else {
                PLACES
            };
            list.push(read(family, &input, places, places));
        }
    }
}

/// Where the readings before this broke, and those that are stored with the original's answers; and an
/// input that is too long, which has no place.
fn places(list: &mut Vec<Request>) {
    let placed = |request: &Request| match request {
        Request::Read {
            family,
            input,
            values,
            octets,
        } => Some(Request::ReadPlaced {
            family: *family,
            is_distinguished: false,
            input: input.clone(),
            places: *values.min(octets),
        }),
        _ => None,
    };
    let own: Vec<Request> = list.iter().filter_map(placed).collect();
    let replayed = oracle::requests::part("readings").expect("there is such a part");
    let parsed = |request: String| {
        let octets = oracle::text::octets(request.strip_prefix("parse ")?);
        let input = octets.expect("these are octets");
        Some(Request::PlainPlace { input })
    };
    let plain = replayed.into_iter().filter_map(parsed);
    let is_refused = |request: &Request| !request.answer().starts_with("ok");
    list.extend(own.into_iter().chain(plain).filter(is_refused));
    let input = vec![0; LONGEST_INPUT + 1];
    list.push(Request::PlainPlace { input });
}

/// Readings with places to spare, enough and too few.
fn rooms(family: u8, list: &mut Vec<Request>) {
    let places = [
        (0, 0),
        (0, 1),
        (1, 0),
        (1, 1),
        (2, 3),
        (3, 2),
        (3, 3),
        (4, 3),
    ];
    for text in [FIXED[3], FIXED[8], FIXED[21], FIXED[32]] {
        for (values, operators) in places {
            list.push(read(family, &octets(text), values, operators));
        }
    }
}

fn write(family: u8, record: &Stored, room: usize) -> Request {
    let record = record.clone();
    Request::Write {
        family,
        record,
        room,
    }
}

/// The rules of the fixed inputs, with room and with an octet too few; operator octets; long lists;
/// random records; families that there are not.
fn writings(random: &mut Random, list: &mut Vec<Request>) {
    let mut record = Stored::new(0);
    for family in FAMILIES {
        for text in FIXED {
            if let Ok(reading) = standard::read(family, &octets(text)) {
                record.put_standard(family, &reading.rule);
                let octets = standard::write(family, &reading.rule).expect("it was read");
                list.push(write(family, &record, octets.len() + 5));
                list.push(write(family, &record, octets.len() - 1));
            }
        }
        operator_octets(family, list);
        long_lists(family, list);
        for _ in 0..260 {
            records::random(Form::Standard(family), random, &mut record);
            say_from_the_start(family, &mut record);
            let room = random.pick(&[200, 200, 200, 12, 0]);
            if can_be_said(family, &record.words) && record.values.len() < 24 {
                list.push(write(family, &record, room));
            }
        }
    }
    for family in [0, 5, 7, 255] {
        list.push(write(family, &Stored::new(family.into()), PLACES));
    }
}

/// Every operator octet, half of them in each family, in numeric and bitmask lists, with values that
/// fit and that do not.
fn operator_octets(family: u8, list: &mut Vec<Request>) {
    let mut record = Stored::new(0);
    for octet in (0..=255u8).filter(|octet| octet % 2 == u8::from(family == 4)) {
        let value = [6, 255, 256, 65_536][usize::from(octet >> 2) % 4];
        let kind = [3, 9][usize::from(octet >> 1) % 2];
        record.clear(family.into());
        record.push_list(kind, [(0x01, 5), (octet, value)].into_iter());
        list.push(write(family, &record, PLACES));
    }
}

/// Bodies where the length field changes, at the longest and past it, and too many operators.
fn long_lists(family: u8, list: &mut Vec<Request>) {
    let counts = [
        (117, 0),
        (118, 0),
        (2045, 0),
        (2047, 0),
        (1365, 1),
        (454, 3),
    ];
    let mut record = Stored::new(0);
    for (count, code) in counts {
        let end = |place| if place + 1 == count { 0x80 } else { 0 };
        let octet = |place| end(place) | code << 4 | 0x01;
        record.clear(family.into());
        record.push_list(4, (0..count).map(|place| (octet(place), 7)));
        record.push_list(11, [(0x81, 7)].into_iter());
        list.push(write(family, &record, LONGEST_INPUT));
    }
}

/// Each type with each width, as the first operator and as a later one, its value there, there in part
/// and missing; the same read from a length in two octets and behind other components; and as
/// records.
fn widths(list: &mut Vec<Request>) {
    let mut record = Stored::new(0);
    for family in FAMILIES {
        for kind in 3..=13 {
            for code in 0..4u8 {
                let (own, width) = (code << 4 | 0x01, 1 << code);
                let (last, value) = (own | 0x80, [0; 8]);
                for body in [
                    [&[kind, last][..], &value[..width]].concat(),
                    [&[kind, last][..], &value[..width / 2]].concat(),
                    vec![kind, last],
                    [&[kind, own][..], &value[..width], &[0x81, 0x05]].concat(),
                    [&[kind, 0x01, 0x05, last][..], &value[..width]].concat(),
                    vec![kind, 0x01, 0x05, 0x41, 0x07, last],
                ] {
                    list.push(read(family, &framed(&body), PLACES, PLACES));
                }
                let long = [&[0xF0, 2 + width as u8, kind, last][..], &value[..width]].concat();
                list.push(read(family, &long, PLACES, PLACES));
                if kind > 5 {
                    let front = [0x03, 0x81, 0x06, 0x05, 0x91, 0x01, 0xBB];
                    let body = [&front[..], &[kind, last | 0x48]].concat();
                    list.push(read(family, &framed(&body), PLACES, PLACES));
                }
                for operators in [
                    &[(last, 5)][..],
                    &[(own, 5), (0x81, 6)],
                    &[(0x01, 6), (last, 5)],
                ] {
                    record.clear(family.into());
                    record.push_list(kind, operators.iter().copied());
                    list.push(write(family, &record, PLACES));
                }
            }
        }
    }
}

/// Counts a rule's lists from the start of the lent ones, where its operators began behind others.
fn say_from_the_start(family: u8, record: &mut Stored) {
    let first = std::mem::take(&mut record.words[FIRST]);
    for group in 0..record.count().min(MOST_COMPONENTS) {
        if (3..16).contains(&record.words[4 * group]) {
            let start = &mut record.words[4 * group + 1];
            *start = start.saturating_add(first);
        }
    }
    record.words[FAMILY] = family.into();
}

/// A packet of this family with every field that it can have.
fn full(family: u8) -> Packet {
    let (destination, source) = match family {
        4 => (0xC000_0201, 0xCB00_7107),
        _ => (0x2001_0DB8 << 96 | 1, 0x12_3456_789A << 24 | 1 << 100),
    };
    Packet {
        family: family.into(),
        destination,
        source,
        protocol: 6,
        length: 1500,
        dscp: 46,
        fragment: 5,
        ports: Some((1024, 80)),
        icmp: Some((8, 0)),
        flags: Some(0x12),
        label: Some(0xABCDE).filter(|_| family == 6),
    }
}

fn matched(family: u8, text: &str, packet: Packet) -> Request {
    Request::Match {
        family,
        input: octets(text),
        packet,
    }
}

/// Document 01's cases; every fixed input with a full packet and a bare one; packets out of range and
/// of another family; random ones.
fn matches(random: &mut Random, list: &mut Vec<Request>) {
    for family in FAMILIES {
        fields(family, list);
        for text in FIXED {
            list.push(matched(family, text, full(family)));
            let bare = Packet {
                ports: None,
                icmp: None,
                flags: None,
                label: None,
                ..full(family)
            };
            list.push(matched(family, text, bare));
        }
        out_of_range(family, list);
        for _ in 0..350 {
            let flow = flows::good(family, random);
            let packet = packets::near(&flow, random).0;
            list.extend(short(&flow).map(|input| Request::Match {
                family,
                input,
                packet,
            }));
        }
        list.push(matched(family, "00", full(10 - family)));
        list.push(matched(5, "00", full(family)));
    }
}

/// The cases of ports and flags, fragment bits and DSCP values around the edges of some rules.
fn fields(family: u8, list: &mut Vec<Request>) {
    let mut put = |text: &str, set: &dyn Fn(&mut Packet)| {
        let mut packet = full(family);
        set(&mut packet);
        list.push(matched(family, text, packet));
    };
    for port in [0, 79, 80, 81, 89, 90, 91, 442, 443, 444, 65_535] {
        put("08 05 03 50 45 5A 91 01 BB", &|packet| {
            packet.ports = Some((85, port))
        });
    }
    for text in ["03 09 81 12", "03 09 80 12", "03 09 82 12", "03 09 83 12"] {
        for flags in [0x12, 0x02, 0x10, 0x13, 0x00, 0x01, 0xFF] {
            put(text, &|packet| packet.flags = Some(flags));
        }
    }
    let two_octets = [
        "04 09 91 01 00",
        "04 09 90 01 02",
        "04 09 92 0F 00",
        "04 09 91 11 02",
        "04 09 93 11 02",
    ];
    for text in two_octets {
        for flags in [0x000, 0x002, 0x0FF, 0x100, 0x102, 0xF00, 0xFFF] {
            put(text, &|packet| packet.flags = Some(flags));
        }
    }
    for text in ["03 0C 81 01", "03 0C 80 01", "03 0C 83 F3", "03 0C 80 05"] {
        for fragment in 0..16 {
            put(text, &|packet| packet.fragment = fragment);
        }
    }
    for text in ["03 0B 81 6E", "03 0B 84 EE", "03 0B 82 2E", "03 0B 86 AE"] {
        for dscp in [0, 10, 45, 46, 47, 63] {
            put(text, &|packet| packet.dscp = dscp);
        }
    }
}

/// A rule as it is written, unless that is long.
fn short(flow: &Flow) -> Option<Vec<u8>> {
    let written = standard::write(flow.family, &flow.rule).ok()?;
    Some(written).filter(|octets| octets.len() < 80)
}

/// Every field at the most that it may be and one above.
fn out_of_range(family: u8, list: &mut Vec<Request>) {
    let most = packets::MOST.into_iter();
    for (at, most) in most.filter(|&(at, _)| at != packets::LAST) {
        for number in [most, most + 1] {
            let mut words = packets::words(&full(family));
            words[at] = number;
            if at == 18 {
                words[17] = 1;
            }
            list.push(matched(family, "00", packets::packet(&words)));
        }
    }
}

fn ranked(family: u8, one: &[u8], other: &[u8]) -> Request {
    let (one, other) = (one.to_vec(), other.to_vec());
    Request::Rank { family, one, other }
}

/// Rules of which every two are ranked: lists, and prefixes and the flow label by family.
const LISTS: [&str; 5] = [
    "00",
    "03 03 81 06",
    "05 03 01 06 81 05",
    "04 03 91 00 06",
    "03 0C 81 10",
];
const OWN: [(u8, [&str; 5]); 2] = [
    (
        4,
        [
            "03 01 08 0A",
            "04 01 10 0A 01",
            "04 01 10 0B 00",
            "02 01 00",
            "03 02 08 0A",
        ],
    ),
    (
        6,
        [
            "04 01 08 00 20",
            "04 01 41 3F C0",
            "03 01 00 00",
            "04 01 10 08 01",
            "03 0D 81 00",
        ],
    ),
];

/// Every two of those rules; rules that can't be read; random ones that differ in little.
fn rankings(random: &mut Random, list: &mut Vec<Request>) {
    for (family, own) in OWN {
        let rules: Vec<Vec<u8>> = LISTS.iter().chain(&own).map(|text| octets(text)).collect();
        for one in &rules {
            list.extend(rules.iter().map(|other| ranked(family, one, other)));
        }
        for text in ["", "01 0E", "02 03 89", "01 00", "02 0B 91"] {
            list.push(ranked(family, &octets(text), &rules[0]));
            list.push(ranked(family, &rules[0], &octets(text)));
        }
        for _ in 0..230 {
            let one = flows::good(family, random);
            let other = match random.below(6) {
                0 => flows::good(family, random),
                _ => flows::like(&one, random).0,
            };
            if let (Some(one), Some(other)) = (short(&one), short(&other)) {
                list.push(ranked(family, &one, &other));
            }
        }
        // Reserved bits and a first AND are read as 0.
        list.push(ranked(
            family,
            &octets("03 03 C9 06"),
            &octets("03 03 81 06"),
        ));
        list.push(ranked(5, &rules[0], &rules[0]));
    }
    // So are bits past the length.
    list.push(ranked(4, &octets("03 01 04 FF"), &octets("03 01 04 F0")));
}

/// Rules that differ in little: in a length and bits before it, an offset, a width, an AND, a value by
/// one, a list or a rule that has ended, reserved bits.
const NEAR: [(u8, &[&str]); 2] = [
    (
        4,
        &[
            "04 01 10 0A 00",
            "04 01 10 0A 01",
            "03 01 08 0B",
            "05 03 01 05 81 06",
            "05 03 01 05 81 07",
            "05 03 09 05 89 06",
            "06 03 01 05 91 00 06",
            "05 03 01 05 C1 06",
            "08 03 01 05 81 06 0C 81 00",
            "03 03 81 05",
            "04 03 91 00 05",
            "03 09 81 02",
            "03 09 8D 02",
            "04 09 91 00 02",
        ],
    ),
    (
        6,
        &[
            "05 01 10 00 00 00",
            "04 01 10 08 00",
            "04 01 10 09 00",
            "04 01 0F 08 00",
            "03 0D 81 06",
            "04 0D 91 00 06",
        ],
    ),
];

/// Every two of those.
fn near_rankings(list: &mut Vec<Request>) {
    for (family, texts) in NEAR {
        for one in texts {
            let rank = |other: &&str| ranked(family, &octets(one), &octets(other));
            list.extend(texts.iter().map(rank));
        }
    }
}

fn chosen(packet: &Packet, flows: &[Flow]) -> Request {
    let (packet, flows) = (packet.clone(), flows.to_vec());
    Request::Choose { packet, flows }
}

fn flow(family: u8, text: &str) -> Flow {
    let reading = standard::read(family, &octets(text)).expect("these are accepted");
    let rule = reading.rule;
    Flow { family, rule }
}

/// The three addresses, refusals, and random tables.
fn choices(random: &mut Random, list: &mut Vec<Request>) {
    let nets = [flow(4, "03 01 08 0A"), flow(4, "04 01 10 0A 01")];
    for destination in [0x0A01_0203, 0x0A02_0001, 0x0B00_0001] {
        let packet = Packet {
            destination,
            ..full(4)
        };
        list.push(chosen(&packet, &nets));
        list.push(chosen(&packet, &[nets[1].clone(), nets[0].clone()]));
    }
    for family in FAMILIES {
        refused_choices(family, list);
        for _ in 0..230 {
            let mut rules = vec![flows::good(family, random)];
            for _ in 0..random.below(6) {
                let like = flows::like(&rules[random.below(rules.len())], random).0;
                rules.push(like);
            }
            let packet = packets::near(&rules[random.below(rules.len())], random).0;
            if rules.iter().all(|rule| short(rule).is_some()) {
                list.push(chosen(&packet, &rules));
            }
        }
    }
}

/// No rules, one, many and too many, all the same but the last; a rule of another family; bad ones; a
/// packet that is out of range.
fn refused_choices(family: u8, list: &mut Vec<Request>) {
    let every = flow(family, "00");
    let tcp = flow(family, "03 03 81 06");
    let other = flow(10 - family, "03 03 81 06");
    let (fine, mut wrong) = (full(family), full(family));
    wrong.dscp = 64;
    list.push(chosen(&fine, &[]));
    list.push(chosen(&wrong, &[]));
    for count in [1, 2, 63, 64, 65, 66] {
        let mut rules = vec![every.clone(); count];
        list.push(chosen(&fine, &rules));
        rules[count - 1] = tcp.clone();
        list.push(chosen(&fine, &rules));
        list.push(chosen(&wrong, &rules));
        rules[count / 2] = other.clone();
        list.push(chosen(&fine, &rules));
    }
    for bad in bad_rules(family) {
        list.push(chosen(&fine, &[every.clone(), bad.clone()]));
        list.push(chosen(&fine, &[other.clone(), bad.clone(), every.clone()]));
        list.push(chosen(&wrong, &[bad, other.clone()]));
    }
}

/// Rules with each fault that makes one a BadRecord; also some that are good in the other family.
fn bad_rules(family: u8) -> Vec<Flow> {
    let list = |kind, octet, value| Component {
        kind,
        content: Content::List(vec![Operator { octet, value }]),
    };
    let prefix = |address, length, offset| Component {
        kind: 1,
        content: Content::Prefix(standard::Prefix {
            address,
            length,
            offset,
        }),
    };
    let (four, six) = (Address::Ipv4, Address::Ipv6);
    let contents = [
        vec![list(3, 0x01, 6)],
        vec![list(3, 0xC1, 6)],
        vec![list(3, 0x81, 256)],
        vec![list(4, 0x81, 6), list(3, 0x81, 6)],
        vec![list(3, 0x81, 6), list(3, 0x81, 6)],
        vec![list(13, 0x81, 6)],
        vec![list(9, 0xA1, 6)],
        vec![list(11, 0x91, 6)],
        vec![list(3, 0x81, 6), list(12, 0xB1, 6)],
        vec![prefix(four(0), 8, None)],
        vec![prefix(four(1), 31, None)],
        vec![prefix(four(0), 33, None)],
        vec![prefix(four(0), 8, Some(0))],
        vec![prefix(six(0), 8, None)],
        vec![prefix(six(0), 8, Some(8))],
        vec![prefix(six(0), 129, Some(0))],
        vec![prefix(six(1), 127, Some(0))],
        vec![prefix(six(1 << 127), 128, Some(1))],
    ];
    let rule = |components: Vec<Component>| Rule {
        distinguisher: None,
        components,
    };
    let mut bad: Vec<Flow> = Vec::new();
    bad.extend(contents.map(|components| Flow {
        family,
        rule: rule(components),
    }));
    bad.extend([0, 5, 255].map(|family| Flow {
        family,
        rule: rule(Vec::new()),
    }));
    bad
}

/// A reading that expects a distinguisher.
fn distinguished(family: u8, input: &[u8], places: usize) -> Request {
    Request::ReadPlaced {
        family,
        is_distinguished: true,
        input: input.to_vec(),
        places,
    }
}

/// The fixed inputs behind a distinguisher, put to all three readings; bodies that have no octet of
/// one, some or all, stated in one octet and in two; some cut, with their length made right; places
/// to spare and too few; bodies around the lengths where the length field changes; random ones.
fn distinguished_readings(random: &mut Random, list: &mut Vec<Request>) {
    for family in FAMILIES {
        let form = Form::WithDistinguisher(family);
        let fixed = inputs::good_inputs(form).into_iter().take(FIXED.len());
        for input in fixed.collect::<Vec<_>>() {
            list.push(distinguished(family, &input, PLACES));
            list.push(Request::ReadPlaced {
                family,
                is_distinguished: false,
                input: input.clone(),
                places: PLACES,
            });
            if family == 4 {
                list.push(Request::PlainPlace { input });
            }
        }
        let body = [DISTINGUISHERS[1], [0x03; 8]].concat();
        for stated in 0..=10 {
            for there in [stated.max(1) - 1, stated, stated + 2] {
                let octets = &body[..there];
                for length in [&[stated as u8][..], &[0xF0, stated as u8]] {
                    let input = [length, octets].concat();
                    list.push(distinguished(family, &input, PLACES));
                }
            }
        }
        for (text, own) in [FIXED[27], FIXED[29], FIXED[32]].iter().zip(DISTINGUISHERS) {
            let body = [&own[..], &octets(text)[1..]].concat();
            for end in 0..body.len() {
                list.push(distinguished(family, &framed(&body[..end]), PLACES));
            }
        }
        let ports = [&DISTINGUISHERS[2][..], &octets(FIXED[21])[1..]].concat();
        for places in 0..5 {
            list.push(distinguished(family, &framed(&ports), places));
        }
        for length in (237..=242).chain([255, 256]) {
            let body = list_of(4, length - DISTINGUISHER_OCTETS, (length % 4) as u8);
            let input = framed(&[&DISTINGUISHERS[7][..], &body].concat());
            list.push(distinguished(family, &input, 200));
        }
        // Too few places: the answers to those that are accepted would be long.
        for (code, places) in [(0, 2042), (3, 400)] {
            let body = list_of(10, LONGEST_BODY - DISTINGUISHER_OCTETS, code);
            let input = framed(&[&DISTINGUISHERS[0][..], &body].concat());
            list.push(distinguished(family, &input, places));
        }
        let mut input = Vec::new();
        for turn in 0..200 {
            inputs::random(form, random, &mut input);
            input.truncate(56);
            let places = if turn % 8 == 0 {
                random.below(6)
            } else {
                PLACES
            };
            list.push(distinguished(family, &input, places));
        }
    }
    for family in [0, 5, 255] {
        for text in ["", "00", "08 00 00 FB F0 00 00 00 07"] {
            list.push(distinguished(family, &octets(text), PLACES));
        }
    }
}

fn decided(packet: &Packet, flows: &[Flow]) -> Request {
    let (packet, flows) = (packet.clone(), flows.to_vec());
    Request::Decide { packet, flows }
}

/// The rules with these distinguishers, in turn.
fn with(distinguishers: &[Option<Distinguisher>], flows: &[Flow]) -> Vec<Flow> {
    let mut flows = flows.to_vec();
    for (flow, own) in flows.iter_mut().zip(distinguishers.iter().cycle()) {
        flow.rule.distinguisher = *own;
    }
    flows
}

/// The three addresses with each distinguisher; those that differ, at each place and in both
/// families; every refusal that comes before; rules as long as they may be with one, and longer;
/// random tables.
fn decisions(random: &mut Random, list: &mut Vec<Request>) {
    let nets = [flow(4, "03 01 08 0A"), flow(4, "04 01 10 0A 01")];
    let [zero, own, ..] = DISTINGUISHERS.map(Some);
    for destination in [0x0A01_0203, 0x0A02_0001, 0x0B00_0001] {
        let packet = Packet {
            destination,
            ..full(4)
        };
        for distinguishers in [
            [None, None],
            [zero, zero],
            [own, own],
            [None, zero],
            [zero, None],
            [own, None],
            [own, zero],
        ] {
            list.push(decided(&packet, &with(&distinguishers, &nets)));
        }
    }
    for family in FAMILIES {
        mixed_decisions(family, list);
        for _ in 0..150 {
            let mut rules = vec![flows::good(family, random)];
            for _ in 0..random.below(6) {
                let like = flows::like(&rules[random.below(rules.len())], random).0;
                rules.push(like);
            }
            flows::distinguish(&mut rules.iter_mut().collect::<Vec<_>>(), random);
            let packet = packets::near(&rules[random.below(rules.len())], random).0;
            if rules.iter().all(|rule| short(rule).is_some()) {
                list.push(decided(&packet, &rules));
            }
        }
    }
}

fn mixed_decisions(family: u8, list: &mut Vec<Request>) {
    let [zero, own, other, ..] = DISTINGUISHERS.map(Some);
    let every = flow(family, "00");
    let (fine, mut wrong) = (full(family), full(family));
    wrong.dscp = 64;
    list.push(decided(&fine, &[]));
    list.push(decided(&wrong, &[]));
    let tables: [(usize, &[usize]); 5] = [
        (1, &[0]),
        (2, &[0, 1]),
        (5, &[0, 1, 2, 4]),
        (64, &[63]),
        (65, &[1]),
    ];
    for (count, places) in tables {
        let rules = vec![every.clone(); count];
        for (most, one) in [(None, zero), (zero, None), (own, other), (own, own)] {
            for &place in places {
                let mut rules = with(&[most], &rules);
                rules[place].rule.distinguisher = one;
                list.push(decided(&fine, &rules));
                list.push(decided(&wrong, &rules));
                // One of the other family, behind all.
                rules[count - 1].family = 10 - family;
                list.push(decided(&fine, &rules));
            }
        }
    }
    for bad in bad_rules(family) {
        let rules = [every.clone(), bad];
        for distinguishers in [[own, own], [own, None], [None, zero]] {
            list.push(decided(&fine, &with(&distinguishers, &rules)));
        }
    }
    for (distinguisher, length) in [(None, 4088), (own, 4087), (own, 4088), (zero, 4095)] {
        let reading = standard::read(family, &framed(&list_of(4, length, 3)));
        let rule = reading.expect("these are accepted").rule;
        let rules = [every.clone(), Flow { family, rule }];
        list.push(decided(&fine, &with(&[distinguisher], &rules)));
    }
}

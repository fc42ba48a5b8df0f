//! Rules of virtual networks (RFC 8955, 8): eight octets of distinguisher before the first
//! component. In the reading that expects one, in writing, and of rules that are matched, ranked
//! and chosen from.

mod common;

use common::{flow, list, octets, packet, packet_to};
use inputs::{framed, list_of, FIXED};
use standard::{choose, direct, matches, plain_used, precedes, rank};
use standard::{read, read_distinguished, write};
use standard::{Distinguisher, Fault, Flow, Packet, Refusal, Rule};
use std::cmp::Ordering;

const FAMILIES: [u8; 2] = [4, 6];

/// Type 0, AS 64496, number 7.
const OWN: Distinguisher = [0x00, 0x00, 0xFB, 0xF0, 0x00, 0x00, 0x00, 0x07];
const OTHER: Distinguisher = [0x00, 0x00, 0xFB, 0xF0, 0x00, 0x00, 0x00, 0x08];
const ZERO: Distinguisher = [0; 8];

/// The body of an input whose length takes one octet, behind a distinguisher, framed anew.
fn behind(distinguisher: Distinguisher, input: &[u8]) -> Vec<u8> {
    framed(&[&distinguisher[..], &input[1..]].concat())
}

fn used(family: u8, input: &[u8]) -> Result<usize, Fault> {
    read_distinguished(family, input).map(|reading| reading.used)
}

fn refuses(families: &[u8], text: &str, fault: Fault) {
    for &family in families {
        assert_eq!(used(family, &octets(text)), Err(fault), "{family} {text}");
    }
}

fn with(distinguisher: Option<Distinguisher>, mut flow: Flow) -> Flow {
    flow.rule.distinguisher = distinguisher;
    flow
}

/// What both choosers answer.
fn chosen(flows: &[Flow], packet: &Packet) -> Result<Option<usize>, Refusal> {
    let answer = choose(flows, packet);
    assert_eq!(direct::choose(flows, packet), answer);
    answer
}

/// What both rankings answer.
fn ranked(one: &Flow, other: &Flow) -> Result<Ordering, Refusal> {
    let order = rank(one, other);
    assert_eq!(direct::rank(one, other), order);
    let precedes = precedes(one, other);
    assert_eq!(precedes, order.map(|order| order == Ordering::Less));
    order
}

const SHORT: Refusal = Refusal::InsufficientData;
const SHORT_DISTINGUISHER: Refusal = Refusal::ShortDistinguisher;

fn order(previous: u8, found: u8) -> Refusal {
    Refusal::InvalidComponentOrder { previous, found }
}

#[test]
fn eight_octets_are_a_rule_with_no_components() {
    for family in FAMILIES {
        for distinguisher in [OWN, OTHER, ZERO, [0xFF; 8]] {
            let input = framed(&distinguisher);
            let reading = read_distinguished(family, &input).expect("accepted");
            assert_eq!(reading.used, 9);
            assert_eq!(reading.rule.distinguisher, Some(distinguisher));
            assert_eq!(reading.rule.components, []);
            assert_eq!(write(family, &reading.rule), Ok(input));
        }
        // The length in two octets, and octets behind the stated end.
        let input = octets("F0 08 00 01 C0 00 02 01 00 07 FF FF");
        let reading = read_distinguished(family, &input).expect("accepted");
        assert_eq!(reading.used, 10);
        let rewritten = write(family, &reading.rule).expect("written");
        assert_eq!(rewritten, octets("08 00 01 C0 00 02 01 00 07"));
    }
}

#[test]
fn fewer_octets_are_refused_at_the_stated_end() {
    refuses(&FAMILIES, "00", SHORT_DISTINGUISHER.at(1));
    refuses(&FAMILIES, "F0 00", SHORT_DISTINGUISHER.at(2));
    refuses(
        &FAMILIES,
        "07 00 00 FB F0 00 00 00",
        SHORT_DISTINGUISHER.at(8),
    );
    for family in FAMILIES {
        for stated in 0..8 {
            // What stands behind the stated end is someone else's, though it would be enough.
            for there in stated..=10 {
                let octets = vec![0x01; there];
                let one = [&[stated as u8][..], &octets].concat();
                assert_eq!(used(family, &one), Err(SHORT_DISTINGUISHER.at(1 + stated)));
                let two = [&[0xF0, stated as u8][..], &octets].concat();
                assert_eq!(used(family, &two), Err(SHORT_DISTINGUISHER.at(2 + stated)));
            }
        }
    }
}

/// The family, a missing length octet and a stated end past the input come before a short
/// distinguisher.
#[test]
fn other_refusals_come_first() {
    for family in [0, 5, 255] {
        for text in ["", "00", "07", "08 00 00 FB F0 00 00 00 07"] {
            refuses(&[family], text, Refusal::BadFamily(family).into());
        }
    }
    refuses(&FAMILIES, "", SHORT.at(0));
    refuses(&FAMILIES, "F0", SHORT.at(1));
    refuses(&FAMILIES, "07", SHORT.at(1));
    refuses(&FAMILIES, "07 00 00 FB F0 00 00", SHORT.at(7));
    refuses(&FAMILIES, "08 00 00 FB F0 00 00 00", SHORT.at(8));
    refuses(&FAMILIES, "09 00 00 FB F0 00 00 00 07", SHORT.at(9));
    refuses(&FAMILIES, "F0 08 00 00 FB F0 00 00 00", SHORT.at(9));
    refuses(&FAMILIES, "FF FF 00 00", SHORT.at(4));
}

#[test]
fn places_behind_it_count_from_the_start_of_the_input() {
    // RFC 8955, 4.3, first example.
    let input = octets("13 00 00 FB F0 00 00 00 07 01 18 C0 00 02 03 81 06 04 81 19");
    assert_eq!(used(4, &input), Ok(20));
    let order_0 = order(0, 0);
    refuses(&FAMILIES, "09 00 00 FB F0 00 00 00 07 00", order_0.at(9));
    refuses(
        &FAMILIES,
        "F0 09 00 00 FB F0 00 00 00 07 00",
        order_0.at(10),
    );
    refuses(
        &FAMILIES,
        "09 00 00 FB F0 00 00 00 07 0E",
        Refusal::InvalidComponentType(14).at(9),
    );
    refuses(
        &[4],
        "0B 00 00 FB F0 00 00 00 07 0D 81 00",
        Refusal::InvalidComponentType(13).at(9),
    );
    refuses(
        &FAMILIES,
        "0E 00 00 FB F0 00 00 00 07 03 81 06 03 81 11",
        order(3, 3).at(12),
    );
    refuses(
        &[4],
        "0A 00 00 FB F0 00 00 00 07 01 21",
        Refusal::InvalidPrefix.at(10),
    );
    refuses(
        &[6],
        "0B 00 00 FB F0 00 00 00 07 01 40 40",
        Refusal::InvalidPrefix.at(10),
    );
    refuses(
        &FAMILIES,
        "0A 00 00 FB F0 00 00 00 07 0B 91",
        Refusal::InvalidValueLength(1).at(10),
    );
    // A missing octet is at the stated end, whatever stands behind that.
    refuses(&FAMILIES, "0A 00 00 FB F0 00 00 00 07 03 81", SHORT.at(11));
    refuses(
        &FAMILIES,
        "0A 00 00 FB F0 00 00 00 07 03 81 06",
        SHORT.at(11),
    );
    refuses(&FAMILIES, "09 00 00 FB F0 00 00 00 07 03", SHORT.at(10));
}

/// What stands behind a distinguisher is read as it is without one, eight octets further on. The
/// other readings take the distinguisher for components.
#[test]
fn as_without_one_but_further_on() {
    let inputs = FIXED.iter().map(|text| octets(text));
    for input in inputs.filter(|input| !input.is_empty() && input[0] < 240) {
        // Where the stated end is past the input, that is said before all else.
        if input.len() < 1 + usize::from(input[0]) {
            continue;
        }
        let input = &input[..1 + usize::from(input[0])];
        for family in FAMILIES {
            let longer = behind(OWN, input);
            match (read(family, input), read_distinguished(family, &longer)) {
                (Ok(without), Ok(with)) => {
                    assert_eq!(with.used, without.used + 8);
                    assert_eq!(with.rule.distinguisher, Some(OWN));
                    assert_eq!(with.rule.components, without.rule.components);
                    assert_eq!(without.rule.distinguisher, None);
                    let written = write(family, &without.rule).expect("written");
                    assert_eq!(write(family, &with.rule), Ok(behind(OWN, &written)));
                }
                (Err(without), Err(with)) => {
                    assert_eq!(with.refusal, without.refusal);
                    assert_eq!(with.place, without.place.map(|place| place + 8));
                }
                (without, with) => panic!("{input:02X?}: {without:?}, {with:?}"),
            }
            let taken = Err(order(0, 0).at(1));
            assert_eq!(read(family, &longer).map(|reading| reading.used), taken);
            assert_eq!(plain_used(&longer), taken);
        }
    }
}

#[test]
fn a_truncation_has_its_length_or_the_stated_end() {
    for family in FAMILIES {
        for input in FIXED.iter().map(|text| octets(text)) {
            if input.first().map_or(true, |&first| first >= 240) || read(family, &input).is_err() {
                continue;
            }
            let whole = behind(OWN, &input[..1 + usize::from(input[0])]);
            for left in 0..whole.len() {
                assert_eq!(used(family, &whole[..left]), Err(SHORT.at(left)));
            }
            // The length cut back, the octets behind it there and gone.
            let mut cut = whole.clone();
            for end in 1..whole.len() {
                cut[0] = end as u8 - 1;
                let said = used(family, &cut);
                assert_eq!(used(family, &cut[..end]), said, "{cut:02X?}");
                match end {
                    0..=8 => assert_eq!(said, Err(SHORT_DISTINGUISHER.at(end))),
                    9 => assert_eq!(said, Ok(9)),
                    _ => assert!(said == Ok(end) || said == Err(SHORT.at(end))),
                }
            }
        }
    }
}

/// A rule whose components take so many octets.
fn long(family: u8, length: usize, distinguisher: Option<Distinguisher>) -> Flow {
    let input = framed(&list_of(4, length, 0));
    let rule = read(family, &input).expect("accepted").rule;
    with(distinguisher, Flow { family, rule })
}

#[test]
fn it_counts_in_the_longest_body() {
    for family in FAMILIES {
        let any = packet(family.into());
        for (length, body) in [(4086, 4094), (4087, 4095)] {
            let good = long(family, length, Some(OWN));
            let written = write(family, &good.rule).expect("written");
            assert_eq!(written.len(), 2 + body);
            assert_eq!(written[..2], [0xFF, (0xF00 + body) as u8]);
            assert_eq!(written[2..10], OWN);
            let reading = read_distinguished(family, &written).expect("accepted");
            assert_eq!((reading.rule, reading.used), (good.rule.clone(), 2 + body));
            assert_eq!(matches(&good, &any), Ok(false));
            assert_eq!(ranked(&good, &good), Ok(Ordering::Equal));
            assert_eq!(chosen(std::slice::from_ref(&good), &any), Ok(None));
        }
        for length in 4088..=4095 {
            // Without one it is written, and is well-formed.
            let plain = long(family, length, None);
            let written = write(family, &plain.rule).expect("written");
            assert_eq!(written.len(), 2 + length);
            assert_eq!(matches(&plain, &any), Ok(false));
            assert_eq!(ranked(&plain, &plain), Ok(Ordering::Equal));
            let bad = with(Some(OWN), plain);
            let too_large = Err(Refusal::ValueTooLarge(8 + length));
            assert_eq!(write(family, &bad.rule), too_large);
            let good = with(Some(OWN), flow(family, "00"));
            let table = [good.clone(), bad.clone()];
            assert_eq!(matches(&bad, &any), Err(Refusal::BadRecord));
            assert_eq!(ranked(&bad, &good), Err(Refusal::BadRecord));
            assert_eq!(ranked(&good, &bad), Err(Refusal::BadRecord));
            assert_eq!(chosen(&table, &any), Err(Refusal::BadRecord));
        }
    }
    // The length takes its second octet eight octets sooner.
    for (length, start) in [(231, "EF"), (232, "F0 F0")] {
        let written = write(4, &long(4, length, Some(OWN)).rule).expect("written");
        assert!(written.starts_with(&octets(start)), "{written:02X?}");
    }
}

#[test]
fn a_bad_record_comes_before_too_large() {
    let mut bad = long(4, 4095, Some(OWN));
    bad.rule.components.push(list(3, &[(0x81, 6)]));
    assert_eq!(write(4, &bad.rule), Err(Refusal::BadRecord));
    assert_eq!(write(5, &bad.rule), Err(Refusal::BadFamily(5)));
    let empty = Rule {
        distinguisher: Some(OWN),
        components: Vec::new(),
    };
    assert_eq!(write(5, &empty), Err(Refusal::BadFamily(5)));
}

/// The rules of document 01's three addresses, and others with ties, answer the same with one
/// distinguisher as with none.
#[test]
fn it_takes_no_part_in_matching_rank_or_choice() {
    let texts = [
        "03 01 08 0A",
        "04 01 10 0A 01",
        "03 03 81 00",
        "00",
        "03 01 08 0A",
    ];
    let flows = |distinguisher| texts.map(|text| with(distinguisher, flow(4, text)));
    let without = flows(None);
    for distinguisher in [OWN, OTHER, ZERO, [0xFF; 8]] {
        let with = flows(Some(distinguisher));
        for destination in [[10, 1, 2, 3], [10, 2, 0, 1], [11, 0, 0, 1]] {
            let packet = packet_to(destination);
            assert_eq!(chosen(&with, &packet), chosen(&without, &packet));
            for (one, other) in with.iter().zip(&without) {
                assert_eq!(matches(one, &packet), matches(other, &packet));
            }
        }
        for (one, one_without) in with.iter().zip(&without) {
            for (other, other_without) in with.iter().zip(&without) {
                assert_eq!(ranked(one, other), ranked(one_without, other_without));
            }
        }
    }
}

/// A rule by itself has no other to differ from.
#[test]
fn matching_never_tells_of_it() {
    for distinguisher in [None, Some(ZERO), Some(OWN)] {
        let rule = with(distinguisher, flow(4, "03 01 08 0A"));
        assert_eq!(matches(&rule, &packet_to([10, 1, 2, 3])), Ok(true));
        assert_eq!(matches(&rule, &packet_to([11, 1, 2, 3])), Ok(false));
        assert_eq!(matches(&rule, &packet(6)), Err(Refusal::MixedFamily(0)));
    }
}

/// Eight octets of 0 are a distinguisher: not the same as none.
#[test]
fn two_that_differ_are_not_ranked() {
    let all = [None, Some(ZERO), Some(OWN), Some(OTHER)];
    for one in all {
        for other in all {
            let wanted = match one == other {
                true => Ok(Ordering::Equal),
                false => Err(Refusal::MixedDistinguisher(1)),
            };
            let of = |distinguisher, family| {
                let flow = flow(4, "03 03 81 06");
                with(distinguisher, Flow { family, ..flow })
            };
            assert_eq!(ranked(&of(one, 4), &of(other, 4)), wanted);
            // The family comes first, and before that a rule that is none.
            let mixed = ranked(&of(one, 4), &of(other, 6));
            assert_eq!(mixed, Err(Refusal::MixedFamily(1)));
            let bad = ranked(&of(one, 4), &of(other, 5));
            assert_eq!(bad, Err(Refusal::BadRecord));
        }
    }
}

/// The first place that differs from place 0, whatever stands between.
#[test]
fn the_place_of_the_first_that_differs() {
    let rules = |distinguishers: &[Option<Distinguisher>]| -> Vec<Flow> {
        let rules = distinguishers.iter();
        rules.map(|&own| with(own, flow(4, "00"))).collect()
    };
    let (own, other, zero) = (Some(OWN), Some(OTHER), Some(ZERO));
    let cases: [(&[Option<Distinguisher>], Option<usize>); 12] = [
        (&[], None),
        (&[own], None),
        (&[own, own, own], None),
        (&[None, None], None),
        (&[zero, zero], None),
        (&[None, zero], Some(1)),
        (&[zero, None], Some(1)),
        (&[own, own, other, own], Some(2)),
        (&[own, other, other, own], Some(1)),
        (&[own, own, None, other], Some(2)),
        (&[None, None, None, own, None], Some(3)),
        (&[other, own, own, own], Some(1)),
    ];
    for (distinguishers, place) in cases {
        let rules = rules(distinguishers);
        let wanted = match place {
            Some(place) => Err(Refusal::MixedDistinguisher(place)),
            None => Ok(Some(0).filter(|_| !rules.is_empty())),
        };
        assert_eq!(chosen(&rules, &packet(4)), wanted, "{distinguishers:?}");
    }
    let mut many = rules(&[own; 64]);
    many[63].rule.distinguisher = None;
    let last = Err(Refusal::MixedDistinguisher(63));
    assert_eq!(chosen(&many, &packet(4)), last);
}

#[test]
fn in_the_order_of_the_choosers_refusals() {
    let own = with(Some(OWN), flow(4, "00"));
    let other = with(Some(OTHER), flow(4, "00"));
    let none = flow(4, "00");
    let six = with(Some(OTHER), flow(6, "00"));
    let bad = long(4, 4088, Some(OTHER));
    let rules = |rules: &[&Flow]| -> Vec<Flow> { rules.iter().map(|&one| one.clone()).collect() };
    // Every family is looked at before any distinguisher.
    let mixed = rules(&[&own, &other, &none, &six]);
    assert_eq!(chosen(&mixed, &packet(4)), Err(Refusal::MixedFamily(3)));
    assert_eq!(chosen(&mixed, &packet(6)), Err(Refusal::MixedFamily(0)));
    let differ = &mixed[..3];
    let second = Err(Refusal::MixedDistinguisher(1));
    assert_eq!(chosen(differ, &packet(4)), second);
    // So are the rules, the packet and how many there are.
    let with_bad = rules(&[&own, &other, &six, &bad]);
    assert_eq!(chosen(&with_bad, &packet(4)), Err(Refusal::BadRecord));
    assert_eq!(chosen(&with_bad, &packet(5)), Err(Refusal::BadPacket));
    let mut many = vec![own; 65];
    many[1] = other;
    assert_eq!(chosen(&many, &packet(4)), Err(Refusal::TooManyRules(65)));
    assert_eq!(chosen(&many[..64], &packet(4)), second);
}

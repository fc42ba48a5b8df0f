//! Document 01: "TCP flags (type 9) take values of one octet or two, DSCP (11) and fragments (12) of one." In
//! the readings, in writing, and of a rule that is matched, ranked or chosen from.

mod common;

use common::{list, octets, packet, rule};
use inputs::framed;
use standard::{choose, direct, matches, plain_used, precedes, rank, read, write};
use standard::{Fault, Flow, Refusal};

const FAMILIES: [u8; 2] = [4, 6];

/// The width codes of each type that has lists.
const CODES: [(u8, &[u8]); 11] = [
    (3, &[0, 1, 2, 3]),
    (4, &[0, 1, 2, 3]),
    (5, &[0, 1, 2, 3]),
    (6, &[0, 1, 2, 3]),
    (7, &[0, 1, 2, 3]),
    (8, &[0, 1, 2, 3]),
    (9, &[0, 1]),
    (10, &[0, 1, 2, 3]),
    (11, &[0]),
    (12, &[0]),
    (13, &[0, 1, 2, 3]),
];

/// Every type of a family with every width code, and whether the type has it.
fn types_and_codes(family: u8) -> Vec<(u8, u8, bool)> {
    let known = CODES.iter().filter(|(kind, _)| (*kind, family) != (13, 4));
    let each = known.flat_map(|&(kind, codes)| (0..4).map(move |code| (kind, code, codes)));
    each.map(|(kind, code, codes)| (kind, code, codes.contains(&code)))
        .collect()
}

fn used(family: u8, input: &[u8]) -> Result<usize, Fault> {
    read(family, input).map(|reading| reading.used)
}

fn short(place: usize) -> Fault {
    Refusal::InsufficientData.at(place)
}

fn order(previous: u8, found: u8) -> Refusal {
    Refusal::InvalidComponentOrder { previous, found }
}

fn too_wide(code: u8, place: usize) -> Fault {
    Refusal::InvalidValueLength(code).at(place)
}

/// Both families say so, and the plain reading something else.
fn refuses(text: &str, code: u8, place: usize, plain: Result<usize, Fault>) {
    let input = octets(text);
    for family in FAMILIES {
        assert_eq!(used(family, &input), Err(too_wide(code, place)), "{text}");
    }
    assert_eq!(plain_used(&input), plain, "{text}");
}

fn accepts(text: &str) {
    let input = octets(text);
    for family in FAMILIES {
        assert_eq!(used(family, &input), Ok(input.len()), "{text}");
        let rule = read(family, &input).expect("accepted").rule;
        assert_eq!(write(family, &rule), Ok(input.clone()), "{text}");
    }
    assert_eq!(plain_used(&input), Ok(input.len()), "{text}");
}

#[test]
fn by_hand() {
    refuses("02 0B 91", 1, 2, Err(short(3)));
    refuses("04 0B 91 00 2E", 1, 2, Ok(5));
    refuses("04 0C 91 00 01", 1, 2, Ok(5));
    refuses("06 09 A1 00 00 00 02", 2, 2, Ok(7));
    refuses("0A 09 B1 00 00 00 00 00 00 00 02", 3, 2, Ok(11));
    refuses("02 0C B1", 3, 2, Err(short(3)));
    refuses("02 09 A1", 2, 2, Err(short(3)));
    accepts("03 0B 81 2E");
    accepts("03 0C 81 01");
    accepts("03 09 81 02");
    accepts("04 09 91 01 00");
    accepts("09 09 11 01 00 01 02 D2 0F 00");
    // The length in two octets.
    refuses("F0 02 0B 91", 1, 3, Err(short(4)));
    // A second operator and a third; a list behind others.
    refuses("04 0B 01 0A 91", 1, 4, Err(short(5)));
    refuses("06 0C 01 01 D1 00 02", 1, 4, Ok(7));
    refuses("09 09 11 01 00 01 02 E2 00 00", 2, 7, Err(short(10)));
    refuses("09 03 81 06 09 91 01 00 0C 91", 1, 9, Err(short(10)));
    // Reserved bits and a first AND are ignored before and after.
    refuses("02 0B 99", 1, 2, Err(short(3)));
    refuses("02 0C DD", 1, 2, Err(short(3)));
    let reserved = Refusal::InvalidOperator(0x99).at(2);
    refuses("04 0B 99 00 2E", 1, 2, Err(reserved));
}

/// What comes before in the octets, or in the order of the tests, is told first.
#[test]
fn other_refusals_come_first() {
    let cases: [(&[u8], &str, Fault); 8] = [
        // The stated end is past the input, or before the operator octet.
        (&FAMILIES, "04 0B 91 00", short(4)),
        (&FAMILIES, "01 0B 91 00 2E", short(2)),
        (&FAMILIES, "03 0B 01 0A 91 00 2E", short(4)),
        (&FAMILIES, "05 0C 81 01 0B 91", order(12, 11).at(4)),
        (
            &FAMILIES,
            "01 0E 91",
            Refusal::InvalidComponentType(14).at(1),
        ),
        (&[4], "04 01 21 0B 91", Refusal::InvalidPrefix.at(2)),
        (&[4], "02 0D B1", Refusal::InvalidComponentType(13).at(1)),
        (&[6], "02 0D B1", short(3)),
    ];
    for (families, text, fault) in cases {
        for &family in families {
            assert_eq!(used(family, &octets(text)), Err(fault), "{family} {text}");
        }
    }
    // What comes after is not looked at.
    refuses("07 0B 91 00 2E 00 0E 21", 1, 2, Err(order(11, 0).at(5)));
}

/// As the first operator and as the second, with its value, without it and with a part of it.
#[test]
fn each_type_with_each_code() {
    for family in FAMILIES {
        for (kind, code, allowed) in types_and_codes(family) {
            for before in [&[kind][..], &[kind, 0x01, 0x2A]] {
                let width = 1 << code;
                for there in 0..=width {
                    let body = [before, &[0x81 | code << 4], &vec![0; there][..]].concat();
                    let input = framed(&body);
                    let wanted = match (allowed, there == width) {
                        (true, true) => Ok(input.len()),
                        (true, false) => Err(short(input.len())),
                        (false, _) => Err(too_wide(code, 1 + before.len())),
                    };
                    assert_eq!(used(family, &input), wanted, "{input:02X?}");
                }
            }
        }
    }
}

#[test]
fn the_plain_reading_takes_every_width() {
    for kind in 3..=13 {
        for octet in (0x80..=0xFF).filter(|octet| octet & 0x0C == 0) {
            let width = 1 << (octet >> 4 & 3);
            let whole = framed(&[&[kind, octet], &vec![0; width][..]].concat());
            assert_eq!(plain_used(&whole), Ok(whole.len()), "{whole:02X?}");
            let cut = framed(&[kind, octet]);
            assert_eq!(plain_used(&cut), Err(short(3)), "{cut:02X?}");
        }
    }
}

/// A rule whose list is too wide for its type is a BadRecord to all that take one, though the value
/// would fit fewer octets.
#[test]
fn bad_records() {
    for family in FAMILIES {
        let good = Flow {
            family,
            rule: rule(&[list(3, &[(0x81, 6)])]),
        };
        let any = packet(family.into());
        for (kind, code, allowed) in types_and_codes(family) {
            let own = 0x01 | code << 4;
            for pairs in [
                &[(0x80 | own, 5)][..],
                &[(own, 5), (0x81, 6)],
                &[(0x01, 6), (0x80 | own, 5)],
            ] {
                let flow = Flow {
                    family,
                    rule: rule(&[list(kind, pairs)]),
                };
                let table = [good.clone(), flow.clone()];
                let told = [
                    write(family, &flow.rule).err(),
                    matches(&flow, &any).err(),
                    rank(&flow, &good).err(),
                    rank(&good, &flow).err(),
                    precedes(&good, &flow).err(),
                    choose(&table, &any).err(),
                    direct::rank(&flow, &good).err(),
                    direct::rank(&good, &flow).err(),
                    direct::choose(&table, &any).err(),
                ];
                let wanted = Some(Refusal::BadRecord).filter(|_| !allowed);
                assert_eq!(told, [wanted; 9], "{family} {flow:?}");
            }
        }
    }
}

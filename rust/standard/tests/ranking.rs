//! Document 01's ranking: RFC 8955, 5.1 and RFC 8956, 4.

mod common;

use common::{flow, ipv4, ipv6, list, rule};
use standard::{direct, precedes, rank, read, write, Flow, Refusal};
use std::cmp::Ordering;

fn order(family: u8, one: &str, other: &str) -> Ordering {
    let (one, other) = (flow(family, one), flow(family, other));
    let order = rank(&one, &other).expect("both are good");
    assert_eq!(rank(&other, &one), Ok(order.reverse()));
    assert_eq!(direct::rank(&one, &other), Ok(order));
    assert_eq!(precedes(&one, &other), Ok(order == Ordering::Less));
    order
}

/// Each of these precedes all that come after it.
fn falls(family: u8, texts: &[&str]) {
    for (place, one) in texts.iter().enumerate() {
        assert_eq!(order(family, one, one), Ordering::Equal);
        for other in &texts[place + 1..] {
            assert_eq!(order(family, one, other), Ordering::Less, "{one} | {other}");
        }
    }
}

#[test]
fn lower_types_precede_and_a_missing_component_comes_last() {
    for family in [4, 6] {
        falls(
            family,
            &[
                "06 03 81 FF 04 81 FF",
                "06 03 81 FF 05 81 00",
                "03 03 81 FF",
                "03 04 81 00",
                "06 05 81 00 0C 81 00",
                "03 05 81 00",
                "03 0C 81 00",
                "00",
            ],
        );
    }
    falls(6, &["03 0C 81 00", "03 0D 81 00", "00"]);
}

/// Bits before lengths: 10.0.0.0/8 precedes 11.0.0.0/16, 10.0.0.0/16 precedes 11.0.0.0/8. Of one inside
/// the other the longer.
#[test]
fn ipv4_prefixes() {
    falls(
        4,
        &[
            "04 01 10 0A 00",
            "04 01 10 0A 01",
            "03 01 08 0A",
            "04 01 10 0B 00",
            "03 01 08 0B",
            "06 01 20 C0 00 02 01",
            "05 01 18 C0 00 02",
            "04 01 10 C0 00",
            "03 01 01 80",
            "02 01 00",
            "06 02 20 00 00 00 00",
            "02 02 00",
        ],
    );
    // The next component decides where the prefixes are the same.
    falls(
        4,
        &[
            "06 01 08 0A 03 81 06",
            "06 01 08 0A 03 81 07",
            "03 01 08 0A",
        ],
    );
}

#[test]
fn ipv6_prefixes_by_offset_first() {
    falls(
        6,
        &[
            "05 01 10 00 20 01",
            "05 01 10 00 20 02",
            "04 01 08 00 20",
            "04 01 08 00 FF",
            "03 01 00 00",
            "04 01 10 08 00",
            "04 01 10 08 01",
            "04 01 10 09 00",
            "04 01 41 3F 00",
            "04 01 41 3F 40",
            "04 01 41 3F C0",
            "04 01 40 3F 80",
        ],
    );
}

/// Octets as they are written, operators and values alike.
#[test]
fn lists() {
    for family in [4, 6] {
        falls(
            family,
            &[
                "05 03 01 05 81 06",
                "05 03 01 06 81 05",
                "05 03 01 06 81 06",
                "06 03 01 06 91 00 05",
                "05 03 01 06 C1 05",
                "05 03 02 00 81 00",
                "03 03 81 05",
                "03 03 81 06",
                "03 03 82 00",
                "04 03 91 00 05",
                "04 03 91 01 00",
            ],
        );
    }
}

#[test]
fn the_longer_list_precedes() {
    // Lists that are closed are no part of one another: the longer has no end mark where the shorter has.
    assert_eq!(order(4, "05 03 01 05 81 06", "03 03 81 05"), Ordering::Less);
}

/// Reserved bits are ranked as they are written, as 0.
#[test]
fn reserved_bits() {
    let of = |kind, octet| Flow {
        family: 4,
        rule: rule(&[list(kind, &[(octet, 6)])]),
    };
    assert_eq!(rank(&of(3, 0x81), &of(3, 0x89)), Ok(Ordering::Equal));
    assert_eq!(rank(&of(3, 0x89), &of(3, 0x82)), Ok(Ordering::Less));
    for octet in [0x85, 0x89, 0x8D] {
        assert_eq!(rank(&of(9, 0x81), &of(9, octet)), Ok(Ordering::Equal));
        assert_eq!(
            direct::rank(&of(9, octet), &of(9, 0x81)),
            Ok(Ordering::Equal)
        );
    }
}

/// DSCP values and fragment masks are ranked whole.
#[test]
fn octets_are_taken_whole() {
    falls(4, &["03 0B 81 00", "03 0B 81 40", "03 0B 81 80"]);
    falls(6, &["03 0C 81 00", "03 0C 81 01", "03 0C 81 10"]);
}

/// Rules that differ in little: lists of up to two operators and prefixes of few bits, alone and with
/// more behind them.
fn near(family: u8) -> Vec<Flow> {
    let mut first = Vec::new();
    let operators = [(0x01, 5), (0x01, 6), (0x09, 5), (0x02, 5), (0x11, 5)];
    for (octet, value) in operators {
        for kind in [3, 9] {
            first.push(list(kind, &[(0x80 | octet, value)]));
            for last in [0x81, 0x8D, 0x91, 0xC1] {
                first.push(list(kind, &[(octet, value), (last, 5)]));
            }
        }
    }
    for length in 0..4u8 {
        for bits in 0..1u128 << length {
            let address = bits << (127 - length) << 1;
            match family {
                4 => first.push(ipv4(1, (address >> 96) as u32, length)),
                _ => {
                    let offset = length.max(1) - 1;
                    let last = address << offset >> offset;
                    first.push(ipv6(1, address, length, 0));
                    first.push(ipv6(1, last, length, offset));
                }
            }
        }
    }
    let behind = [
        vec![],
        vec![list(12, &[(0x81, 0)])],
        vec![list(12, &[(0x85, 0)])],
    ];
    let mut flows = Vec::new();
    for first in first {
        for behind in &behind {
            let rule = rule(&[vec![first.clone()], behind.clone()].concat());
            flows.push(Flow { family, rule });
        }
    }
    flows
}

/// Rules rank equal exactly if they are written alike, and exactly if what is written reads as the same.
#[test]
fn equal_rank_is_equal_octets() {
    for family in [4, 6] {
        let (mut equal, mut unlike) = (0, 0);
        let rules = near(family);
        let written = rules
            .iter()
            .map(|flow| write(family, &flow.rule).expect("well-formed"));
        let written: Vec<Vec<u8>> = written.collect();
        for (one, octets) in rules.iter().zip(&written) {
            for (other, others) in rules.iter().zip(&written) {
                let order = rank(one, other).expect("both are good");
                assert_eq!(rank(other, one), Ok(order.reverse()));
                assert_eq!(
                    order == Ordering::Equal,
                    octets == others,
                    "{one:?} {other:?}"
                );
                let same = read(family, octets) == read(family, others);
                assert_eq!(order == Ordering::Equal, same, "{one:?} {other:?}");
                equal += usize::from(order == Ordering::Equal && one != other);
                unlike += usize::from(order != Ordering::Equal);
            }
        }
        assert!(equal > 100 && unlike > 10_000, "{equal} {unlike}");
    }
}

#[test]
fn refusals() {
    let bad = Flow {
        family: 4,
        rule: rule(&[ipv4(1, 1, 0)]),
    };
    let good = |family| flow(family, "00");
    let of_none = Flow {
        family: 0,
        ..good(4)
    };
    for other in [good(4), good(6), bad.clone(), of_none.clone()] {
        for bad in [&bad, &of_none] {
            assert_eq!(rank(bad, &other), Err(Refusal::BadRecord));
            assert_eq!(rank(&other, bad), Err(Refusal::BadRecord));
            assert_eq!(direct::rank(bad, &other), Err(Refusal::BadRecord));
            assert_eq!(direct::rank(&other, bad), Err(Refusal::BadRecord));
        }
    }
    assert_eq!(rank(&good(4), &good(6)), Err(Refusal::MixedFamily(1)));
    assert_eq!(precedes(&good(6), &good(4)), Err(Refusal::MixedFamily(1)));
    assert_eq!(
        direct::rank(&good(6), &good(4)),
        Err(Refusal::MixedFamily(1))
    );
}

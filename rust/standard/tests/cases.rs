//! Document 01's cases and the RFCs' worked examples, as the standard reading and writing have them.

mod common;

use common::{ipv4, ipv6, list, octets, rule};
use standard::{read, write, Component, Content, Fault, Refusal};

/// The input is read as the rule, all of it used, and the rule is written as these octets, which
/// read as the rule again.
fn reads(family: u8, input: &str, components: &[Component], written: &str) {
    let input = octets(input);
    let read_rule = read(family, &input).expect("accepted");
    assert_eq!(read_rule.rule, rule(components), "{input:02X?}");
    assert_eq!(read_rule.used, input.len(), "{input:02X?}");
    let rewritten = write(family, &read_rule.rule).expect("written");
    assert_eq!(rewritten, octets(written));
    let again = read(family, &rewritten).expect("accepted again");
    assert_eq!(again.rule, read_rule.rule);
}

/// As `reads`, for an input that is written as it stands.
fn trips(family: u8, input: &str, components: &[Component]) {
    reads(family, input, components, input);
}

/// The input is refused; tests/places.rs has where.
fn refuses(family: u8, input: &str, refusal: Refusal) {
    let reading = read(family, &octets(input));
    assert_eq!(
        reading.map_err(|fault| fault.refusal),
        Err(refusal),
        "{input}"
    );
}

const SHORT: Refusal = Refusal::InsufficientData;

#[test]
fn lengths() {
    for family in [4, 6] {
        refuses(family, "", SHORT);
        refuses(family, "F0", SHORT);
        refuses(family, "EF", SHORT);
        trips(family, "00", &[]);
        reads(family, "F0 00", &[], "00");
    }
    let net = ipv4(1, 0xC000_0200, 24);
    reads(4, "F0 05 01 18 C0 00 02", &[net], "05 01 18 C0 00 02");
    // What follows the stated end is someone else's.
    let followed = read(4, &octets("03 03 81 06 FF FF")).expect("accepted");
    assert_eq!(followed.used, 4);
}

#[test]
fn the_stated_end_bounds_the_walk() {
    refuses(4, "02 03 81 06 05", SHORT);
    refuses(6, "04 01 10 00 20 01", SHORT);
    refuses(4, "02 01 08 0A", SHORT);
}

#[test]
fn order_comes_before_type() {
    let order = |previous, found| Refusal::InvalidComponentOrder { previous, found };
    refuses(4, "01 00", order(0, 0));
    refuses(4, "01 0E", Refusal::InvalidComponentType(14));
    refuses(4, "06 03 81 06 03 81 11", order(3, 3));
    refuses(4, "04 0D 81 00 0E", Refusal::InvalidComponentType(13));
    refuses(6, "04 0D 81 00 0E", Refusal::InvalidComponentType(14));
}

#[test]
fn lists() {
    for family in [4, 6] {
        trips(family, "03 03 81 06", &[list(3, &[(0x81, 6)])]);
        // Reserved bits, and AND on the first operator, are not recorded.
        reads(
            family,
            "03 03 89 06",
            &[list(3, &[(0x81, 6)])],
            "03 03 81 06",
        );
        reads(
            family,
            "05 09 4F 12 CE 01",
            &[list(9, &[(0x03, 0x12), (0xC2, 1)])],
            "05 09 03 12 C2 01",
        );
        refuses(family, "02 03 89", SHORT);
        let ports = list(5, &[(0x03, 80), (0x45, 90), (0x91, 443)]);
        trips(family, "08 05 03 50 45 5A 91 01 BB", &[ports]);
        let wide = list(10, &[(0x21, 0x0102_0304), (0xB1, 0x1122_3344_5566_7788)]);
        trips(
            family,
            "0F 0A 21 01 02 03 04 B1 11 22 33 44 55 66 77 88",
            &[wide],
        );
    }
}

#[test]
fn ipv4_prefixes() {
    // Bits past the length are not recorded.
    reads(4, "03 01 04 FF", &[ipv4(1, 0xF000_0000, 4)], "03 01 04 F0");
    trips(4, "02 02 00", &[ipv4(2, 0, 0)]);
    trips(4, "06 01 20 C0 00 02 01", &[ipv4(1, 0xC000_0201, 32)]);
    refuses(4, "02 01 81", Refusal::InvalidPrefix);
    refuses(4, "02 01 21", Refusal::InvalidPrefix);
}

#[test]
fn ipv6_prefixes() {
    let two_bits = 1 << (127 - 63) | 1 << (127 - 64);
    trips(6, "04 01 41 3F C0", &[ipv6(1, two_bits, 65, 63)]);
    reads(
        6,
        "04 01 41 3F FF",
        &[ipv6(1, two_bits, 65, 63)],
        "04 01 41 3F C0",
    );
    trips(6, "03 01 00 00", &[ipv6(1, 0, 0, 0)]);
    trips(6, "04 02 80 7F 80", &[ipv6(2, 1, 128, 127)]);
    refuses(6, "03 01 40 40", Refusal::InvalidPrefix);
    refuses(6, "03 01 00 01", Refusal::InvalidPrefix);
    refuses(6, "03 01 81 00", Refusal::InvalidPrefix);
    refuses(6, "02 01 81", SHORT);
}

#[test]
fn worked_examples_of_rfc_8955() {
    let net = || ipv4(1, 0xC000_0200, 24);
    trips(
        4,
        "0B 01 18 C0 00 02 03 81 06 04 81 19",
        &[net(), list(3, &[(0x81, 6)]), list(4, &[(0x81, 25)])],
    );
    trips(
        4,
        "12 01 18 C0 00 02 02 18 CB 00 71 04 03 89 45 8B 91 1F 90",
        &[
            net(),
            ipv4(2, 0xCB00_7100, 24),
            list(4, &[(0x03, 137), (0x45, 139), (0x91, 8080)]),
        ],
    );
    trips(
        4,
        "09 01 20 C0 00 02 01 0C 80 05",
        &[ipv4(1, 0xC000_0201, 32), list(12, &[(0x80, 5)])],
    );
}

#[test]
fn worked_examples_of_rfc_8956() {
    let to = || ipv6(1, 0x2001_0DB8 << 96, 32, 0);
    let from = 0x12_3456_789A << 24;
    trips(
        6,
        "12 01 20 00 20 01 0D B8 02 68 40 12 34 56 78 9A 03 81 06",
        &[to(), ipv6(2, from, 104, 64), list(3, &[(0x81, 6)])],
    );
    trips(
        6,
        "0F 01 20 00 20 01 0D B8 02 68 41 24 68 AC F1 34",
        &[to(), ipv6(2, from, 104, 65)],
    );
}

#[test]
fn families() {
    for family in (0..=255).filter(|family| ![4, 6].contains(family)) {
        let refusal = Refusal::BadFamily(family);
        assert_eq!(read(family, &[]), Err(Fault::from(refusal)));
        // Before all else, also where the record is bad.
        assert_eq!(write(family, &rule(&[list(99, &[])])), Err(refusal));
    }
}

#[test]
fn bad_records() {
    let bad = |family, components: &[Component]| {
        let written = write(family, &rule(components));
        assert_eq!(written, Err(Refusal::BadRecord), "{components:?}");
    };
    let six = || list(3, &[(0x81, 6)]);
    bad(4, &[six(), six()]);
    bad(4, &[list(4, &[(0x81, 6)]), six()]);
    bad(4, &[list(0, &[(0x81, 6)])]);
    bad(4, &[list(13, &[(0x81, 6)])]);
    bad(6, &[list(14, &[(0x81, 6)])]);
    bad(4, &[list(1, &[(0x81, 6)])]);
    bad(4, &[ipv4(3, 0, 0)]);
    bad(4, &[ipv6(1, 0, 0, 0)]);
    bad(6, &[ipv4(1, 0, 0)]);
    bad(4, &[ipv4(1, 0, 33)]);
    bad(4, &[ipv4(1, 1, 31)]);
    bad(6, &[ipv6(1, 0, 129, 0)]);
    bad(6, &[ipv6(1, 0, 64, 64)]);
    bad(6, &[ipv6(1, 0, 0, 1)]);
    bad(6, &[ipv6(1, 1, 127, 0)]);
    bad(6, &[ipv6(1, 1 << 127, 128, 1)]);
    bad(4, &[list(3, &[])]);
    bad(4, &[list(3, &[(0x01, 6)])]);
    bad(4, &[list(3, &[(0x81, 6), (0x81, 6)])]);
    bad(4, &[list(3, &[(0xC1, 6)])]);
    bad(4, &[list(3, &[(0x81, 256)])]);
    bad(4, &[list(3, &[(0xA1, 1 << 32)])]);
    let mut form = ipv6(1, 0, 0, 0);
    if let Content::Prefix(prefix) = &mut form.content {
        prefix.offset = None;
    }
    bad(6, &[form]);
}

#[test]
fn the_longest() {
    let many = |count| {
        let mut pairs = vec![(0x01, 7); count];
        pairs[count - 1].0 = 0x81;
        pairs
    };
    let longest = write(4, &rule(&[list(4, &many(2047))])).expect("written");
    assert_eq!((longest.len(), &longest[..2]), (4097, &[0xFF, 0xFF][..]));
    assert_eq!(read(4, &longest).map(|read| read.used), Ok(4097));
    let over = rule(&[list(4, &many(2048))]);
    assert_eq!(write(4, &over), Err(Refusal::BadRecord));
    let too_long = rule(&[ipv4(1, 0, 0), list(4, &many(2047))]);
    assert_eq!(write(4, &too_long), Err(Refusal::ValueTooLarge(4097)));
    let two_octets = write(4, &rule(&[ipv4(1, 0, 0), list(4, &many(119))]));
    assert_eq!(
        two_octets.map(|octets| octets[..3].to_vec()),
        Ok(vec![0xF0, 241, 1])
    );
    let one_octet = write(4, &rule(&[list(4, &many(119))]));
    assert_eq!(
        one_octet.map(|octets| octets[..2].to_vec()),
        Ok(vec![239, 4])
    );
}

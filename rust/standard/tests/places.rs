//! Where a reading broke: document 01, "What comes back", on its cases and their neighbours, in all three
//! readings.

mod common;

use common::octets;
use inputs::FIXED;
use standard::{plain_used, read, Fault, Refusal};

/// What a reading tells but for the rule: the octets used, or the refusal and its place.
fn told(family: Option<u8>, input: &[u8]) -> Result<usize, Fault> {
    match family {
        None => plain_used(input),
        Some(family) => read(family, input).map(|reading| reading.used),
    }
}

const PLAIN: Option<u8> = None;
const IPV4: Option<u8> = Some(4);
const IPV6: Option<u8> = Some(6);
const READINGS: [Option<u8>; 3] = [PLAIN, IPV4, IPV6];

fn refuses(readings: &[Option<u8>], input: &str, refusal: Refusal, place: usize) {
    let fault = refusal.at(place);
    for &family in readings {
        assert_eq!(
            told(family, &octets(input)),
            Err(fault),
            "{family:?} {input}"
        );
    }
}

fn accepts(readings: &[Option<u8>], input: &str, used: usize) {
    for &family in readings {
        assert_eq!(told(family, &octets(input)), Ok(used), "{family:?} {input}");
    }
}

fn order(previous: u8, found: u8) -> Refusal {
    Refusal::InvalidComponentOrder { previous, found }
}

const SHORT: Refusal = Refusal::InsufficientData;
const STANDARD: [Option<u8>; 2] = [IPV4, IPV6];

#[test]
fn a_missing_length_octet_and_a_stated_end_past_the_input_are_at_the_inputs_end() {
    refuses(&READINGS, "", SHORT, 0);
    refuses(&READINGS, "F0", SHORT, 1);
    refuses(&READINGS, "EF", SHORT, 1);
    refuses(&READINGS, "FF FF 03", SHORT, 3);
    // Before the walk: the type is wrong too.
    refuses(&READINGS, "05 0E 0E", SHORT, 3);
    refuses(&READINGS, "F0 03 00 00", SHORT, 4);
}

#[test]
fn in_the_walk_a_missing_octet_is_at_the_end_that_bounds_it() {
    accepts(&[PLAIN], "02 03 81 06 05", 3);
    refuses(&STANDARD, "02 03 81 06 05", SHORT, 3);
    refuses(&READINGS, "02 03 89", SHORT, 3);
    // Two octets of length count too.
    accepts(&[PLAIN], "F0 02 03 81 06 05", 4);
    refuses(&STANDARD, "F0 02 03 81 06 05", SHORT, 4);
    // The plain reading goes on to the input's end: no end mark, no octet for the second operator.
    refuses(&[PLAIN], "02 03 01 06 05", SHORT, 5);
    refuses(&STANDARD, "02 03 01 06 05", SHORT, 3);
    // No octet behind the type.
    refuses(&READINGS, "01 03", SHORT, 2);
    refuses(&READINGS, "01 01", SHORT, 2);
    refuses(&STANDARD, "01 03 81 06", SHORT, 2);
}

#[test]
fn so_it_is_where_a_part_is_there() {
    // Values of two, four and eight octets.
    refuses(&READINGS, "03 05 91 01", SHORT, 4);
    refuses(&READINGS, "05 05 A1 01 02 03", SHORT, 6);
    refuses(&READINGS, "05 05 B1 01 02 03", SHORT, 6);
    refuses(&STANDARD, "03 05 91 01 BB", SHORT, 4);
    refuses(&[PLAIN], "03 05 A1 01 BB", SHORT, 5);
    // Prefixes.
    refuses(&[PLAIN, IPV4], "04 01 18 C0 00", SHORT, 5);
    refuses(&[IPV4], "04 01 18 C0 00 02", SHORT, 5);
    refuses(&[IPV6], "04 01 18 00 20 01", SHORT, 5);
    refuses(&[PLAIN], "02 01 21", SHORT, 3);
    refuses(&[IPV6], "02 01 81", SHORT, 3);
    refuses(&[IPV6], "02 01 81 00", SHORT, 3);
}

#[test]
fn order_and_type_are_at_the_type_octet() {
    refuses(&READINGS, "01 00", order(0, 0), 1);
    refuses(&READINGS, "F0 01 00", order(0, 0), 2);
    refuses(&READINGS, "01 0E", Refusal::InvalidComponentType(14), 1);
    refuses(&READINGS, "06 03 81 06 03 81 11", order(3, 3), 4);
    refuses(
        &[PLAIN, IPV6],
        "04 0D 81 00 0E",
        Refusal::InvalidComponentType(14),
        4,
    );
    refuses(
        &[IPV4],
        "04 0D 81 00 0E",
        Refusal::InvalidComponentType(13),
        1,
    );
    refuses(&[PLAIN, IPV4], "03 01 00 00", order(1, 0), 3);
}

#[test]
fn a_prefix_is_at_its_length_octet() {
    refuses(&[PLAIN, IPV4], "02 01 81", Refusal::InvalidPrefix, 2);
    refuses(&[IPV4], "02 01 21", Refusal::InvalidPrefix, 2);
    refuses(&[PLAIN, IPV4], "F0 02 01 81", Refusal::InvalidPrefix, 3);
    refuses(
        &[PLAIN, IPV4],
        "06 01 10 0A 01 02 FF",
        Refusal::InvalidPrefix,
        6,
    );
    // So is a bad pair, whichever of the two is to blame.
    refuses(&[IPV6], "03 01 40 40", Refusal::InvalidPrefix, 2);
    refuses(&[IPV6], "03 01 00 01", Refusal::InvalidPrefix, 2);
    refuses(&[IPV6], "03 01 81 00", Refusal::InvalidPrefix, 2);
    refuses(
        &[IPV6],
        "07 01 08 00 20 02 40 41",
        Refusal::InvalidPrefix,
        6,
    );
    accepts(&[IPV6], "03 01 00 00", 4);
}

#[test]
fn an_operator_is_at_its_own_octet_once_its_value_is_there() {
    refuses(&[PLAIN], "03 03 89 06", Refusal::InvalidOperator(0x89), 2);
    accepts(&STANDARD, "03 03 89 06", 4);
    refuses(
        &[PLAIN],
        "F0 03 03 89 06",
        Refusal::InvalidOperator(0x89),
        3,
    );
    refuses(
        &[PLAIN],
        "08 05 11 00 50 1A 00 51 81 06",
        Refusal::InvalidOperator(0x1A),
        5,
    );
    refuses(&[PLAIN], "03 0C 85 01", Refusal::InvalidOperator(0x85), 2);
    refuses(&[PLAIN], "03 03 99 06", SHORT, 4);
    // The value may stand behind the stated end.
    refuses(&[PLAIN], "02 03 89 06", Refusal::InvalidOperator(0x89), 2);
    accepts(&[PLAIN], "03 03 85 06", 4);
}

#[test]
fn other_refusals_have_no_place() {
    let nowhere = |refusal| Err(Fault::from(refusal));
    assert_eq!(plain_used(&[0; 4097]), Ok(1));
    assert_eq!(plain_used(&[0; 4098]), nowhere(Refusal::InputTooLong(4098)));
    assert_eq!(
        plain_used(&[0x0E; 5000]),
        nowhere(Refusal::InputTooLong(5000))
    );
    assert_eq!(told(Some(5), &[0x0E]), nowhere(Refusal::BadFamily(5)));
    assert_eq!(told(IPV4, &[0; 4098]), Ok(1));
}

#[test]
fn a_truncation_of_a_good_input_has_its_length_or_the_stated_end() {
    let short = |place| Err(SHORT.at(place));
    for family in READINGS {
        for input in FIXED.iter().map(|text| octets(text)) {
            let used = match told(family, &input) {
                Ok(used) => used,
                Err(_) => continue,
            };
            for left in 0..used {
                assert_eq!(told(family, &input[..left]), short(left));
            }
            // The length field cut back, the octets behind it left where they are.
            let start = if input[0] < 240 { 1 } else { 2 };
            let mut restated = input.clone();
            for end in start..used {
                restated[start - 1] = (end - start) as u8;
                let said = told(family, &restated);
                let whole = said == Ok(end);
                assert!(whole || said == short(end), "{restated:02X?} {said:?}");
                assert!(whole || family != PLAIN, "{restated:02X?}");
            }
        }
    }
}

//! The place of a refusal is that of the wrong octet, counted from the start of the input, or of a missing octet that of the end before which
//! it is missing (docs/SCOPE.md, "What comes back"): cases by hand, every truncation of good inputs, and inputs made by rule and at random.

use inputs::{Form, Random, FIXED, LONGEST_BODY};
use krubbadin::surface::{self, Answer, COUNT, DISTINGUISHED, FAMILY, NOWHERE, OPERATORS, WORDS};
use krubbadin::*;
use Form::{Plain, Standard, WithDistinguisher};

const FORMS: [Form; 3] = [Plain, Standard(4), Standard(6)];
const STANDARD: [Form; 2] = [Standard(4), Standard(6)];
/// Those and the readings that expect a distinguisher.
const ALL: [Form; 5] = [
    Plain,
    Standard(4),
    Standard(6),
    WithDistinguisher(4),
    WithDistinguisher(6),
];

/// What a check answers, which every other call must say too.
fn answer(form: Form, input: &[u8]) -> Answer {
    let (standard, family) = match form {
        Plain => (0, 0),
        Standard(family) => (1, family),
        WithDistinguisher(family) => (2, family),
    };
    let answer = surface::check(standard, family, input);
    let (mut words, mut values, mut octets) = ([0; WORDS], [0; OPERATORS], [0; OPERATORS]);
    let read = surface::read(
        standard,
        family,
        input,
        &mut words,
        &mut values,
        &mut octets,
    );
    assert_eq!(read, answer, "{form}: {input:02X?}");
    if answer.status == 0 {
        return answer;
    }
    // The octets are refused before the room is.
    let read = surface::read(standard, family, input, &mut [], &mut [], &mut []);
    assert_eq!(read, answer, "{form}: {input:02X?}");
    if let Ok(family) = Family::try_from(family) {
        let refusal = answer.accepted().unwrap_err();
        let mut table = Table::new();
        if standard == 2 {
            let read = read_distinguished(family, input).unwrap_err();
            assert_eq!(read, refusal);
            assert_eq!(check_distinguished(family, input), Err(refusal));
            assert_eq!(table.read_distinguished(family, input), Err(refusal));
        } else {
            assert_eq!(read_refusal(family, input), refusal);
            assert_eq!(check(family, input), Err(refusal));
            assert_eq!(table.read(family, input), Err(refusal));
        }
        assert!(table.is_empty());
    }
    answer
}

fn read_refusal(family: Family, input: &[u8]) -> Refusal {
    read(family, input).unwrap_err()
}

/// How many octets the length has, and the body's stated length, where all of the length is there.
fn stated(input: &[u8]) -> Option<(usize, usize)> {
    let first = usize::from(*input.first()?);
    match first {
        0..=239 => Some((1, first)),
        _ => Some((2, first % 16 * 256 + usize::from(*input.get(1)?))),
    }
}

/// The end before which an octet is missing: in a standard reading the stated one, where the input has that much.
fn bound(form: Form, input: &[u8]) -> usize {
    match stated(input) {
        Some((width, length)) if form != Plain => input.len().min(width + length),
        _ => input.len(),
    }
}

/// The same octets with another end stated, in a length of as many octets.
fn restated(input: &[u8], end: usize) -> Vec<u8> {
    let (width, _) = stated(input).unwrap();
    let mut restated = input.to_vec();
    match end - width {
        length if width == 1 => restated[0] = length as u8,
        length => restated[..2].copy_from_slice(&[0xF0 | (length >> 8) as u8, length as u8]),
    }
    restated
}

fn missing_at(place: usize) -> Refusal {
    Refusal::at(Reason::InsufficientData, place)
}

/// What is said where octets are missing before a stated end that the input has.
fn missing_before(form: Form, end: usize, width: usize) -> Refusal {
    match form {
        WithDistinguisher(_) if end < width + 8 => Refusal::at(Reason::ShortDistinguisher, end),
        _ => missing_at(end),
    }
}

#[test]
fn a_missing_octet_has_the_place_of_the_end_that_it_is_missing_before() {
    let cases: [(&[Form], &str, usize); 31] = [
        // An octet of the length, and a stated end past the input.
        (&FORMS, "", 0),
        (&FORMS, "F0", 1),
        (&FORMS, "FF", 1),
        (&FORMS, "EF", 1),
        (&FORMS, "FF FF", 2),
        (&FORMS, "05 01", 2),
        (&FORMS, "F0 05 01", 3),
        (&FORMS, "03 03 81", 3),
        // What is past the input is not looked at first.
        (&FORMS, "04 0E 81 06", 4),
        // The plain walk goes on past the stated end, to the input's.
        (&[Plain], "01 03", 2),
        (&[Plain], "02 03 89", 3),
        (&[Plain], "01 03 91 06", 4),
        (&[Plain], "02 03 01 06 01 06 01", 7),
        (&[Plain], "F0 02 03 B1 01 02 03 04 05 06 07", 11),
        (&[Plain], "01 01", 2),
        (&[Plain], "02 01 18 C0 00", 5),
        (&[Plain], "02 01 21", 3),
        // A standard walk ends at the stated end, also where part of a value is there, and where octets follow.
        (&[Standard(4), Standard(6)], "01 03", 2),
        (&[Standard(4), Standard(6)], "01 03 81 06", 2),
        (&[Standard(4), Standard(6)], "02 03 81 06 05", 3),
        (&[Standard(4), Standard(6)], "03 03 91 06", 4),
        (&[Standard(4), Standard(6)], "03 03 91 06 50 00", 4),
        (&[Standard(4), Standard(6)], "04 03 01 06 01 06 81 06", 5),
        (
            &[Standard(4), Standard(6)],
            "F0 08 03 B1 01 02 03 04 05 06 07 08",
            10,
        ),
        (&[Standard(4), Standard(6)], "01 01 08 0A", 2),
        (&[Standard(4)], "02 01 18 C0 00 02", 3),
        (&[Standard(4)], "04 01 18 C0 00 02", 5),
        // The offset, with a length that is out of range too.
        (&[Standard(6)], "02 01 40", 3),
        (&[Standard(6)], "02 01 81 00", 3),
        (&[Standard(6)], "04 01 41 00 C0", 5),
        (&[Standard(6)], "04 01 41 00 C0 00 00 00 00 00 00 00 00", 5),
    ];
    for (forms, text, place) in cases {
        for &form in forms {
            let refused = answer(form, &inputs::octets(text)).accepted();
            assert_eq!(refused, Err(missing_at(place)), "{form}: {text}");
        }
    }
}

#[test]
fn a_wrong_octet_has_its_place() {
    use Reason::*;
    let order = |expected_greater_than, found| InvalidComponentOrder {
        expected_greater_than,
        found,
    };
    let cases: [(&[Form], &str, Reason, usize); 41] = [
        // The type octet.
        (&FORMS, "01 00", order(0, 0), 1),
        (&FORMS, "F0 01 00", order(0, 0), 2),
        (&FORMS, "06 03 81 06 03 81 11", order(3, 3), 4),
        (&FORMS, "06 05 81 50 04 81 19 00", order(5, 4), 4),
        (&FORMS, "0A 03 81 06 05 A1 00 00 00 50 03", order(5, 3), 10),
        (&[Plain, Standard(4)], "05 02 08 0A 01 08", order(2, 1), 4),
        (&[Standard(6)], "06 02 08 00 0A 01 08", order(2, 1), 5),
        (&FORMS, "01 0E", InvalidComponentType(14), 1),
        (&FORMS, "F0 01 FF", InvalidComponentType(255), 2),
        (&FORMS, "04 03 81 06 0E", InvalidComponentType(14), 4),
        (
            &[Standard(4)],
            "04 0D 81 00 0E",
            InvalidComponentType(13),
            1,
        ),
        (
            &[Plain, Standard(6)],
            "04 0D 81 00 0E",
            InvalidComponentType(14),
            4,
        ),
        // The prefix's length octet.
        (&[Plain, Standard(4)], "02 01 81", InvalidPrefix, 2),
        (&[Plain, Standard(4)], "F0 02 01 81", InvalidPrefix, 3),
        (&[Standard(4)], "02 01 21", InvalidPrefix, 2),
        (&[Standard(4)], "06 01 21 C0 00 02 01", InvalidPrefix, 2),
        (&[Standard(4)], "05 01 08 0A 02 FF", InvalidPrefix, 5),
        (&[Plain], "05 01 08 0A 02 FF", InvalidPrefix, 5),
        // So of IPv6, whether it is the length or the offset.
        (&[Standard(6)], "03 01 81 00", InvalidPrefix, 2),
        (&[Standard(6)], "03 01 40 40", InvalidPrefix, 2),
        (&[Standard(6)], "03 01 40 FF 00", InvalidPrefix, 2),
        (&[Standard(6)], "03 01 00 01", InvalidPrefix, 2),
        (&[Standard(6)], "F0 03 01 40 40", InvalidPrefix, 3),
        (&[Standard(6)], "06 01 00 00 02 40 41", InvalidPrefix, 5),
        // The operator octet, whose value must be there.
        (&[Plain], "03 03 89 06", InvalidOperator(0x89), 2),
        (&[Plain], "F0 03 03 89 06", InvalidOperator(0x89), 3),
        (
            &[Plain],
            "08 05 03 50 45 5A 99 01 BB",
            InvalidOperator(0x99),
            6,
        ),
        (&[Plain], "06 03 81 06 05 88 50", InvalidOperator(0x88), 5),
        (&[Plain], "03 09 84 01", InvalidOperator(0x84), 2),
        (&[Plain], "05 0C 01 01 88 01", InvalidOperator(0x88), 4),
        (&[Plain], "01 03 89 06", InvalidOperator(0x89), 2),
        (&[Plain], "02 03 01 06 89 06", InvalidOperator(0x89), 4),
        // The operator octet whose value is too wide, be that there or not.
        (&STANDARD, "02 0B 91", InvalidValueLength(1), 2),
        (&STANDARD, "04 0B 91 00 2E", InvalidValueLength(1), 2),
        (&STANDARD, "F0 02 0C B1", InvalidValueLength(3), 3),
        (&STANDARD, "02 09 A1 00 00 00 02", InvalidValueLength(2), 2),
        (&STANDARD, "04 0B 01 0A 91", InvalidValueLength(1), 4),
        (
            &STANDARD,
            "09 09 11 01 00 A1 00 00 00 02",
            InvalidValueLength(2),
            5,
        ),
        (&STANDARD, "05 03 81 06 0C D1", InvalidValueLength(1), 5),
        // Reserved bits are not looked at first.
        (&STANDARD, "04 0B 99 00 2E", InvalidValueLength(1), 2),
        (&[Plain], "04 0B 99 00 2E", InvalidOperator(0x99), 2),
    ];
    for (forms, text, reason, place) in cases {
        for &form in forms {
            let refused = answer(form, &inputs::octets(text)).accepted();
            assert_eq!(refused, Err(Refusal::at(reason, place)), "{form}: {text}");
        }
    }
}

/// Lists in runs of each width: every operator of them is found.
#[test]
fn each_operator_of_a_long_list_has_its_place() {
    for (kind, code, bit) in [(4, 0, 8), (5, 1, 8), (9, 2, 4), (13, 3, 8), (12, 0, 8)] {
        for length in [30, 238, 239, 240, 700] {
            let good = inputs::framed(&inputs::list_of(kind, length, code));
            assert_eq!(answer(Plain, &good).status, 0);
            let mut place = good.len() - length + 1;
            while place < good.len() {
                let width = 1 << (good[place] >> 4 & 3);
                let mut bad = good.clone();
                bad[place] |= bit;
                let reason = Reason::InvalidOperator(bad[place]);
                let refused = answer(Plain, &bad).accepted();
                assert_eq!(refused, Err(Refusal::at(reason, place)));
                // Its value must be there before its bits are looked at.
                let refused = answer(Plain, &restated(&bad[..=place], place)).accepted();
                assert_eq!(refused, Err(missing_at(place + 1)));
                place += 1 + width;
            }
        }
    }
}

/// The same of widths, by the standard readings: a list is good up to the operator whose value is too wide, and that value need not be there.
#[test]
fn each_operator_of_a_long_list_may_be_too_wide() {
    for (kind, code) in [(9, 1), (11, 0), (12, 0)] {
        for length in [31, 237, 239, 241, 701] {
            let good = inputs::framed(&inputs::list_of(kind, length, code));
            for form in STANDARD {
                assert_eq!(answer(form, &good).status, 0);
                let mut place = good.len() - length + 1;
                while place < good.len() {
                    let width = 1 << (good[place] >> 4 & 3);
                    for wider in code + 1..4 {
                        let mut bad = good.clone();
                        bad[place] = bad[place] & 0xCF | wider << 4;
                        let reason = Reason::InvalidValueLength(wider);
                        let refused = Err(Refusal::at(reason, place));
                        assert_eq!(answer(form, &bad).accepted(), refused);
                        let cut = restated(&bad[..=place], place + 1);
                        assert_eq!(answer(form, &cut).accepted(), refused);
                        // The octet itself must be there.
                        let cut = restated(&bad, place);
                        assert_eq!(answer(form, &cut).accepted(), Err(missing_at(place)));
                    }
                    place += 1 + width;
                }
            }
        }
    }
}

/// Inputs that a reading accepts.
fn good_inputs(form: Form) -> Vec<Vec<u8>> {
    let distinguisher: &[u8] = match form {
        WithDistinguisher(_) => &[0x00, 0x00, 0xFB, 0xF0, 0x00, 0x00, 0x00, 0x07],
        _ => &[],
    };
    let behind = |body: &[u8]| inputs::framed(&[distinguisher, body].concat());
    let mut good: Vec<Vec<u8>> = FIXED.iter().map(|text| inputs::octets(text)).collect();
    if !distinguisher.is_empty() {
        let body = |input: &Vec<u8>| {
            let (width, length) = stated(input)?;
            input.get(width..width + length).map(behind)
        };
        good = good.iter().filter_map(body).collect();
    }
    for code in 0..4 {
        let bodies = [240, 300, 1000].map(|length| inputs::list_of(4, length, code));
        good.extend(bodies.iter().map(|body| behind(body)));
    }
    let longest = LONGEST_BODY - distinguisher.len();
    good.push(behind(&inputs::list_of(4, longest, 0)));
    let mut random = Random::new(31);
    for _ in 0..1_500 {
        let mut input = Vec::new();
        inputs::random(form, &mut random, &mut input);
        good.push(input);
    }
    good.retain(|input| input.len() < 5_000 && answer(form, input).status == 0);
    good
}

#[test]
fn every_truncation_of_a_good_input_is_refused_at_its_end() {
    for form in ALL {
        let (mut cut, mut short) = (0, 0);
        for input in good_inputs(form) {
            let (used, _) = answer(form, &input).accepted().unwrap();
            let (width, length) = stated(&input).unwrap();
            let end = width + length;
            assert_eq!(used, end);
            for left in 0..=input.len() {
                match answer(form, &input[..left]).accepted() {
                    Ok((used, _)) => assert!(used == end && end <= left),
                    Err(refusal) => {
                        cut += 1;
                        assert_eq!(refusal, missing_at(left));
                        // The plain reading may have read past the stated end.
                        assert!(form == Plain || left < end);
                    }
                }
            }
            // The end is stated too early: the standard walk ends there, and octets follow.
            for early in width..end {
                match answer(form, &restated(&input, early)).accepted() {
                    Ok((used, _)) => assert_eq!(used, early),
                    Err(refusal) => {
                        short += 1;
                        let missing = missing_before(form, early, width);
                        assert_eq!((form == Plain, refusal), (false, missing));
                    }
                }
                // All octets up to there, and none behind: both readings end there.
                match answer(form, &restated(&input[..early], early)).accepted() {
                    Ok((used, _)) => assert_eq!(used, early),
                    Err(refusal) => assert_eq!(refusal, missing_before(form, early, width)),
                }
            }
        }
        assert!(cut > 20_000, "{cut}");
        assert!(form == Plain || short > 10_000, "{short}");
    }
}

/// That the place is exact: it is where the octet stands that the refusal tells of, what is before it is no fault, and what is behind it
/// makes no difference. The number of the refusal.
fn placed(form: Form, input: &[u8], random: &mut Random) -> usize {
    let answer_of = |input: &[u8]| answer(form, input);
    let said = answer_of(input);
    let place = said.place as usize;
    let told = format!("{form}: {said:?} of {input:02X?}");
    let at = |place: usize| u64::from(input[place]);
    let good_before = |end: usize| {
        let (used, _) = answer_of(&restated(input, end)).accepted().expect(&told);
        assert_eq!(used, end, "{told}");
    };
    // The octets from the place on that make a difference: in IPv6 a length and its offset.
    let (mut from, mut telling) = (place, 1);
    match said.status {
        0 | 8 => {
            assert_eq!(said.place, NOWHERE, "{told}");
            return said.status as usize;
        }
        1 => {
            assert_eq!(place, bound(form, input), "{told}");
            return 1;
        }
        2 | 3 => {
            let found = [said.second, said.first][said.status as usize - 2];
            assert_eq!(at(place), found, "{told}");
            good_before(place);
        }
        4 => {
            assert!(matches!(at(place - 1), 1 | 2), "{told}");
            good_before(place - 1);
            match form {
                Plain => assert!(at(place) > 128, "{told}"),
                Standard(4) | WithDistinguisher(4) => assert!(at(place) > 32, "{told}"),
                _ => telling = 2,
            }
        }
        5 => {
            assert_eq!((form, at(place)), (Plain, said.first), "{told}");
            let mut cleared = input.to_vec();
            cleared[place] &= 0xF3;
            let then = answer_of(&cleared);
            assert!(then.status == 0 || then.place > said.place, "{told}");
        }
        6 => {
            assert!(form != Plain && at(place) >> 4 & 3 == said.first, "{told}");
            let mut narrow = input.to_vec();
            narrow[place] &= 0xCF;
            let then = answer_of(&narrow);
            assert!(then.status == 0 || then.place > said.place, "{told}");
        }
        19 => {
            let (width, length) = stated(input).unwrap();
            assert!(matches!(form, WithDistinguisher(_)), "{told}");
            assert!(place == width + length && length < 8, "{told}");
            // Nothing behind the length is looked at.
            (from, telling) = (0, width);
        }
        _ => panic!("{told}"),
    }
    let mut other = input.to_vec();
    other[from + telling..].fill_with(|| random.octet());
    assert_eq!(answer_of(&other), said, "{told}");
    said.status as usize
}

#[test]
fn the_place_is_exact_of_inputs_made_by_rule() {
    for form in ALL {
        let mut random = Random::new(32);
        let mut met = [0; 20];
        let mut count = 0u64;
        inputs::by_rule(form, &mut |input| {
            // Over a million.
            if count % 19 == 0 {
                met[placed(form, input, &mut random)] += 1;
            }
            count += 1;
        });
        all_met(form, met);
    }
}

#[test]
fn the_place_is_exact_of_random_inputs() {
    let mut random = Random::new(33);
    let mut input = Vec::new();
    for form in ALL {
        let mut met = [0; 20];
        for _ in 0..40_000 {
            inputs::random(form, &mut random, &mut input);
            met[placed(form, &input, &mut random)] += 1;
        }
        all_met(form, met);
    }
}

/// That each answer of a reading was met, by number, and often enough, and none that is another's.
fn all_met(form: Form, met: [u32; 20]) {
    let (own, other) = if form == Plain { (5, 6) } else { (6, 5) };
    let often = |&status: &usize| met[status] > 50;
    assert!([0, 1, 2, 3, 4, own].iter().all(often), "{met:?}");
    assert_eq!(met[other], 0, "{met:?}");
    let distinguished = matches!(form, WithDistinguisher(_));
    assert_eq!(
        (often(&19), met[19] > 0),
        (distinguished, distinguished),
        "{met:?}"
    );
}

#[test]
fn other_answers_have_no_place() {
    let nowhere = |answer: Answer, status: u64| {
        assert_eq!((answer.status, answer.place), (status, NOWHERE));
        if status != 0 {
            assert_eq!(answer.accepted().unwrap_err().place(), None);
        }
    };
    let tcp = [0x03, 0x03, 0x81, 0x06];
    let (mut words, mut values, mut octets) = ([0; WORDS], [0; 1], [0; 1]);
    let mut out = [0; 4];
    for (standard, family) in [(0, 0), (1, 6), (1, 4)] {
        let mut read = |words: &mut [u64], places: usize| {
            let (values, octets) = (&mut values[..places], &mut octets[..places]);
            surface::read(standard, family, &tcp, words, values, octets)
        };
        nowhere(read(&mut words[..63], 1), 9);
        nowhere(read(&mut words, 0), 9);
        nowhere(read(&mut words, 1), 0);
        nowhere(surface::check(standard, family, &tcp), 0);
        let mut write = |words: &[u64], room: usize| {
            surface::write(standard, family, words, &values, &octets, &mut out[..room])
        };
        nowhere(write(&words, 4), 0);
        nowhere(write(&words, 3), 9);
        nowhere(write(&words[..63], 4), 10);
    }
    let zeros = [0; 4098];
    nowhere(surface::check(0, 0, &zeros), 8);
    nowhere(surface::check(1, 4, &zeros), 0);
    nowhere(surface::check(1, 5, &tcp), 11);
    // The family is looked at before the octets.
    nowhere(surface::check(1, 5, &[]), 11);
    nowhere(surface::read(1, 5, &tcp, &mut [], &mut [], &mut []), 11);
    nowhere(surface::write(1, 5, &words, &[], &[], &mut []), 11);

    // A list of 600 values of eight octets.
    let mut long = [0; WORDS];
    long[..4].copy_from_slice(&[3, 0, 600, 0]);
    (long[COUNT], long[FAMILY]) = (1, 4);
    let mut operators = [0x31; 600];
    operators[599] = 0xB1;
    nowhere(
        surface::write(1, 4, &long, &[6; 600], &operators, &mut []),
        7,
    );

    let packet = Packet::new([10, 1, 2, 3], [192, 0, 2, 1]).words();
    let rule: (&[u64], &[u64], &[u8]) = (&words, &values, &octets);
    let none: (&[u64], &[u64], &[u8]) = (&[], &[], &[]);
    let mut other = words;
    other[FAMILY] = 6;
    let other: (&[u64], &[u64], &[u8]) = (&other, &values, &octets);
    for (rule, packet, status) in [
        (rule, &packet[..], 0),
        (rule, &packet[..19], 13),
        (other, &packet[..], 14),
    ] {
        nowhere(surface::matches(rule.0, rule.1, rule.2, packet), status);
        nowhere(surface::choose(rule.0, rule.1, rule.2, packet), status);
    }
    nowhere(surface::matches(&[], &[], &[], &packet), 10);
    nowhere(surface::choose(&words[..63], &[], &[], &packet), 10);
    nowhere(surface::choose(&[0; 65 * WORDS], &[], &[], &packet), 12);
    nowhere(surface::rank(rule, rule), 0);
    nowhere(surface::rank(rule, none), 10);
    nowhere(surface::rank(rule, other), 14);
    let mut own = words;
    own[DISTINGUISHED] = 1;
    nowhere(surface::rank(rule, (&own, &values, &octets)), 20);
    let both = [words, own].concat();
    nowhere(surface::choose(&both, &values, &octets, &packet), 20);
    nowhere(surface::operator_write(0, 1, 0, 2, 1), 0);
    nowhere(surface::operator_write(0, 1, 0, 3, 1), 10);
}

/// A table counts from the start of what it is given to read, whatever it holds.
#[test]
fn a_table_says_the_place_in_its_input() {
    let input = inputs::octets("03 01 08 0A 03 01 21 00");
    let mut table = Table::new();
    let used = table.read(Family::Ipv4, &input).unwrap();
    let refused = Err(Refusal::at(Reason::InvalidPrefix, 2));
    assert_eq!(table.read(Family::Ipv4, &input[used..]), refused);
    assert_eq!(table.len(), 1);
}

#[test]
fn the_place_is_said_in_words() {
    let text = |family, input: &[u8]| read_refusal(family, input).to_string();
    assert_eq!(
        text(
            Family::Ipv4,
            &inputs::octets("0C 01 18 C0 00 02 03 81 06 05 81 50 02")
        ),
        "octet 12: a component of type 2 follows type 5, and types must rise"
    );
    assert_eq!(
        text(Family::Ipv6, &inputs::octets("03 01 40 40")),
        "octet 2: a prefix's length or offset is out of range"
    );
    assert_eq!(text(Family::Ipv4, &[]), "octet 0: octets are missing");
    assert_eq!(
        text(Family::Ipv6, &inputs::octets("04 0B 01 0A 91")),
        "octet 4: a value of 2 octets (width code 1) is too wide for its type"
    );
    let plain = answer(Plain, &inputs::octets("03 03 89 06")).accepted();
    assert_eq!(
        plain.unwrap_err().to_string(),
        "octet 2: a reserved bit is set in operator octet 0x89"
    );
    assert_eq!(
        Family::try_from(5).unwrap_err().to_string(),
        "there is no family 5; 4 and 6 are"
    );
}

//! Readings and writings: the plain ones beside the original Rust, the standard ones beside the plain.

use crate::timing::{opaque, repeat, Bar, Sheet, Side, Times};
use differential::compare::Comparison;
use differential::stored::{Stored, WORDS};
use differential::{archive, peers, Form, LONGEST_BODY, LONGEST_INPUT, MOST_OPERATORS};
use inputs::{framed, octets, Random};
use oracle::flowspec::{encode_flowspec_nlri, parse_flowspec_nlri};

/// Cases that are timed in other ways too, and their octets.
pub const SEVEN: &str = "7-octet rule";
pub const SEVEN_OCTETS: &str = "06 03 81 06 05 81 50";
pub const FIVE: &str = "5 components, two prefixes";
pub const FIVE_OCTETS: &str =
    "18 01 18 C0 00 02 02 18 CB 00 71 03 81 06 05 03 50 45 5A 91 01 BB 09 81 02";
pub const PORTS: &str = "200-octet port list";
/// Refused by the walk: a value that is missing, a reserved bit, a falling type.
pub const REFUSED: [(&str, &str); 3] = [
    ("refusal: short", "05 03 81 06 05 81"),
    ("refusal: bad operator", "06 03 81 06 05 89 50"),
    ("refusal: bad order", "06 05 81 50 03 81 06"),
];
/// The time per octet of these is compared with that of the shorter list.
const MANY_PORTS: &str = "4,095-octet port list";

/// At most so much of the original's time.
const ENCODE: f64 = 0.5;
const REFUSAL: f64 = 1.0;
/// At most so much of the plain call's time.
const STANDARD: f64 = 1.2;

pub const ORIGINAL: &str = "the original's time";
const PLAIN: &str = "the plain call's time";

/// The family of the standard calls.
const FAMILY: Form = Form::Standard(4);

struct Case {
    name: &'static str,
    input: Vec<u8>,
    /// The bars of its plain parsing and encoding, if it has them.
    parse: Option<f64>,
    encode: Option<f64>,
}

/// Times all; nothing where the answers differ.
pub fn bench(sheet: &mut Sheet) -> bool {
    let accepted = accepted_cases();
    let refused = refused_cases();
    if !answers_agree(accepted.iter().chain(&refused)) {
        return false;
    }
    plain(&accepted, &refused, sheet);
    standard(&accepted, &refused, sheet);
    true
}

fn plain(accepted: &[Case], refused: &[Case], sheet: &mut Sheet) {
    sheet.heading("octets", ["proved", "original"]);
    for case in accepted.iter().chain(refused) {
        let times = parse_times(case, sheet);
        let ratio = sheet.row("parse", case.name, case.input.len(), times);
        let bar = |most| bar("parse", case, ratio, ORIGINAL, most);
        sheet.bars.extend(case.parse.map(bar));
    }
    for case in accepted {
        let times = encode_times(case, sheet);
        let ratio = sheet.row("encode", case.name, case.input.len(), times);
        let bar = |most| bar("encode", case, ratio, ORIGINAL, most);
        sheet.bars.extend(case.encode.map(bar));
    }
    let lists = [MANY_PORTS, PORTS].map(|name| {
        let case = accepted.iter().find(|case| case.name == name);
        &case.expect("both lists are among the cases").input[..]
    });
    let [mut long, mut short] = lists.map(|input| reading(Form::Plain, input));
    growth("parse", lists, [&mut long, &mut short], sheet);
    let [mut long, mut short] = lists.map(|input| writing(Form::Plain, input));
    growth("encode", lists, [&mut long, &mut short], sheet);
}

/// On the same inputs, but for the one that the standard reading accepts.
fn standard(accepted: &[Case], refused: &[Case], sheet: &mut Sheet) {
    sheet.heading("octets", ["standard", "plain"]);
    let is_refused = |case: &&Case| standard::read(4, &case.input).is_err();
    for case in accepted.iter().chain(refused.iter().filter(is_refused)) {
        let mut standard = reading(FAMILY, &case.input);
        let mut plain = reading(Form::Plain, &case.input);
        let times = sheet.times([&mut standard, &mut plain]);
        let ratio = sheet.row("read", case.name, case.input.len(), times);
        sheet.bars.push(bar("read", case, ratio, PLAIN, STANDARD));
    }
    for case in accepted {
        let mut standard = writing(FAMILY, &case.input);
        let mut plain = writing(Form::Plain, &case.input);
        let times = sheet.times([&mut standard, &mut plain]);
        let ratio = sheet.row("write", case.name, case.input.len(), times);
        sheet.bars.push(bar("write", case, ratio, PLAIN, STANDARD));
    }
}

fn bar(call: &str, case: &Case, figure: f64, of: &str, most: f64) -> Bar {
    Bar {
        what: format!("{call}, {}", case.name),
        figure,
        of: of.to_string(),
        most,
    }
}

fn accepted_cases() -> Vec<Case> {
    let case = |name, input, parse, encode| Case {
        name,
        input,
        parse,
        encode: Some(encode),
    };
    vec![
        case(SEVEN, octets(SEVEN_OCTETS), Some(0.26), ENCODE),
        case(FIVE, octets(FIVE_OCTETS), Some(0.26), 0.32),
        case(PORTS, framed(&ports(200)), Some(0.45), ENCODE),
        case(MANY_PORTS, framed(&ports(LONGEST_BODY)), None, ENCODE),
        case(
            "4,095 octets, one-octet values",
            framed(&list(|| 0)),
            Some(0.55),
            ENCODE,
        ),
        case(
            "4,087 octets, eight-octet values",
            framed(&list(|| 3)),
            Some(0.4),
            ENCODE,
        ),
        case("random widths", framed(&random_widths()), Some(1.0), ENCODE),
    ]
}

fn refused_cases() -> Vec<Case> {
    let case = |(name, input)| Case {
        name,
        input: octets(input),
        parse: Some(REFUSAL),
        encode: None,
    };
    REFUSED.map(case).into()
}

/// A body of so many octets: destination ports, of one octet each until the rest comes out, then of
/// two.
pub fn ports(length: usize) -> Vec<u8> {
    let mut body = vec![5];
    while (length - body.len()) % 3 != 0 {
        body.extend([0x01, 20 + body.len() as u8]);
    }
    while body.len() < length {
        let port = (1024 + 7 * body.len() as u16).to_be_bytes();
        let end = if body.len() + 3 == length { 0x80 } else { 0 };
        body.extend([end | 0x11, port[0], port[1]]);
    }
    body
}

/// The longest body of one port list, its operators with these width codes in turn.
fn list(mut next_code: impl FnMut() -> u8) -> Vec<u8> {
    let mut body = vec![4];
    let mut code = next_code();
    loop {
        let after = next_code();
        let size = |code: u8| 1 + (1 << code);
        let is_last = body.len() + size(code) + size(after) > LONGEST_BODY;
        body.push(if is_last { 0x81 } else { 0x01 } | code << 4);
        let from = body.len();
        body.extend((1..size(code)).map(|at| (from + 11 * at) as u8));
        if is_last {
            return body;
        }
        code = after;
    }
}

fn random_widths() -> Vec<u8> {
    let mut random = Random::new(0xF14);
    list(|| random.below(4) as u8)
}

/// What is timed must be the same work.
fn answers_agree<'a>(cases: impl Iterator<Item = &'a Case>) -> bool {
    let mut comparison = Comparison::new();
    let mut stored = Stored::new(0);
    for case in cases {
        for form in [Form::Plain, FAMILY] {
            comparison.reading(form, &case.input);
            if peers::read(form, &case.input, &mut stored).is_accepted() {
                comparison.writing(form, &stored);
            }
        }
    }
    comparison.differ == 0
}

/// Readings by the proved code.
pub fn reading(form: Form, input: &[u8]) -> impl FnMut(u64) -> u64 + '_ {
    let (mut words, mut values) = ([0; WORDS], [0; MOST_OPERATORS]);
    let mut octets = [0; MOST_OPERATORS];
    move |calls| {
        repeat(calls, || {
            let input = opaque(input);
            let answer = archive::read(form, input, &mut words, &mut values, &mut octets);
            opaque(&answer).status != 0
        })
    }
}

/// Writings by the proved code of the rule that it reads.
pub fn writing(form: Form, input: &[u8]) -> impl FnMut(u64) -> u64 {
    let mut stored = Stored::new(0);
    let accepted = peers::read(form, input, &mut stored).is_accepted();
    assert!(accepted, "these cases are accepted");
    stored.values.resize(MOST_OPERATORS, 0);
    stored.octets.resize(MOST_OPERATORS, 0);
    let mut output = [0; LONGEST_INPUT];
    move |calls| {
        repeat(calls, || {
            let Stored {
                words,
                values,
                octets,
            } = opaque(&stored);
            let answer = archive::write(form, words, values, octets, &mut output);
            opaque(&answer).status != 0
        })
    }
}

fn parse_times(case: &Case, sheet: &mut Sheet) -> Times<2> {
    let input = &case.input[..];
    let mut original = |calls| {
        repeat(calls, || {
            opaque(&parse_flowspec_nlri(opaque(input))).is_err()
        })
    };
    sheet.times([&mut reading(Form::Plain, input), &mut original])
}

fn encode_times(case: &Case, sheet: &mut Sheet) -> Times<2> {
    let rule = parse_flowspec_nlri(&case.input).expect("these cases are accepted");
    let mut original = |calls| {
        repeat(calls, || {
            opaque(&encode_flowspec_nlri(opaque(&rule))).is_err()
        })
    };
    sheet.times([&mut writing(Form::Plain, &case.input), &mut original])
}

/// The proved code's time per octet of the long port list, by that of the short one; the two in turns.
fn growth(call: &str, lists: [&[u8]; 2], sides: [Side; 2], sheet: &mut Sheet) {
    let [long, short] = lists.map(|list| list.len() as f64);
    let ratio = sheet.times(sides).ratio();
    sheet.bars.push(Bar {
        what: format!("{call}, {MANY_PORTS}"),
        figure: ratio * short / long,
        of: format!("the time per octet of the {PORTS}"),
        most: 1.0,
    });
}

//! Checks beside a straightforward Rust validator (`differential::validator`) that gives the same
//! answers, by the plain and by the standard reading.

use crate::coding::{ports, FIVE, FIVE_OCTETS, PORTS, REFUSED};
use crate::timing::{opaque, repeat, Bar, Sheet, Times};
use differential::compare::Comparison;
use differential::{archive, validator, Form};
use inputs::{framed, octets};

/// At most so much of the validator's time, on what is accepted.
const CHECK: f64 = 1.0;

/// RFC 8955, 4.3, first example: to 192.0.2.0/24, TCP, port 25.
pub const TWELVE: &str = "0B 01 18 C0 00 02 03 81 06 04 81 19";

struct Case {
    name: String,
    form: Form,
    input: Vec<u8>,
    /// The bar, if it has one.
    most: Option<f64>,
}

/// Times all; nothing where the answers differ.
pub fn bench(sheet: &mut Sheet) -> bool {
    let cases = cases();
    let mut comparison = Comparison::new();
    for case in &cases {
        comparison.reading(case.form, &case.input);
    }
    if comparison.differ != 0 {
        return false;
    }
    sheet.heading("octets", ["proved", "Rust"]);
    for case in &cases {
        let times = check_times(case.form, &case.input, sheet);
        let ratio = sheet.row("check", &case.name, case.input.len(), times);
        sheet.bars.extend(case.most.map(|most| Bar {
            what: format!("check, {}", case.name),
            figure: ratio,
            of: "the Rust validator's time".to_string(),
            most,
        }));
    }
    true
}

/// The cases by each reading, but for the refused one that the standard reading accepts. Those that
/// are refused have no bar.
fn cases() -> Vec<Case> {
    let accepted = [
        ("12-octet rule", octets(TWELVE)),
        (FIVE, octets(FIVE_OCTETS)),
        (PORTS, framed(&ports(200))),
    ];
    let refused = REFUSED.map(|(name, input)| (name, octets(input)));
    let mut cases = Vec::new();
    for (told, form) in [("standard", Form::Standard(4)), ("plain", Form::Plain)] {
        let case = |(name, input): &(&str, Vec<u8>), most| Case {
            name: format!("{told}, {name}"),
            form,
            input: input.clone(),
            most,
        };
        cases.extend(accepted.iter().map(|told| case(told, Some(CHECK))));
        let is_refused = |case: &Case| validator::check(form, &case.input).is_err();
        let refused = refused.iter().map(|told| case(told, None));
        cases.extend(refused.filter(is_refused));
    }
    cases
}

pub fn check_times(form: Form, input: &[u8], sheet: &mut Sheet) -> Times<2> {
    sheet.times([
        &mut |calls| {
            let answer = || archive::check(form, opaque(input));
            repeat(calls, || opaque(&answer()).status != 0)
        },
        &mut |calls| {
            let answer = || validator::check(form, opaque(input));
            repeat(calls, || opaque(&answer()).is_err())
        },
    ])
}

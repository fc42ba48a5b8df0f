//! Rules with a distinguisher: read, checked and written beside straightforward Rust that is lent
//! the same and gives the same answers (`differential::coder`, `differential::validator`), and
//! chosen from beside the Rust choosers.

use crate::checking::{check_times, TWELVE};
use crate::coding::{ports, reading, writing, FIVE_OCTETS, PORTS};
use crate::deciding::{self, cases, choose_times, table, RUST};
use crate::timing::{opaque, repeat, Bar, Sheet, Times};
use differential::compare::Comparison;
use differential::stored::{Stored, WORDS};
use differential::{coder, packets, peers, Form, LONGEST_INPUT, MOST_OPERATORS};
use inputs::{framed, octets, DISTINGUISHERS};
use standard::Distinguisher;

/// At most so much of the Rust's time.
const MOST: f64 = 1.0;

const FAMILY: u8 = 4;
const FORM: Form = Form::WithDistinguisher(FAMILY);
const OWN: Distinguisher = DISTINGUISHERS[1];

/// How many rules there are to choose from.
const RULES: usize = 64;

/// Times all; nothing where the answers differ.
pub fn bench(sheet: &mut Sheet) -> bool {
    let inputs = [
        ("12-octet rule", octets(TWELVE)),
        ("5 components", octets(FIVE_OCTETS)),
        (PORTS, framed(&ports(200))),
    ];
    let inputs = inputs.map(|(name, input)| {
        let input = framed(&[&OWN, &input[1..]].concat());
        (format!("distinguisher, {name}"), input)
    });
    let mut choices = cases(RULES);
    for rule in choices.iter_mut().flat_map(|case| &mut case.rules) {
        rule.rule.distinguisher = Some(OWN);
    }
    if !answers_agree(inputs.iter().map(|(_, input)| &input[..]), &choices) {
        return false;
    }
    sheet.heading("octets", ["proved", "Rust"]);
    type Timed = fn(&[u8], &mut Sheet) -> Times<2>;
    let calls: [(&str, Timed); 3] = [
        ("read", read_times),
        ("check", |input, sheet| check_times(FORM, input, sheet)),
        ("write", write_times),
    ];
    for (call, times) in calls {
        for (name, input) in &inputs {
            let times = times(input, sheet);
            let ratio = sheet.row(call, name, input.len(), times);
            sheet.bars.push(Bar {
                what: format!("{call}, {name}"),
                figure: ratio,
                of: "the Rust's time".to_string(),
                most: MOST,
            });
        }
    }
    sheet.heading("rules", ["proved", "Rust", "parsed"]);
    for case in &choices {
        let times = choose_times(case, sheet);
        let ratio = sheet.row("choose", &case.name, RULES, times);
        sheet.bars.push(Bar {
            what: format!("choose, {}, of {RULES} with a distinguisher", case.name),
            figure: ratio,
            of: RUST.to_string(),
            most: MOST,
        });
    }
    true
}

/// What is timed must be the same work.
fn answers_agree<'a>(inputs: impl Iterator<Item = &'a [u8]>, choices: &[deciding::Case]) -> bool {
    let mut comparison = Comparison::new();
    for input in inputs {
        comparison.reading(FORM, input);
        comparison.writing(FORM, &stored(input));
    }
    for case in choices {
        comparison.choosing(&table(&case.rules), &packets::words(&case.packet));
    }
    comparison.differ == 0
}

/// The rule that an input reads as.
fn stored(input: &[u8]) -> Stored {
    let mut stored = Stored::new(0);
    let accepted = peers::read(FORM, input, &mut stored).is_accepted();
    assert!(accepted, "these are accepted");
    stored
}

fn read_times(input: &[u8], sheet: &mut Sheet) -> Times<2> {
    let (mut words, mut values) = ([0; WORDS], [0; MOST_OPERATORS]);
    let mut octets = [0; MOST_OPERATORS];
    let mut rust = |calls| {
        repeat(calls, || {
            let input = opaque(input);
            let read = coder::read(FAMILY, true, input, &mut words, &mut values, &mut octets);
            opaque(&read).is_err()
        })
    };
    sheet.times([&mut reading(FORM, input), &mut rust])
}

fn write_times(input: &[u8], sheet: &mut Sheet) -> Times<2> {
    let mut stored = stored(input);
    stored.values.resize(MOST_OPERATORS, 0);
    stored.octets.resize(MOST_OPERATORS, 0);
    let mut output = [0; LONGEST_INPUT];
    let mut rust = |calls| {
        repeat(calls, || {
            let Stored {
                words,
                values,
                octets,
            } = opaque(&stored);
            let written = coder::write(FAMILY, words, values, octets, &mut output);
            opaque(&written).is_err()
        })
    };
    sheet.times([&mut writing(FORM, input), &mut rust])
}

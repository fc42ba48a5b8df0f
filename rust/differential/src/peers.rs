//! What a call must answer, when there is room: by the original Rust for the plain form, by the
//! crate `standard` for the others, and by document 01 where it goes beyond them. Where a reading
//! broke is told by `standard`, for the plain form too.

use crate::coder::{self, Refused};
use crate::packets;
use crate::stored::{flow, named, original, standard_rule, Stored, WORDS};
use crate::{refusal, validator, wordwise, Answer, Form, LONGEST_INPUT, MOST_RULES};
use oracle::error::EncodingError;
use oracle::flowspec::{encode_flowspec_nlri, parse_flowspec_nlri, FlowSpecError};
use standard::{Fault, Flow, Reading, Refusal, Rule};
use std::cmp::Ordering;

/// Reads; an accepted rule stands in `stored` afterwards. By the original, a refusal has no place.
pub fn read(form: Form, input: &[u8], stored: &mut Stored) -> Answer {
    match form {
        Form::Plain => plain_read(input, stored),
        Form::Standard(family) => read_into(stored, family, standard::read(family, input)),
        Form::WithDistinguisher(family) => {
            let reading = standard::read_distinguished(family, input);
            read_into(stored, family, reading)
        }
    }
}

/// The plain reading by `standard`, as far as that goes: used, or the refusal with its place.
pub fn plain_used(input: &[u8]) -> Answer {
    match standard::plain_used(input) {
        Ok(used) => Answer::accepted(used, 0),
        Err(fault) => standard_fault(fault),
    }
}

/// What the readings answer but for the rule, by the way that is timed.
pub fn timed_check(form: Form, input: &[u8]) -> Answer {
    match validator::check(form, input) {
        Ok(checked) => Answer::accepted(checked.used, checked.operators),
        Err(fault) => standard_fault(fault),
    }
}

/// Reads by the way that is timed, where there is one, into what is lent.
pub fn timed_read(form: Form, input: &[u8], lent: &mut Stored) -> Option<Answer> {
    let (family, is_distinguished) = match form {
        Form::Plain => return None,
        Form::Standard(family) => (family, false),
        Form::WithDistinguisher(family) => (family, true),
    };
    let Stored {
        words,
        values,
        octets,
    } = lent;
    let read = coder::read(family, is_distinguished, input, words, values, octets);
    Some(match read {
        Ok(checked) => Answer::accepted(checked.used, checked.operators),
        Err(refused) => timed_refusal(refused),
    })
}

/// Writes by the way that is timed, where there is one, into what is lent.
pub fn timed_write(form: Form, record: &Stored, output: &mut [u8]) -> Option<Answer> {
    let family = match form {
        Form::Plain => return None,
        Form::Standard(family) | Form::WithDistinguisher(family) => family,
    };
    let Stored {
        words,
        values,
        octets,
    } = record;
    Some(match coder::write(family, words, values, octets, output) {
        Ok(written) => Answer::accepted(written, 0),
        Err(refused) => timed_refusal(refused),
    })
}

fn timed_refusal(refused: Refused) -> Answer {
    match refused {
        Refused::By(fault) => standard_fault(fault),
        Refused::NoRoom(needed) => Answer::refused(refusal::NO_ROOM, needed as u64, 0),
    }
}

/// Writes; `written` holds the octets afterwards, none where the rule is refused.
pub fn write(form: Form, record: &Stored, written: &mut Vec<u8>) -> Answer {
    let answer = match form {
        Form::Plain => plain_write(record),
        // What the record has, it is written with.
        Form::Standard(family) | Form::WithDistinguisher(family) => standard_write(family, record),
    };
    written.clear();
    match answer {
        Ok(octets) => {
            written.extend(&octets);
            Answer::accepted(octets.len(), 0)
        }
        Err(answer) => answer,
    }
}

fn plain_read(input: &[u8], stored: &mut Stored) -> Answer {
    if input.len() > LONGEST_INPUT {
        return Answer::refused(refusal::INPUT_TOO_LONG, input.len() as u64, 0);
    }
    match parse_flowspec_nlri(input) {
        Ok(rule) => {
            stored.put_original(&rule);
            Answer::accepted(used(input), stored.values.len())
        }
        Err(error) => original_refusal(&error),
    }
}

/// The octets of an accepted rule, which the original does not tell.
fn used(input: &[u8]) -> usize {
    match *input {
        [first, second, ..] if first >= 240 => {
            2 + usize::from(first & 0x0F) * 256 + usize::from(second)
        }
        _ => 1 + usize::from(input[0]),
    }
}

fn original_refusal(error: &FlowSpecError) -> Answer {
    let (status, first, second) = match *error {
        FlowSpecError::InsufficientData => (refusal::INSUFFICIENT_DATA, 0, 0),
        FlowSpecError::InvalidComponentOrder {
            expected_greater_than,
            found,
        } => (
            refusal::INVALID_COMPONENT_ORDER,
            expected_greater_than,
            found,
        ),
        FlowSpecError::InvalidComponentType(found) => (refusal::INVALID_COMPONENT_TYPE, found, 0),
        FlowSpecError::InvalidPrefix => (refusal::INVALID_PREFIX, 0, 0),
        FlowSpecError::InvalidOperator(octet) => (refusal::INVALID_OPERATOR, octet, 0),
        FlowSpecError::InvalidValueLength(code) => (refusal::INVALID_VALUE_LENGTH, code, 0),
    };
    Answer::refused(status, first.into(), second.into())
}

fn plain_write(record: &Stored) -> Result<Vec<u8>, Answer> {
    let Stored {
        words,
        values,
        octets,
    } = record;
    let places = values.len().min(octets.len());
    let named = named(words, places).ok_or_else(bad_record)?;
    encode_flowspec_nlri(&original(&named, values, octets)).map_err(|error| match error {
        EncodingError::ValueTooLarge { actual, .. } => {
            Answer::refused(refusal::VALUE_TOO_LARGE, actual as u64, 0)
        }
        other => unreachable!("FlowSpec encoding has no such error: {other}"),
    })
}

fn read_into(stored: &mut Stored, family: u8, reading: Result<Reading, Fault>) -> Answer {
    match reading {
        Ok(reading) => {
            stored.put_standard(family, &reading.rule);
            Answer::accepted(reading.used, stored.values.len())
        }
        Err(fault) => standard_fault(fault),
    }
}

fn standard_write(family: u8, record: &Stored) -> Result<Vec<u8>, Answer> {
    let Stored {
        words,
        values,
        octets,
    } = record;
    let places = values.len().min(octets.len());
    let rule = match named(words, places) {
        Some(named) => standard_rule(&named, values, octets),
        // A wrong family comes before a bad record.
        None if [4, 6].contains(&family) => return Err(bad_record()),
        None => Rule {
            distinguisher: None,
            components: Vec::new(),
        },
    };
    standard::write(family, &rule).map_err(standard_refusal)
}

/// Whether the rule matches the packet: 1 or 0.
pub fn matches(rule: &Stored, packet: &[u64]) -> Answer {
    match standard::matches(&flow_of(rule), &packets::packet(packet)) {
        Ok(matched) => Answer::accepted(usize::from(matched), 0),
        Err(refusal) => standard_refusal(refusal),
    }
}

/// Which rule precedes: 1 the first, 2 the other, 0 neither.
pub fn rank(one: &Stored, other: &Stored) -> Answer {
    order(standard::rank(&flow_of(one), &flow_of(other)))
}

/// As `rank`, by the ways that are timed: over parsed rules, over stored ones.
pub fn timed_rank(one: &Stored, other: &Stored) -> [Answer; 2] {
    [
        order(standard::direct::rank(&flow_of(one), &flow_of(other))),
        order(wordwise::rank(one, other)),
    ]
}

pub fn order(order: Result<Ordering, Refusal>) -> Answer {
    match order {
        Ok(Ordering::Equal) => Answer::accepted(0, 0),
        Ok(Ordering::Less) => Answer::accepted(1, 0),
        Ok(Ordering::Greater) => Answer::accepted(2, 0),
        Err(refusal) => standard_refusal(refusal),
    }
}

/// Which rule of the table decides: 1 and its place, or 0.
pub fn choose(table: &Stored, packet: &[u64]) -> Answer {
    place(standard::choose(&flows_of(table), &packets::packet(packet)))
}

/// As `choose`, by the ways that are timed: over parsed rules, over stored ones.
pub fn timed_choose(table: &Stored, packet: &[u64]) -> [Answer; 2] {
    let flows = flows_of(table);
    [
        place(standard::direct::choose(&flows, &packets::packet(packet))),
        place(wordwise::choose(table, packet)),
    ]
}

pub fn place(place: Result<Option<usize>, Refusal>) -> Answer {
    match place {
        Ok(Some(place)) => Answer::accepted(1, place),
        Ok(None) => Answer::accepted(0, 0),
        Err(refusal) => standard_refusal(refusal),
    }
}

fn flow_of(rule: &Stored) -> Flow {
    flow(&rule.words, &rule.values, &rule.octets)
}

/// The rules of a table. Words that are left over are a bad one, but no further rule in number.
fn flows_of(table: &Stored) -> Vec<Flow> {
    let rules = table.words.chunks_exact(WORDS);
    let left_over = rules.remainder();
    let mut flows: Vec<Flow> = rules
        .map(|words| flow(words, &table.values, &table.octets))
        .collect();
    if !left_over.is_empty() && flows.len() <= MOST_RULES {
        flows.truncate(MOST_RULES - 1);
        flows.push(flow(left_over, &table.values, &table.octets));
    }
    flows
}

fn bad_record() -> Answer {
    Answer::refused(refusal::BAD_RECORD, 0, 0)
}

pub fn standard_fault(fault: Fault) -> Answer {
    standard_refusal(fault.refusal).at(fault.place)
}

pub fn standard_refusal(refused: Refusal) -> Answer {
    let (status, first, second) = match refused {
        Refusal::InsufficientData => (refusal::INSUFFICIENT_DATA, 0, 0),
        Refusal::InvalidComponentOrder { previous, found } => (
            refusal::INVALID_COMPONENT_ORDER,
            previous.into(),
            found.into(),
        ),
        Refusal::InvalidComponentType(found) => (refusal::INVALID_COMPONENT_TYPE, found.into(), 0),
        Refusal::InvalidPrefix => (refusal::INVALID_PREFIX, 0, 0),
        Refusal::InvalidOperator(octet) => (refusal::INVALID_OPERATOR, octet.into(), 0),
        Refusal::InvalidValueLength(code) => (refusal::INVALID_VALUE_LENGTH, code.into(), 0),
        Refusal::ValueTooLarge(length) => (refusal::VALUE_TOO_LARGE, length as u64, 0),
        Refusal::InputTooLong(length) => (refusal::INPUT_TOO_LONG, length as u64, 0),
        Refusal::BadRecord => (refusal::BAD_RECORD, 0, 0),
        Refusal::BadFamily(family) => (refusal::BAD_FAMILY, family.into(), 0),
        Refusal::TooManyRules(count) => (refusal::TOO_MANY_RULES, count as u64, 0),
        Refusal::BadPacket => (refusal::BAD_PACKET, 0, 0),
        Refusal::MixedFamily(place) => (refusal::MIXED_FAMILY, place as u64, 0),
        Refusal::ShortDistinguisher => (refusal::SHORT_DISTINGUISHER, 0, 0),
        Refusal::MixedDistinguisher(place) => (refusal::MIXED_DISTINGUISHER, place as u64, 0),
    };
    Answer::refused(status, first, second)
}

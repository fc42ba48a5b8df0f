//! The straightforward Rust validator, to time the proved check beside it.
//!
//! It answers what the plain and the standard readings do: the octets used and the operators, or the
//! same refusal at the same place. It goes over the octets once, keeps nothing and allocates nothing.

use crate::{Form, LONGEST_INPUT};
use standard::{Fault, Refusal, DISTINGUISHER_OCTETS};

/// What an accepted rule takes: octets, those of its length among them, and places for operators.
#[derive(Debug, Clone, Copy, PartialEq, Eq)]
pub struct Checked {
    pub used: usize,
    pub operators: usize,
}

/// The last operator of a list.
const END: u8 = 0x80;

#[derive(Clone, Copy, PartialEq, Eq)]
enum Reading {
    Plain,
    Ipv4,
    Ipv6,
}

/// Checks the rule at the front of the input.
pub fn check(form: Form, input: &[u8]) -> Result<Checked, Fault> {
    let reading = match form {
        Form::Plain if input.len() > LONGEST_INPUT => {
            return Err(Refusal::InputTooLong(input.len()).into())
        }
        Form::Plain => Reading::Plain,
        Form::Standard(4) | Form::WithDistinguisher(4) => Reading::Ipv4,
        Form::Standard(6) | Form::WithDistinguisher(6) => Reading::Ipv6,
        Form::Standard(family) | Form::WithDistinguisher(family) => {
            return Err(Refusal::BadFamily(family).into())
        }
    };
    let (from, length) = match *input {
        [first, ..] if first < 240 => (1, usize::from(first)),
        [first, second, ..] => (2, usize::from(first & 0x0F) << 8 | usize::from(second)),
        _ => return Err(missing(input)),
    };
    let end = from + length;
    if end > input.len() {
        return Err(missing(input));
    }
    // By the plain reading the last component may run on past the stated end.
    let octets = match reading {
        Reading::Plain => input,
        _ => &input[..end],
    };
    let mut at = from;
    if let Form::WithDistinguisher(_) = form {
        if length < DISTINGUISHER_OCTETS {
            return Err(Refusal::ShortDistinguisher.at(end));
        }
        at += DISTINGUISHER_OCTETS;
    }
    let (mut previous, mut operators) = (0, 0);
    while at < end {
        let found = octets[at];
        if found <= previous {
            return Err(Refusal::InvalidComponentOrder { previous, found }.at(at));
        }
        match found {
            1 | 2 => at = after_prefix(reading, octets, at + 1)?,
            13 if reading == Reading::Ipv4 => {
                return Err(Refusal::InvalidComponentType(found).at(at))
            }
            3..=13 => {
                let (wide, refused) = match (reading, found) {
                    (Reading::Plain, 9 | 12) => (0, 0x0C),
                    (Reading::Plain, _) => (0, 0x08),
                    (_, 9) => (0x20, 0),
                    (_, 11 | 12) => (0x30, 0),
                    _ => (0, 0),
                };
                let (after, count) = after_list(wide, refused, octets, at + 1)?;
                at = after;
                operators += count;
            }
            _ => return Err(Refusal::InvalidComponentType(found).at(at)),
        }
        previous = found;
    }
    Ok(Checked {
        used: end,
        operators,
    })
}

/// An octet is missing at the end of these.
fn missing(octets: &[u8]) -> Fault {
    Refusal::InsufficientData.at(octets.len())
}

/// Where the prefix ends that begins here.
fn after_prefix(reading: Reading, octets: &[u8], at: usize) -> Result<usize, Fault> {
    let octet = |at: usize| octets.get(at).copied().ok_or_else(|| missing(octets));
    let length = octet(at)?;
    let (from, bits) = match reading {
        Reading::Plain if length <= 128 => (at + 1, length),
        Reading::Ipv4 if length <= 32 => (at + 1, length),
        Reading::Ipv6 => {
            let offset = octet(at + 1)?;
            let is_all = (length, offset) == (0, 0);
            if !is_all && (offset >= length || length > 128) {
                return Err(Refusal::InvalidPrefix.at(at));
            }
            (at + 2, length - offset)
        }
        _ => return Err(Refusal::InvalidPrefix.at(at)),
    };
    let after = from + (usize::from(bits) + 7) / 8;
    if after > octets.len() {
        return Err(missing(octets));
    }
    Ok(after)
}

/// Where the list ends that begins here, and how many operators it has. Of these bits none may be
/// set in an operator octet: those that make its value too wide, and those that are refused once
/// the value is there.
fn after_list(
    wide: u8,
    refused: u8,
    octets: &[u8],
    mut at: usize,
) -> Result<(usize, usize), Fault> {
    let mut count = 0;
    loop {
        let octet = *octets.get(at).ok_or_else(|| missing(octets))?;
        if octet & wide != 0 {
            return Err(Refusal::InvalidValueLength(octet >> 4 & 3).at(at));
        }
        let after = at + 1 + (1 << (octet >> 4 & 3));
        if after > octets.len() {
            return Err(missing(octets));
        }
        if octet & refused != 0 {
            return Err(Refusal::InvalidOperator(octet).at(at));
        }
        count += 1;
        at = after;
        if octet & END != 0 {
            return Ok((at, count));
        }
    }
}

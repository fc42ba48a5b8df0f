//! The proved code, by the calls of the Rust crate over its archive.

use crate::stored::Stored;
use crate::Form;
use krubbadin::surface::{self, Answer};

/// The crate's answer as the peers' are told. What is timed does without: a copy waits for the call's
/// stores, which is no part of the call.
impl From<Answer> for crate::Answer {
    fn from(answer: Answer) -> Self {
        crate::Answer {
            status: answer.status,
            first: answer.first,
            second: answer.second,
            place: Some(answer.place).filter(|&place| place != surface::NOWHERE),
        }
    }
}

/// What the surface is asked for: which reading or writing, by a number, and in which family. The
/// plain one looks at no family.
#[derive(Clone, Copy)]
pub struct Asked {
    standard: u8,
    family: u8,
}

impl From<Form> for Asked {
    #[inline]
    fn from(form: Form) -> Self {
        let (standard, family) = match form {
            Form::Plain => (surface::PLAIN, 0),
            Form::Standard(family) => (surface::STANDARD, family),
            Form::WithDistinguisher(family) => (surface::WITH_DISTINGUISHER, family),
        };
        Asked { standard, family }
    }
}

impl Asked {
    /// A reading of this form, now and then by another number that asks for the same.
    pub fn reading(form: Form, turn: u64) -> Self {
        let asked = Asked::from(form);
        match asked.standard {
            surface::STANDARD if turn % 8 == 0 => Asked {
                standard: unnamed(turn / 8),
                ..asked
            },
            _ => asked,
        }
    }

    /// A writing of this form, by every number that asks for the same.
    pub fn writing(form: Form, turn: u64) -> Self {
        let asked = Asked::from(form);
        let standard = match (asked.standard, turn % 8) {
            (surface::PLAIN, _) => surface::PLAIN,
            (_, 0) => unnamed(turn / 8),
            (_, turn) if turn % 2 == 0 => surface::WITH_DISTINGUISHER,
            _ => surface::STANDARD,
        };
        Asked { standard, ..asked }
    }
}

/// A number that names no reading, all of them by turns.
fn unnamed(turn: u64) -> u8 {
    let first = surface::WITH_DISTINGUISHER + 1;
    first + (turn % u64::from(u8::MAX - first + 1)) as u8
}

/// Reads a rule into lent words and its operators into lent lists: used, and how many operators.
#[inline]
pub fn read(
    asked: impl Into<Asked>,
    input: &[u8],
    words: &mut [u64],
    values: &mut [u64],
    octets: &mut [u8],
) -> Answer {
    let Asked { standard, family } = asked.into();
    surface::read(standard, family, input, words, values, octets)
}

/// Checks a rule: used, and how many operators.
#[inline]
pub fn check(asked: impl Into<Asked>, input: &[u8]) -> Answer {
    let Asked { standard, family } = asked.into();
    surface::check(standard, family, input)
}

/// Writes a rule that stands in lent words and lists: how many octets.
#[inline]
pub fn write(
    asked: impl Into<Asked>,
    words: &[u64],
    values: &[u64],
    octets: &[u8],
    output: &mut [u8],
) -> Answer {
    let Asked { standard, family } = asked.into();
    surface::write(standard, family, words, values, octets, output)
}

/// Whether the rule at the front of lent words matches a packet: 1 or 0.
#[inline]
pub fn matches(rule: &Stored, packet: &[u64]) -> Answer {
    surface::matches(&rule.words, &rule.values, &rule.octets, packet)
}

/// Which of two rules precedes: 1 the first, 2 the other, 0 neither.
#[inline]
pub fn rank(one: &Stored, other: &Stored) -> Answer {
    surface::rank(
        (&one.words, &one.values, &one.octets),
        (&other.words, &other.values, &other.octets),
    )
}

/// Which of the rules that stand one after another in lent words decides: 1 and its place, or 0.
#[inline]
pub fn choose(table: &Stored, packet: &[u64]) -> Answer {
    surface::choose(&table.words, &table.values, &table.octets, packet)
}

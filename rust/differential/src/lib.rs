//! The proved code beside Rust, in one process.
//!
//! `archive` calls the proved code by the crate over it, `peers` has what must come back: by the
//! original Rust (`oracle`) for the plain reading and writing, by `standard` for the others and for
//! the place of every refusal. The crate `inputs` and `records` make what readings and writings are
//! asked, `compare` asks it and compares; `edges`, `flows`, `packets` and `tables` make what
//! matching, ranking and choosing are asked, `decisions` asks it and compares; `pairs` makes rules
//! whose ranks `orders` holds to their octets. To be timed are `validator`, a check, `coder`, a
//! reading and a writing, and `wordwise`, a chooser. A rule crosses the surface as words; `stored`
//! knows that form, `packets` that of a packet, and `neutral` that of the crate `protocol`, by which
//! `requests` has the texts of stored answers. `samples` has those that are stored. `src/bin` has the
//! programs. Without the feature `archive` nothing of the proved code is linked, nor compared with.

#[cfg(feature = "archive")]
pub mod archive;
pub mod coder;
#[cfg(feature = "archive")]
pub mod compare;
#[cfg(feature = "archive")]
pub mod decisions;
pub mod edges;
pub mod flows;
pub mod lent;
pub mod neutral;
#[cfg(feature = "archive")]
pub mod orders;
pub mod packets;
pub mod pairs;
pub mod peers;
pub mod records;
pub mod requests;
pub mod samples;
pub mod stored;
pub mod tables;
pub mod validator;
pub mod wordwise;

pub use inputs::{Form, LONGEST_BODY, LONGEST_INPUT};

/// What a call answers: status 0 with what was found, or a refusal's number with what it carries and,
/// where an octet of the input is to blame, that octet's place.
#[derive(Debug, Clone, Copy, PartialEq, Eq)]
pub struct Answer {
    pub status: u64,
    pub first: u64,
    pub second: u64,
    pub place: Option<u64>,
}

/// Refusals by document 01's numbers, as far as they are met here.
pub mod refusal {
    pub const INSUFFICIENT_DATA: u64 = 1;
    pub const INVALID_COMPONENT_ORDER: u64 = 2;
    pub const INVALID_COMPONENT_TYPE: u64 = 3;
    pub const INVALID_PREFIX: u64 = 4;
    pub const INVALID_OPERATOR: u64 = 5;
    pub const INVALID_VALUE_LENGTH: u64 = 6;
    pub const VALUE_TOO_LARGE: u64 = 7;
    pub const INPUT_TOO_LONG: u64 = 8;
    pub const NO_ROOM: u64 = 9;
    pub const BAD_RECORD: u64 = 10;
    pub const BAD_FAMILY: u64 = 11;
    pub const TOO_MANY_RULES: u64 = 12;
    pub const BAD_PACKET: u64 = 13;
    pub const MIXED_FAMILY: u64 = 14;
    pub const SHORT_DISTINGUISHER: u64 = 19;
    pub const MIXED_DISTINGUISHER: u64 = 20;
}

impl Answer {
    pub fn accepted(first: usize, second: usize) -> Self {
        Answer {
            status: 0,
            first: first as u64,
            second: second as u64,
            place: None,
        }
    }

    pub fn refused(status: u64, first: u64, second: u64) -> Self {
        Answer {
            status,
            first,
            second,
            place: None,
        }
    }

    pub fn at(self, place: Option<usize>) -> Self {
        let place = place.map(|place| place as u64);
        Answer { place, ..self }
    }

    /// What the original Rust tells, which has no places: the one way in which an answer that may
    /// have one is put beside the original's.
    pub fn without_place(self) -> Self {
        self.at(None)
    }

    pub fn is_accepted(&self) -> bool {
        self.status == 0
    }

    /// What a refusal carries.
    pub fn carried(&self) -> Vec<u64> {
        match self.status {
            refusal::INVALID_COMPONENT_ORDER => vec![self.first, self.second],
            refusal::INVALID_COMPONENT_TYPE
            | refusal::INVALID_OPERATOR
            | refusal::INVALID_VALUE_LENGTH
            | refusal::VALUE_TOO_LARGE
            | refusal::INPUT_TOO_LONG
            | refusal::NO_ROOM
            | refusal::BAD_FAMILY
            | refusal::TOO_MANY_RULES
            | refusal::MIXED_FAMILY
            | refusal::MIXED_DISTINGUISHER => vec![self.first],
            _ => Vec::new(),
        }
    }
}

/// The most components and operators that a record may have.
pub const MOST_COMPONENTS: usize = 13;
pub const MOST_OPERATORS: usize = 2047;
/// The most rules that there may be to choose from.
pub const MOST_RULES: usize = 64;

//! What is read, and how long it may be.

use std::fmt::{self, Display, Formatter};

/// Which reading and writing is meant.
#[derive(Debug, Clone, Copy, PartialEq, Eq)]
pub enum Form {
    /// As the original Rust does it.
    Plain,
    /// By the RFCs, with the family that is asked for: 4, 6, or another, which is refused.
    Standard(u8),
    /// As that, of a rule that has a distinguisher: the reading expects one.
    WithDistinguisher(u8),
}

impl Form {
    /// The family that is asked for, if it is a form by the RFCs.
    pub fn family(self) -> Option<u8> {
        match self {
            Form::Plain => None,
            Form::Standard(family) | Form::WithDistinguisher(family) => Some(family),
        }
    }
}

impl Display for Form {
    fn fmt(&self, f: &mut Formatter<'_>) -> fmt::Result {
        match self {
            Form::Plain => write!(f, "plain"),
            Form::Standard(family) => write!(f, "standard (family {family})"),
            Form::WithDistinguisher(family) => {
                write!(f, "standard (family {family}, with a distinguisher)")
            }
        }
    }
}

/// The longest input of the plain reading: two octets of length and the longest body.
pub const LONGEST_INPUT: usize = 4097;
/// The longest body.
pub const LONGEST_BODY: usize = 4095;

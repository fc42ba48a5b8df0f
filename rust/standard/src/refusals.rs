//! Why a call is refused, and where the octets of a reading broke.

/// Why a call is refused, with document 01's numbers.
#[derive(Debug, Clone, Copy, PartialEq, Eq)]
pub enum Refusal {
    /// 1
    InsufficientData,
    /// 2
    InvalidComponentOrder { previous: u8, found: u8 },
    /// 3
    InvalidComponentType(u8),
    /// 4
    InvalidPrefix,
    /// 5, by the plain reading
    InvalidOperator(u8),
    /// 6, by the standard reading, with the width code
    InvalidValueLength(u8),
    /// 7, with the length of the body
    ValueTooLarge(usize),
    /// 8, by the plain reading, with the length of the input
    InputTooLong(usize),
    /// 10
    BadRecord,
    /// 11
    BadFamily(u8),
    /// 12, with the number of rules
    TooManyRules(usize),
    /// 13
    BadPacket,
    /// 14, with the place of the first rule that is of another family
    MixedFamily(usize),
    /// 19, by the standard reading that expects a distinguisher
    ShortDistinguisher,
    /// 20, with the place of the first rule whose distinguisher is not that of the rule at place 0
    MixedDistinguisher(usize),
}

/// Why a reading is refused and, for 1 to 6 and 19, the place of the wrong octet, counted from the
/// start of the input (document 01, "What comes back").
#[derive(Debug, Clone, Copy, PartialEq, Eq)]
pub struct Fault {
    pub refusal: Refusal,
    pub place: Option<usize>,
}

impl Refusal {
    pub fn at(self, place: usize) -> Fault {
        Fault {
            refusal: self,
            place: Some(place),
        }
    }
}

/// What no octet causes has no place.
impl From<Refusal> for Fault {
    fn from(refusal: Refusal) -> Self {
        Fault {
            refusal,
            place: None,
        }
    }
}

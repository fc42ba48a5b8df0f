//! The errors: [`FlowSpecError`] and [`EncodingError`] as the original has them, and [`Refusal`], whatever the proved code refuses with: a
//! [`Reason`], and the place of the octet that is refused.

use crate::surface::{Answer, NOWHERE};
use std::error::Error;
use std::fmt::{self, Display, Formatter};

/// Why an NLRI is not read: the original's errors and texts, and no others, so that a `match` over them stays whole.
///
/// ```
/// use krubbadin::{parse_flowspec_nlri, FlowSpecError};
///
/// let error = parse_flowspec_nlri(&[0x06, 0x03, 0x81, 0x06, 0x03, 0x81, 0x11]).unwrap_err();
/// let order = FlowSpecError::InvalidComponentOrder { expected_greater_than: 3, found: 3 };
/// assert_eq!(error, order);
/// assert_eq!(error.to_string(), "Invalid component order: expected type > 3, but found 3");
/// ```
#[derive(Debug, Clone, PartialEq, Eq)]
pub enum FlowSpecError {
    /// A component's type is not above the one before it.
    InvalidComponentOrder {
        /// The type before it, 0 at the first component.
        expected_greater_than: u8,
        /// Its own type.
        found: u8,
    },
    /// A reserved bit is set in this operator octet.
    InvalidOperator(u8),
    /// No component has this type.
    InvalidComponentType(u8),
    /// Octets are missing.
    InsufficientData,
    /// A prefix is longer than an address.
    InvalidPrefix,
    /// Met by no parsing, as in the original: each of the four width codes has its width, and every list takes it. The refusal 6 of a
    /// standard reading, [`Reason::InvalidValueLength`], converts to it.
    InvalidValueLength(u8),
}

impl Display for FlowSpecError {
    fn fmt(&self, f: &mut Formatter<'_>) -> fmt::Result {
        match self {
            FlowSpecError::InvalidComponentOrder {
                expected_greater_than,
                found,
            } => write!(
                f,
                "Invalid component order: expected type > {expected_greater_than}, but found {found}"
            ),
            FlowSpecError::InvalidOperator(octet) => write!(f, "Invalid operator: 0x{octet:02X}"),
            FlowSpecError::InvalidComponentType(found) => {
                write!(f, "Invalid component type: {found}")
            }
            FlowSpecError::InsufficientData => write!(f, "Insufficient data for parsing"),
            FlowSpecError::InvalidPrefix => write!(f, "Invalid prefix encoding"),
            FlowSpecError::InvalidValueLength(code) => write!(f, "Invalid value length: {code}"),
        }
    }
}

impl Error for FlowSpecError {}

/// Why a rule is not encoded: the original's error.
///
/// ```
/// use krubbadin::{encode_flowspec_nlri, EncodingError, FlowSpecComponent, FlowSpecNlri, NumericOperator};
///
/// let ports = vec![NumericOperator::equal_to(1 << 32); 500];
/// let error = encode_flowspec_nlri(&FlowSpecNlri::new(vec![FlowSpecComponent::Port(ports)])).unwrap_err();
/// assert!(matches!(error, EncodingError::ValueTooLarge { actual: 4501, max: 4095, .. }));
/// assert_eq!(error.to_string(), "encoding error: FlowSpec NLRI total length (4501) exceeds maximum (4095)");
/// ```
#[derive(Debug, Clone, PartialEq, Eq)]
#[non_exhaustive]
pub enum EncodingError {
    /// A value is larger than its field can hold.
    ValueTooLarge {
        /// The field.
        field: &'static str,
        /// The value.
        actual: usize,
        /// The largest that the field holds.
        max: usize,
    },
    /// There is no wire format for it: a rule of more than 13 components, or an operator whose width is not 1, 2, 4 or 8.
    Unencodable {
        /// The field.
        field: &'static str,
        /// What is wrong with it.
        reason: String,
    },
}

impl Display for EncodingError {
    fn fmt(&self, f: &mut Formatter<'_>) -> fmt::Result {
        match self {
            EncodingError::ValueTooLarge { field, actual, max } => write!(
                f,
                "encoding error: {field} ({actual}) exceeds maximum ({max})"
            ),
            EncodingError::Unencodable { field, reason } => {
                write!(f, "encoding error: {field} cannot be encoded: {reason}")
            }
        }
    }
}

impl Error for EncodingError {}

/// What the standard calls refuse with, and every call of [`crate::surface`]: the reason, and for a reading's refusals, 1 to 6 and 19, the
/// place of the octet that is refused. `Display` says both.
///
/// ```
/// use krubbadin::{read, Family, Reason};
///
/// let refusal = read(Family::Ipv4, &[0x06, 0x03, 0x81, 0x06, 0x0D, 0x81, 0x0E]).unwrap_err();
/// assert_eq!(refusal.reason(), Reason::InvalidComponentType(13));
/// assert_eq!(refusal.place(), Some(4));
/// assert_eq!(refusal.to_string(), "octet 4: type 13, the flow label, is not in IPv4 (RFC 8956)");
/// ```
#[derive(Debug, Clone, Copy, PartialEq, Eq, Hash)]
pub struct Refusal {
    reason: Reason,
    place: Option<usize>,
}

impl Refusal {
    /// A refusal of the octet at a place. One without a place is made from its reason.
    ///
    /// ```
    /// use krubbadin::{check, Family, Reason, Refusal};
    ///
    /// assert_eq!(check(Family::Ipv4, &[0x02, 0x01, 0x21]), Err(Refusal::at(Reason::InvalidPrefix, 2)));
    /// assert_eq!(Family::try_from(5), Err(Refusal::from(Reason::BadFamily(5))));
    /// ```
    pub const fn at(reason: Reason, place: usize) -> Self {
        Refusal {
            reason,
            place: Some(place),
        }
    }

    /// The refusal without its place. This alone leaves the place out: it is what is compared with the original, which has no places.
    ///
    /// ```
    /// use krubbadin::{check, parse_flowspec_nlri, Family, Reason};
    ///
    /// let input = [0x02, 0x01, 0x81]; // a length of 129
    /// let reason = check(Family::Ipv4, &input).unwrap_err().reason();
    /// assert_eq!(reason, Reason::from(parse_flowspec_nlri(&input).unwrap_err()));
    /// ```
    pub const fn reason(&self) -> Reason {
        self.reason
    }

    /// The place of the octet that is refused, counted from 0 at the start of the input. An octet that is missing has the place just past
    /// the end that it is missing before: the input's end in the length's own octets and in the plain reading, the rule's stated end in a
    /// standard one, or the input's where that comes first. `None` where no octet is refused: 7 to 14 and 20.
    ///
    /// ```
    /// use krubbadin::{check, write, Family, FlowSpecComponent, FlowSpecNlri, Reason};
    ///
    /// let missing = check(Family::Ipv4, &[0x02, 0x03, 0x81, 0x06]).unwrap_err(); // it states two octets of its three
    /// assert_eq!((missing.reason(), missing.place()), (Reason::InsufficientData, Some(3)));
    /// let empty = FlowSpecNlri::new(vec![FlowSpecComponent::IpProtocol(vec![])]);
    /// assert_eq!(write(Family::Ipv4, &empty).unwrap_err().place(), None);
    /// ```
    pub const fn place(&self) -> Option<usize> {
        self.place
    }

    /// Its reason's number, as in the C surface's status.
    ///
    /// ```
    /// use krubbadin::{check, Family};
    /// assert_eq!(check(Family::Ipv4, &[]).unwrap_err().number(), 1);
    /// ```
    pub const fn number(&self) -> u8 {
        self.reason.number()
    }

    /// The numbers that its reason carries, none, one or two.
    ///
    /// ```
    /// use krubbadin::{check, Family};
    ///
    /// let order = check(Family::Ipv4, &[0x06, 0x05, 0x81, 0x50, 0x04, 0x81, 0x19]).unwrap_err();
    /// assert_eq!(order.carried().collect::<Vec<_>>(), [5, 4]);
    /// ```
    pub fn carried(&self) -> impl Iterator<Item = u64> {
        self.reason.carried()
    }
}

impl Display for Refusal {
    fn fmt(&self, f: &mut Formatter<'_>) -> fmt::Result {
        match self.place {
            Some(place) => write!(f, "octet {place}: {}", self.reason),
            None => self.reason.fmt(f),
        }
    }
}

impl Error for Refusal {}

/// A refusal without a place.
///
/// ```
/// use krubbadin::{Reason, Refusal};
/// assert_eq!(Refusal::from(Reason::BadRecord).place(), None);
/// ```
impl From<Reason> for Refusal {
    fn from(reason: Reason) -> Self {
        Refusal {
            reason,
            place: None,
        }
    }
}

/// Why something is refused, wherever in the input that is. More may join it.
///
/// ```
/// use krubbadin::{read, Family, Reason};
///
/// let reason = read(Family::Ipv4, &[0x04, 0x0D, 0x81, 0x00, 0x0E]).unwrap_err().reason();
/// assert_eq!(reason, Reason::InvalidComponentType(13));
/// assert_eq!(reason.number(), 3);
/// assert_eq!(reason.to_string(), "type 13, the flow label, is not in IPv4 (RFC 8956)");
/// ```
#[derive(Debug, Clone, Copy, PartialEq, Eq, Hash)]
#[non_exhaustive]
pub enum Reason {
    /// 1: octets are missing before the end that bounds them.
    InsufficientData,
    /// 2: a component's type is not above the one before it.
    InvalidComponentOrder {
        /// The type before it, 0 at the first component.
        expected_greater_than: u8,
        /// Its own type.
        found: u8,
    },
    /// 3: no component has this type, or none in this family.
    InvalidComponentType(u8),
    /// 4: a prefix's length or offset is out of range.
    InvalidPrefix,
    /// 5, of the plain reading alone: a reserved bit is set in this operator octet.
    InvalidOperator(u8),
    /// 6, of the standard readings alone: values of this width code, 0 to 3 for 1, 2, 4 and 8 octets, are too wide for the list's type. TCP
    /// flags have 1 octet or 2, DSCP values and fragment bits 1. The place is the operator octet's, and the value need not be there.
    InvalidValueLength(u8),
    /// 7: a rule's body would have this many octets, and 4,095 is the most.
    ValueTooLarge(usize),
    /// 8, of the plain reading alone: this many octets were given, and 4,097 is the most.
    InputTooLong(usize),
    /// 9: this many places or octets are needed and fewer were lent.
    NoRoom(usize),
    /// 10: what was lent is no rule, or none that the standard knows in its family. [`why`](crate::why()) says the ground.
    BadRecord,
    /// 11: this is no family; 4 and 6 are.
    BadFamily(u8),
    /// 12: this many rules were given, and 64 is the most.
    TooManyRules(usize),
    /// 13: a field of the packet is out of range. [`Packet::why`](crate::Packet::why) says which.
    BadPacket,
    /// 14: the rule at this place is of another family than the packet, or than the rule that it is compared with.
    MixedFamily(usize),
    /// 19, of the standard readings where a distinguisher is expected: the stated length leaves less than its eight octets. The place is the
    /// stated end.
    ShortDistinguisher,
    /// 20: the rule at this place has another distinguisher than the rule at place 0, or than the rule that it is compared with; so has a rule
    /// without one beside a rule with one.
    MixedDistinguisher(usize),
}

impl Reason {
    /// Its number, as in the C surface's status.
    ///
    /// ```
    /// assert_eq!(krubbadin::Reason::BadRecord.number(), 10);
    /// ```
    pub const fn number(&self) -> u8 {
        match self {
            Reason::InsufficientData => 1,
            Reason::InvalidComponentOrder { .. } => 2,
            Reason::InvalidComponentType(_) => 3,
            Reason::InvalidPrefix => 4,
            Reason::InvalidOperator(_) => 5,
            Reason::InvalidValueLength(_) => 6,
            Reason::ValueTooLarge(_) => 7,
            Reason::InputTooLong(_) => 8,
            Reason::NoRoom(_) => 9,
            Reason::BadRecord => 10,
            Reason::BadFamily(_) => 11,
            Reason::TooManyRules(_) => 12,
            Reason::BadPacket => 13,
            Reason::MixedFamily(_) => 14,
            Reason::ShortDistinguisher => 19,
            Reason::MixedDistinguisher(_) => 20,
        }
    }

    /// The numbers that it carries, none, one or two.
    ///
    /// ```
    /// use krubbadin::Reason;
    ///
    /// assert_eq!(Reason::NoRoom(3).carried().collect::<Vec<_>>(), [3]);
    /// assert_eq!(Reason::BadPacket.carried().count(), 0);
    /// let order = Reason::InvalidComponentOrder { expected_greater_than: 5, found: 4 };
    /// assert_eq!(order.carried().collect::<Vec<_>>(), [5, 4]);
    /// ```
    pub fn carried(&self) -> impl Iterator<Item = u64> {
        let (first, second) = match *self {
            Reason::InsufficientData
            | Reason::InvalidPrefix
            | Reason::BadRecord
            | Reason::BadPacket
            | Reason::ShortDistinguisher => (None, None),
            Reason::InvalidComponentOrder {
                expected_greater_than,
                found,
            } => (
                Some(u64::from(expected_greater_than)),
                Some(u64::from(found)),
            ),
            Reason::InvalidComponentType(octet)
            | Reason::InvalidOperator(octet)
            | Reason::InvalidValueLength(octet)
            | Reason::BadFamily(octet) => (Some(u64::from(octet)), None),
            Reason::ValueTooLarge(count)
            | Reason::InputTooLong(count)
            | Reason::NoRoom(count)
            | Reason::TooManyRules(count)
            | Reason::MixedFamily(count)
            | Reason::MixedDistinguisher(count) => (Some(count as u64), None),
        };
        first.into_iter().chain(second)
    }
}

impl Display for Reason {
    fn fmt(&self, f: &mut Formatter<'_>) -> fmt::Result {
        match self {
            Reason::InsufficientData => write!(f, "octets are missing"),
            Reason::InvalidComponentOrder {
                expected_greater_than: 0,
                found,
            } => write!(f, "the first component has type {found}, and types are 1 to 13"),
            Reason::InvalidComponentOrder {
                expected_greater_than,
                found,
            } => write!(
                f,
                "a component of type {found} follows type {expected_greater_than}, and types must rise"
            ),
            // Every other reading has it.
            Reason::InvalidComponentType(13) => {
                write!(f, "type 13, the flow label, is not in IPv4 (RFC 8956)")
            }
            Reason::InvalidComponentType(found) => {
                write!(f, "no component has type {found}: types are 1 to 13")
            }
            Reason::InvalidPrefix => write!(f, "a prefix's length or offset is out of range"),
            Reason::InvalidOperator(octet) => {
                write!(f, "a reserved bit is set in operator octet 0x{octet:02X}")
            }
            // The code is two bits.
            Reason::InvalidValueLength(code) => write!(
                f,
                "a value of {} octets (width code {code}) is too wide for its type",
                1 << (code & 3)
            ),
            Reason::ValueTooLarge(length) => {
                write!(f, "the rule's body has {length} octets, and 4095 is the most")
            }
            Reason::InputTooLong(length) => {
                write!(f, "{length} octets were given, and 4097 is the most")
            }
            Reason::NoRoom(needed) => write!(f, "there is no room: {needed} places are needed"),
            Reason::BadRecord => write!(f, "this is no rule, or none of its family"),
            Reason::BadFamily(family) => write!(f, "there is no family {family}; 4 and 6 are"),
            Reason::TooManyRules(count) => {
                write!(f, "{count} rules were given, and 64 is the most")
            }
            Reason::BadPacket => write!(f, "a field of the packet is out of range"),
            Reason::MixedFamily(place) => {
                write!(f, "the rule at place {place} is of another family")
            }
            Reason::ShortDistinguisher => {
                write!(f, "the rule ends before the eight octets of its distinguisher")
            }
            Reason::MixedDistinguisher(place) => {
                write!(f, "the rule at place {place} has another distinguisher")
            }
        }
    }
}

impl Error for Reason {}

/// Each of the original's errors is a reason.
///
/// ```
/// use krubbadin::{FlowSpecError, Reason};
/// assert_eq!(Reason::from(FlowSpecError::InvalidPrefix), Reason::InvalidPrefix);
/// ```
impl From<FlowSpecError> for Reason {
    fn from(error: FlowSpecError) -> Self {
        match error {
            FlowSpecError::InsufficientData => Reason::InsufficientData,
            FlowSpecError::InvalidComponentOrder {
                expected_greater_than,
                found,
            } => Reason::InvalidComponentOrder {
                expected_greater_than,
                found,
            },
            FlowSpecError::InvalidComponentType(found) => Reason::InvalidComponentType(found),
            FlowSpecError::InvalidPrefix => Reason::InvalidPrefix,
            FlowSpecError::InvalidOperator(octet) => Reason::InvalidOperator(octet),
            FlowSpecError::InvalidValueLength(code) => Reason::InvalidValueLength(code),
        }
    }
}

/// Each of them is a refusal, and has no place.
///
/// ```
/// use krubbadin::{FlowSpecError, Reason, Refusal};
/// assert_eq!(Refusal::from(FlowSpecError::InvalidPrefix), Refusal::from(Reason::InvalidPrefix));
/// ```
impl From<FlowSpecError> for Refusal {
    fn from(error: FlowSpecError) -> Self {
        Reason::from(error).into()
    }
}

/// The reasons 1 to 6 are errors of the original; any other comes back.
///
/// ```
/// use krubbadin::{FlowSpecError, Reason};
/// assert_eq!(FlowSpecError::try_from(Reason::InvalidPrefix), Ok(FlowSpecError::InvalidPrefix));
/// assert_eq!(FlowSpecError::try_from(Reason::BadRecord), Err(Reason::BadRecord));
/// ```
impl TryFrom<Reason> for FlowSpecError {
    type Error = Reason;

    fn try_from(reason: Reason) -> Result<Self, Reason> {
        Ok(match reason {
            Reason::InsufficientData => FlowSpecError::InsufficientData,
            Reason::InvalidComponentOrder {
                expected_greater_than,
                found,
            } => FlowSpecError::InvalidComponentOrder {
                expected_greater_than,
                found,
            },
            Reason::InvalidComponentType(found) => FlowSpecError::InvalidComponentType(found),
            Reason::InvalidPrefix => FlowSpecError::InvalidPrefix,
            Reason::InvalidOperator(octet) => FlowSpecError::InvalidOperator(octet),
            Reason::InvalidValueLength(code) => FlowSpecError::InvalidValueLength(code),
            other => return Err(other),
        })
    }
}

/// The same of a refusal, whose place the original's errors do not have.
///
/// ```
/// use krubbadin::{FlowSpecError, Reason, Refusal};
/// assert_eq!(FlowSpecError::try_from(Refusal::at(Reason::InvalidPrefix, 2)), Ok(FlowSpecError::InvalidPrefix));
/// assert_eq!(FlowSpecError::try_from(Refusal::from(Reason::BadRecord)), Err(Refusal::from(Reason::BadRecord)));
/// ```
impl TryFrom<Refusal> for FlowSpecError {
    type Error = Refusal;

    fn try_from(refusal: Refusal) -> Result<Self, Refusal> {
        FlowSpecError::try_from(refusal.reason()).map_err(|_| refusal)
    }
}

impl Answer {
    /// The two numbers of an answer, or its refusal.
    ///
    /// ```
    /// use krubbadin::surface::{Answer, NOWHERE};
    /// use krubbadin::{Reason, Refusal};
    ///
    /// let taken = Answer { status: 0, first: 9, second: 3, place: NOWHERE };
    /// assert_eq!(taken.accepted(), Ok((9, 3)));
    /// let no_room = Answer { status: 9, first: 3, second: 0, place: NOWHERE };
    /// assert_eq!(no_room.accepted(), Err(Refusal::from(Reason::NoRoom(3))));
    /// let missing = Answer { status: 1, first: 0, second: 0, place: 5 };
    /// assert_eq!(missing.accepted(), Err(Refusal::at(Reason::InsufficientData, 5)));
    /// ```
    ///
    /// # Panics
    ///
    /// If the status is 15 to 18 or above 20, which no call answers.
    #[inline]
    pub fn accepted(self) -> Result<(usize, usize), Refusal> {
        match self.status {
            0 => Ok((self.first as usize, self.second as usize)),
            _ => Err(self.refused()),
        }
    }

    fn refused(self) -> Refusal {
        Refusal {
            reason: self.reason(),
            // A place fits a usize as a count does.
            place: Some(self.place as usize).filter(|_| self.place != NOWHERE),
        }
    }

    fn reason(self) -> Reason {
        // What a refusal carries as an octet is below 256, and a count fits a usize: that is proved.
        let (octet, count) = (self.first as u8, self.first as usize);
        match self.status {
            1 => Reason::InsufficientData,
            2 => Reason::InvalidComponentOrder {
                expected_greater_than: octet,
                found: self.second as u8,
            },
            3 => Reason::InvalidComponentType(octet),
            4 => Reason::InvalidPrefix,
            5 => Reason::InvalidOperator(octet),
            6 => Reason::InvalidValueLength(octet),
            7 => Reason::ValueTooLarge(count),
            8 => Reason::InputTooLong(count),
            9 => Reason::NoRoom(count),
            10 => Reason::BadRecord,
            11 => Reason::BadFamily(octet),
            12 => Reason::TooManyRules(count),
            13 => Reason::BadPacket,
            14 => Reason::MixedFamily(count),
            19 => Reason::ShortDistinguisher,
            20 => Reason::MixedDistinguisher(count),
            other => unreachable!("no call answers status {other}"),
        }
    }
}

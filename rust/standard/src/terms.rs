//! What the RFCs speak of: families, types, the bits of an operator octet; and how much there may be.

use crate::refusals::Refusal;

#[derive(Debug, Clone, Copy, PartialEq, Eq)]
pub(crate) enum Family {
    Ipv4,
    Ipv6,
}

impl Family {
    pub(crate) fn of(number: u8) -> Result<Family, Refusal> {
        match number {
            4 => Ok(Family::Ipv4),
            6 => Ok(Family::Ipv6),
            _ => Err(Refusal::BadFamily(number)),
        }
    }
}

/// What follows a type octet.
#[derive(Debug, Clone, Copy, PartialEq, Eq)]
pub(crate) enum Kind {
    Prefix,
    Numeric,
    Bitmask,
}

/// The types of a family: RFC 8955, 4.2.2.1 to 4.2.2.12; RFC 8956, 3.7 adds the flow label, 13.
pub(crate) fn kind_of(family: Family, kind: u8) -> Option<Kind> {
    match kind {
        1 | 2 => Some(Kind::Prefix),
        3..=8 | 10 | 11 => Some(Kind::Numeric),
        9 | 12 => Some(Kind::Bitmask),
        13 if family == Family::Ipv6 => Some(Kind::Numeric),
        _ => None,
    }
}

/// The bits of an operator octet (RFC 8955, 4.2.1.1 and 4.2.1.2): of every one, of a numeric one, of
/// a bitmask one.
pub(crate) const END: u8 = 0x80;
pub(crate) const AND: u8 = 0x40;
pub(crate) const LESS: u8 = 0x04;
pub(crate) const GREATER: u8 = 0x02;
pub(crate) const EQUAL: u8 = 0x01;
pub(crate) const NOT: u8 = 0x02;
pub(crate) const MATCH: u8 = 0x01;

/// The most rules that there may be to choose from, components and operators that a rule may have,
/// the longest body that a length field can state, and the longest input of the plain reading.
pub(crate) const RULES: usize = 64;
pub(crate) const COMPONENTS: usize = 13;
pub(crate) const OPERATORS: usize = 2047;
pub(crate) const BODY: usize = 4095;
pub(crate) const INPUT: usize = 4097;

/// The code in an operator octet that stands for the width of its value.
pub(crate) fn code(octet: u8) -> u8 {
    (octet & 0x30) >> 4
}

/// How many octets the value behind an operator octet has.
pub(crate) fn width(octet: u8) -> usize {
    match code(octet) {
        0 => 1,
        1 => 2,
        2 => 4,
        _ => 8,
    }
}

/// The greatest width code of a type: TCP flags are a mask of one octet or two (RFC 8955, 4.2.2.9),
/// DSCP values (4.2.2.11) and fragment masks (4.2.2.12) have one.
pub(crate) fn most_code(kind: u8) -> u8 {
    match kind {
        9 => 1,
        11 | 12 => 0,
        _ => 3,
    }
}

/// The operator octet with its reserved bits 0.
pub(crate) fn without_reserved(kind: Kind, octet: u8) -> u8 {
    match kind {
        Kind::Bitmask => octet & !0x0C,
        _ => octet & !0x08,
    }
}

/// RFC 8956, 3.1: every address, or an offset before the length.
pub(crate) fn is_ipv6_range(length: u8, offset: u8) -> bool {
    (length == 0 && offset == 0) || (offset < length && length < 129)
}

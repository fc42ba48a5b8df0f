//! The standard reading.

use crate::octets::Octets;
use crate::refusals::{Fault, Refusal};
use crate::rules::{Address, Component, Content, Operator, Prefix, Rule};
use crate::rules::{Distinguisher, DISTINGUISHER_OCTETS};
use crate::terms::{code, is_ipv6_range, kind_of, most_code, width, without_reserved};
use crate::terms::{Family, Kind, AND, END};

/// A rule that was read, and how many octets of the input its length field and its body took.
#[derive(Debug, Clone, PartialEq, Eq)]
pub struct Reading {
    pub rule: Rule,
    pub used: usize,
}

/// Reads the rule at the front of the input. The family is 4 or 6, and no distinguisher is expected.
pub fn read(family: u8, input: &[u8]) -> Result<Reading, Fault> {
    read_rule(family, false, input)
}

/// As `read`, where a distinguisher is expected.
pub fn read_distinguished(family: u8, input: &[u8]) -> Result<Reading, Fault> {
    read_rule(family, true, input)
}

fn read_rule(family: u8, is_distinguished: bool, input: &[u8]) -> Result<Reading, Fault> {
    let family = Family::of(family)?;
    let mut octets = Octets::new(input);
    let used = octets.stated_end()?;
    let mut body = octets.up_to(used);
    let distinguisher = match is_distinguished {
        true => Some(read_distinguisher(&mut body)?),
        false => None,
    };
    let components = read_components(family, &mut body)?;
    Ok(Reading {
        rule: Rule {
            distinguisher,
            components,
        },
        used,
    })
}

/// RFC 8955, 8: it stands before the first component and counts in the length. Where the body has
/// fewer octets, the place is the body's end.
fn read_distinguisher(body: &mut Octets) -> Result<Distinguisher, Fault> {
    let mut distinguisher = [0; DISTINGUISHER_OCTETS];
    let octets = body.take(DISTINGUISHER_OCTETS).map_err(|missing| Fault {
        refusal: Refusal::ShortDistinguisher,
        ..missing
    })?;
    distinguisher.copy_from_slice(octets);
    Ok(distinguisher)
}

/// RFC 8955, 4.2: components to the end of the body.
fn read_components(family: Family, body: &mut Octets) -> Result<Vec<Component>, Fault> {
    let mut components = Vec::new();
    let mut previous = 0;
    while !body.is_at_end() {
        let (found, kind) = read_type(family, previous, body)?;
        let content = match (kind, family) {
            (Kind::Prefix, Family::Ipv4) => Content::Prefix(read_ipv4(body)?),
            (Kind::Prefix, Family::Ipv6) => Content::Prefix(read_ipv6(body)?),
            _ => Content::List(read_list(found, kind, body)?),
        };
        components.push(Component {
            kind: found,
            content,
        });
        previous = found;
    }
    Ok(components)
}

/// RFC 8955, 4.2: a type above the one before, and one of the family's.
pub(crate) fn read_type(
    family: Family,
    previous: u8,
    octets: &mut Octets,
) -> Result<(u8, Kind), Fault> {
    let place = octets.place();
    let found = octets.one()?;
    if found <= previous {
        return Err(Refusal::InvalidComponentOrder { previous, found }.at(place));
    }
    let kind = kind_of(family, found).ok_or(Refusal::InvalidComponentType(found).at(place))?;
    Ok((found, kind))
}

/// RFC 8955, 4.2.2.1: the length in bits, then the octets that hold so many.
fn read_ipv4(octets: &mut Octets) -> Result<Prefix, Fault> {
    let place = octets.place();
    let length = octets.one()?;
    if length > 32 {
        return Err(Refusal::InvalidPrefix.at(place));
    }
    let pattern = octets.take(octets_for(length))?;
    let mut address = 0;
    for bit in 0..length {
        if is_set(pattern, bit) {
            address |= 1 << (31 - bit);
        }
    }
    Ok(Prefix {
        address: Address::Ipv4(address),
        length,
        offset: None,
    })
}

/// RFC 8956, 3.1: the length, the offset, then the address bits from the offset up to the length.
/// The pattern begins at the front of its first octet; what pads its last is ignored. A bad pair
/// has the place of its length.
fn read_ipv6(octets: &mut Octets) -> Result<Prefix, Fault> {
    let place = octets.place();
    let length = octets.one()?;
    let offset = octets.one()?;
    if !is_ipv6_range(length, offset) {
        return Err(Refusal::InvalidPrefix.at(place));
    }
    let bits = length - offset;
    let pattern = octets.take(octets_for(bits))?;
    let mut address = 0;
    for bit in 0..bits {
        if is_set(pattern, bit) {
            address |= 1 << (127 - offset - bit);
        }
    }
    Ok(Prefix {
        address: Address::Ipv6(address),
        length,
        offset: Some(offset),
    })
}

/// RFC 8955, 4.2.1: operators with their values up to the one that has the end bit. Reserved bits
/// are ignored, and so is AND on the first, which has none before it. A width that the type does not
/// have is refused before its value is looked for.
fn read_list(found: u8, kind: Kind, octets: &mut Octets) -> Result<Vec<Operator>, Fault> {
    let mut list = Vec::new();
    loop {
        let place = octets.place();
        let mut octet = without_reserved(kind, octets.one()?);
        if code(octet) > most_code(found) {
            return Err(Refusal::InvalidValueLength(code(octet)).at(place));
        }
        if list.is_empty() {
            octet &= !AND;
        }
        let mut value = 0;
        for &next in octets.take(width(octet))? {
            value = value << 8 | u64::from(next);
        }
        list.push(Operator { octet, value });
        if octet & END != 0 {
            return Ok(list);
        }
    }
}

/// How many octets hold so many bits.
pub(crate) fn octets_for(bits: u8) -> usize {
    (usize::from(bits) + 7) / 8
}

/// Whether a bit is set, counted from the front.
fn is_set(pattern: &[u8], bit: u8) -> bool {
    pattern[usize::from(bit / 8)] & (0x80 >> (bit % 8)) != 0
}

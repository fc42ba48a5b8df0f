//! The standard writing.

use crate::refusals::Refusal;
use crate::rules::{Address, Component, Content, Operator, Prefix, Rule};
use crate::terms::{code, is_ipv6_range, kind_of, most_code, width, without_reserved};
use crate::terms::{Family, Kind, AND, BODY, COMPONENTS, END, OPERATORS};

/// Writes a rule: its length and its body, the distinguisher before the components (RFC 8955, 8).
/// The family is 4 or 6.
pub fn write(family: u8, rule: &Rule) -> Result<Vec<u8>, Refusal> {
    let family = Family::of(family)?;
    if !is_good_rule(family, rule) {
        return Err(Refusal::BadRecord);
    }
    let mut body: Vec<u8> = rule.distinguisher.into_iter().flatten().collect();
    for component in &rule.components {
        write_component(family, component, &mut body);
    }
    if body.len() > BODY {
        return Err(Refusal::ValueTooLarge(body.len()));
    }
    Ok([length_field(body.len()), body].concat())
}

/// RFC 8955, 4.1.
fn length_field(length: usize) -> Vec<u8> {
    if length < 240 {
        vec![length as u8]
    } else {
        vec![0xF0 + (length / 256) as u8, (length % 256) as u8]
    }
}

fn is_good_rule(family: Family, rule: &Rule) -> bool {
    let operators: usize = rule.components.iter().map(operators_in).sum();
    let kinds = || rule.components.iter().map(|component| component.kind);
    let mut pairs = kinds().zip(kinds().skip(1));
    rule.components.len() <= COMPONENTS
        && operators <= OPERATORS
        && pairs.all(|(previous, next)| previous < next)
        && rule
            .components
            .iter()
            .all(|component| is_good_component(family, component))
}

fn operators_in(component: &Component) -> usize {
    match &component.content {
        Content::Prefix(_) => 0,
        Content::List(list) => list.len(),
    }
}

/// The type is one of the family's, and its content is of that type's kind.
fn is_good_component(family: Family, component: &Component) -> bool {
    match (kind_of(family, component.kind), &component.content) {
        (Some(Kind::Prefix), Content::Prefix(prefix)) => is_good_prefix(family, prefix),
        (Some(Kind::Numeric | Kind::Bitmask), Content::List(list)) => {
            is_good_list(component.kind, list)
        }
        _ => false,
    }
}

/// IPv4 has no offset and at most 32 bits (RFC 8955, 4.2.2.1); IPv6 has one, which lies before the
/// length unless both are 0 (RFC 8956, 3.1). No address bit outside them is set.
fn is_good_prefix(family: Family, prefix: &Prefix) -> bool {
    match (family, prefix.address, prefix.offset) {
        (Family::Ipv4, Address::Ipv4(address), None) => {
            let clean = |bit| address >> (31 - bit) & 1 == 0;
            prefix.length <= 32 && (prefix.length..32).all(clean)
        }
        (Family::Ipv6, Address::Ipv6(address), Some(offset)) => {
            let clean = |bit| address >> (127 - bit) & 1 == 0;
            is_ipv6_range(prefix.length, offset)
                && (0..offset).all(clean)
                && (prefix.length..128).all(clean)
        }
        _ => false,
    }
}

/// The last operator and no other has the end bit, the first has no AND, each width is one of the
/// type's, and each value fits its own.
fn is_good_list(kind: u8, list: &[Operator]) -> bool {
    let is_good = |(place, operator): (usize, &Operator)| {
        let ends = operator.octet & END != 0;
        let joins = operator.octet & AND != 0;
        ends == (place + 1 == list.len())
            && !(joins && place == 0)
            && code(operator.octet) <= most_code(kind)
            && fits(operator)
    };
    !list.is_empty() && list.iter().enumerate().all(is_good)
}

fn fits(operator: &Operator) -> bool {
    match width(operator.octet) {
        8 => true,
        octets => operator.value < 1 << (8 * octets),
    }
}

fn write_component(family: Family, component: &Component, body: &mut Vec<u8>) {
    body.push(component.kind);
    match &component.content {
        Content::Prefix(prefix) => write_prefix(prefix, body),
        Content::List(list) => {
            let kind = kind_of(family, component.kind).expect("the type was tested");
            write_list(kind, list, body);
        }
    }
}

pub(crate) fn write_list(kind: Kind, list: &[Operator], body: &mut Vec<u8>) {
    for operator in list {
        body.push(without_reserved(kind, operator.octet));
        let octets = operator.value.to_be_bytes();
        body.extend(&octets[8 - width(operator.octet)..]);
    }
}

/// The length, the offset of an IPv6 prefix, and the bits from there to the length in as few
/// octets as hold them, the last one padded with 0.
fn write_prefix(prefix: &Prefix, body: &mut Vec<u8>) {
    body.push(prefix.length);
    body.extend(prefix.offset);
    let (address, size) = match prefix.address {
        Address::Ipv4(address) => (u128::from(address), 32),
        Address::Ipv6(address) => (address, 128),
    };
    let bits: Vec<u8> = (prefix.offset.unwrap_or(0)..prefix.length).collect();
    for part in bits.chunks(8) {
        let mut octet = 0;
        for (place, bit) in part.iter().enumerate() {
            if address >> (size - 1 - bit) & 1 != 0 {
                octet |= 0x80 >> place;
            }
        }
        body.push(octet);
    }
}

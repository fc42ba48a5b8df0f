//! Which of two rules precedes: RFC 8955, 5.1, and RFC 8956, 4 for the offset.

use crate::checking::is_well_formed;
use crate::refusals::Refusal;
use crate::rules::{Address, Content, Flow, Prefix};
use crate::terms::{kind_of, Family};
use crate::writing::write_list;
use std::cmp::Ordering;

/// Where a rule, a list or a prefix ended, its key has a number above all that could go on there: a
/// missing component comes after every type, and the longer list or prefix before the shorter.
const NO_TYPE: u16 = 256;
const NO_OCTET: u16 = 256;
const NO_BIT: u16 = 2;

/// `Less` where the first rule precedes. Refused as the chooser refuses the two, the family being
/// that of the first.
pub fn rank(one: &Flow, other: &Flow) -> Result<Ordering, Refusal> {
    if !is_well_formed(one) || !is_well_formed(other) {
        return Err(Refusal::BadRecord);
    }
    if one.family != other.family {
        return Err(Refusal::MixedFamily(1));
    }
    if one.rule.distinguisher != other.rule.distinguisher {
        return Err(Refusal::MixedDistinguisher(1));
    }
    Ok(key(one).cmp(&key(other)))
}

/// Whether the first rule precedes the other.
pub fn precedes(one: &Flow, other: &Flow) -> Result<bool, Refusal> {
    Ok(rank(one, other)? == Ordering::Less)
}

/// Of two rules that are well-formed in one family that precedes whose key comes first in the order
/// of dictionaries. For each component it has the type and what its content is compared by; the
/// distinguisher takes no part.
pub(crate) fn key(flow: &Flow) -> Vec<u16> {
    let family = Family::of(flow.family).expect("the family was tested");
    let mut key = Vec::new();
    for component in &flow.rule.components {
        key.push(u16::from(component.kind));
        match &component.content {
            Content::Prefix(prefix) => push_prefix(prefix, &mut key),
            Content::List(list) => {
                let kind = kind_of(family, component.kind).expect("the type was tested");
                let mut octets = Vec::new();
                write_list(kind, list, &mut octets);
                key.extend(octets.into_iter().map(u16::from));
                key.push(NO_OCTET);
            }
        }
    }
    key.push(NO_TYPE);
    key
}

/// The offset, where there is one, then the address bit by bit from the front up to the length.
fn push_prefix(prefix: &Prefix, key: &mut Vec<u16>) {
    let (address, size) = match prefix.address {
        Address::Ipv4(address) => (u128::from(address), 32),
        Address::Ipv6(address) => (address, 128),
    };
    let bit = |place| (address >> (size - 1 - place) & 1) as u16;
    key.extend(prefix.offset.map(u16::from));
    key.extend((0..prefix.length).map(bit));
    key.push(NO_BIT);
}

//! The plain reading, as far as it tells what a rule takes or where it broke: document 01, "The plain
//! reading" and "What comes back".

use crate::octets::Octets;
use crate::reading::{octets_for, read_type};
use crate::refusals::{Fault, Refusal};
use crate::terms::{width, without_reserved, Family, Kind, END, INPUT};

/// How many octets of the input the length field and the body of the rule at its front take.
pub fn plain_used(input: &[u8]) -> Result<usize, Fault> {
    if input.len() > INPUT {
        return Err(Refusal::InputTooLong(input.len()).into());
    }
    let mut octets = Octets::new(input);
    let end = octets.stated_end()?;
    let mut previous = 0;
    // The end of the input bounds what is read: a last component may overrun the stated end.
    while octets.place() < end {
        // The types are those of IPv6, all thirteen.
        let (found, kind) = read_type(Family::Ipv6, previous, &mut octets)?;
        match kind {
            Kind::Prefix => pass_prefix(&mut octets)?,
            Kind::Numeric | Kind::Bitmask => pass_list(kind, &mut octets)?,
        }
        previous = found;
    }
    Ok(end)
}

/// A length and no offset, whatever the family.
fn pass_prefix(octets: &mut Octets) -> Result<(), Fault> {
    let place = octets.place();
    let length = octets.one()?;
    if length > 128 {
        return Err(Refusal::InvalidPrefix.at(place));
    }
    octets.take(octets_for(length))?;
    Ok(())
}

/// The value must be there before reserved bits are looked at.
fn pass_list(kind: Kind, octets: &mut Octets) -> Result<(), Fault> {
    loop {
        let place = octets.place();
        let octet = octets.one()?;
        octets.take(width(octet))?;
        if octet != without_reserved(kind, octet) {
            return Err(Refusal::InvalidOperator(octet).at(place));
        }
        if octet & END != 0 {
            return Ok(());
        }
    }
}

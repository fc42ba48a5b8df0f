//! The straightforward Rust reading and writing of rules as they are stored, to time the proved ones
//! beside them.
//!
//! They are lent what the proved ones are and answer what the standard reading and writing do, with
//! a distinguisher and without, and NoRoom besides. Each goes over its input twice: first to see
//! whether it is taken and how much it takes (`validator`, `wordwise`), so that a refusal changes
//! nothing, then to fill what is lent. Nothing is allocated.

use crate::stored::{COUNT, DISTINGUISHED, FAMILY, IPV4, IPV6_OFFSET, UNUSED, WORDS};
use crate::validator::{self, Checked};
use crate::wordwise::{address, Group, Lent};
use crate::{Form, LONGEST_BODY};
use standard::{Fault, Operator, Refusal, DISTINGUISHER_OCTETS};

/// Why a call is refused.
#[derive(Debug, Clone, Copy, PartialEq, Eq)]
pub enum Refused {
    By(Fault),
    /// 9, with the places or octets that are needed.
    NoRoom(usize),
}

impl From<Fault> for Refused {
    fn from(fault: Fault) -> Self {
        Refused::By(fault)
    }
}

impl From<Refusal> for Refused {
    fn from(refusal: Refusal) -> Self {
        Refused::By(refusal.into())
    }
}

const END: u8 = 0x80;
const AND: u8 = 0x40;

/// The bits of an operator octet that are not reserved.
fn kept(kind: u8) -> u8 {
    match kind {
        9 | 12 => 0xF3,
        _ => 0xF7,
    }
}

fn width(octet: u8) -> usize {
    1 << (octet >> 4 & 3)
}

/// The octets that hold so many bits.
fn octets_for(bits: u64) -> usize {
    (bits as usize + 7) / 8
}

/// Reads a rule into lent words, and its operators into lent lists.
pub fn read(
    family: u8,
    is_distinguished: bool,
    input: &[u8],
    words: &mut [u64],
    values: &mut [u64],
    octets: &mut [u8],
) -> Result<Checked, Refused> {
    let form = match is_distinguished {
        true => Form::WithDistinguisher(family),
        false => Form::Standard(family),
    };
    let checked = validator::check(form, input)?;
    let words = words.get_mut(..WORDS).ok_or(Refused::NoRoom(1))?;
    if checked.operators > values.len().min(octets.len()) {
        return Err(Refused::NoRoom(checked.operators));
    }
    words.fill(0);
    words[FAMILY] = family.into();
    let start = if input[0] < 240 { 1 } else { 2 };
    let mut body = &input[start..checked.used];
    if is_distinguished {
        let (front, rest) = body.split_at(DISTINGUISHER_OCTETS);
        words[DISTINGUISHED..UNUSED].copy_from_slice(&[1, number(front)]);
        body = rest;
    }
    let (mut count, mut place) = (0, 0);
    while let &[kind, ref rest @ ..] = body {
        let (group, behind) = match (kind, family) {
            (1 | 2, 4) => read_ipv4(kind, rest),
            (1 | 2, _) => read_ipv6(kind, rest),
            _ => {
                let (operators, behind) =
                    read_list(kind, rest, &mut values[place..], &mut octets[place..]);
                let group = [kind.into(), place as u64, operators as u64, 0];
                place += operators;
                (group, behind)
            }
        };
        words[4 * count..4 * count + 4].copy_from_slice(&group);
        count += 1;
        body = behind;
    }
    words[COUNT] = count as u64;
    Ok(checked)
}

/// The number that up to eight octets are, the first the highest.
fn number(octets: &[u8]) -> u64 {
    match *octets {
        [one] => one.into(),
        [one, two] => u16::from_be_bytes([one, two]).into(),
        [one, two, three, four] => u32::from_be_bytes([one, two, three, four]).into(),
        [a, b, c, d, e, f, g, h] => u64::from_be_bytes([a, b, c, d, e, f, g, h]),
        _ => unreachable!("values have one of four widths"),
    }
}

/// The words of a good prefix, and what stands behind it.
fn read_ipv4(kind: u8, octets: &[u8]) -> (Group, &[u8]) {
    let length = octets[0];
    let (pattern, behind) = octets[1..].split_at(octets_for(length.into()));
    let mut address = [0; 4];
    address[..pattern.len()].copy_from_slice(pattern);
    let past = u32::MAX.checked_shr(length.into()).unwrap_or(0);
    let address = u32::from_be_bytes(address) & !past;
    let named = u64::from(kind) + 16 * IPV4;
    ([named, length.into(), address.into(), 0], behind)
}

fn read_ipv6(kind: u8, octets: &[u8]) -> (Group, &[u8]) {
    let (length, offset) = (octets[0], octets[1]);
    let bits = length - offset;
    let (pattern, behind) = octets[2..].split_at(octets_for(bits.into()));
    let mut address = [0; 16];
    address[..pattern.len()].copy_from_slice(pattern);
    let past = u128::MAX.checked_shr(bits.into()).unwrap_or(0);
    let address = (u128::from_be_bytes(address) & !past) >> offset;
    let (high, low) = ((address >> 64) as u64, address as u64);
    let named = u64::from(kind) + 16 * IPV6_OFFSET;
    let range = u64::from(length) + 256 * u64::from(offset);
    ([named, range, high, low], behind)
}

/// How many operators a good list has, which stand at the front of the lists then, and what stands
/// behind it.
fn read_list<'a>(
    kind: u8,
    mut list: &'a [u8],
    values: &mut [u64],
    octets: &mut [u8],
) -> (usize, &'a [u8]) {
    let mut count = 0;
    loop {
        let octet = list[0] & kept(kind);
        let (value, behind) = list[1..].split_at(width(octet));
        values[count] = number(value);
        octets[count] = if count == 0 { octet & !AND } else { octet };
        count += 1;
        list = behind;
        if octet & END != 0 {
            return (count, list);
        }
    }
}

/// Writes a rule that stands in lent words and lists: how many octets.
pub fn write(
    family: u8,
    words: &[u64],
    values: &[u64],
    octets: &[u8],
    output: &mut [u8],
) -> Result<usize, Refused> {
    if ![4, 6].contains(&family) {
        return Err(Refusal::BadFamily(family).into());
    }
    if words.len() < WORDS {
        return Err(Refusal::BadRecord.into());
    }
    let rule = Lent::new(words, values, octets);
    let body = rule.body_octets(family.into()).ok_or(Refusal::BadRecord)?;
    if body > LONGEST_BODY {
        return Err(Refusal::ValueTooLarge(body).into());
    }
    let length = [0xF0 | (body >> 8) as u8, body as u8];
    let length = if body < 240 { &length[1..] } else { &length };
    let needed = length.len() + body;
    let mut output = output.get_mut(..needed).ok_or(Refused::NoRoom(needed))?;
    put(length, &mut output);
    if let [1, number] = rule.distinguisher() {
        put(&number.to_be_bytes(), &mut output);
    }
    for group in rule.groups() {
        match (group[0] as u8 % 16, rule.list(group)) {
            (1 | 2, _) => write_prefix(group, &mut output),
            (kind, Some(list)) => write_list(kind, list, &mut output),
            (_, None) => unreachable!("the lists were tested"),
        }
    }
    Ok(needed)
}

/// Puts octets at the front of an output, which goes on behind them.
fn put(octets: &[u8], output: &mut &mut [u8]) {
    let (front, rest) = std::mem::take(output).split_at_mut(octets.len());
    front.copy_from_slice(octets);
    *output = rest;
}

fn write_prefix(group: Group, output: &mut &mut [u8]) {
    let (kind, form) = (group[0] as u8 % 16, group[0] / 16);
    let (length, offset) = (group[1] % 256, group[1] / 256);
    if form == IPV4 {
        put(&[kind, length as u8], output);
        let octets = (group[2] as u32).to_be_bytes();
        put(&octets[..octets_for(length)], output);
    } else {
        put(&[kind, length as u8, offset as u8], output);
        let octets = (address(group) << offset).to_be_bytes();
        put(&octets[..octets_for(length - offset)], output);
    }
}

fn write_list(kind: u8, list: impl Iterator<Item = Operator>, output: &mut &mut [u8]) {
    put(&[kind], output);
    for Operator { octet, value } in list {
        put(&[octet & kept(kind)], output);
        put(&value.to_be_bytes()[8 - width(octet)..], output);
    }
}

//! Rules for matching, ranking and choosing: well-formed ones whose values lie within what packets
//! have, and rules that are like another but for one thing.

use crate::packets::most;
use crate::stored::{Stored, COUNT, FIRST};
use crate::{records, Form};
use inputs::Random;
use standard::{Address, Component, Content, Distinguisher, Flow, Operator, Prefix, Rule};

const END: u8 = 0x80;
const AND: u8 = 0x40;

/// A rule that is well-formed in the family, unless its lists come out too long.
pub fn good(family: u8, random: &mut Random) -> Flow {
    let last = last_type(family);
    let mut kinds: Vec<u8> = match random.below(8) {
        0..=2 => vec![1 + random.below(last.into()) as u8],
        3..=6 => (0..2 + random.below(3))
            .map(|_| 1 + random.below(last.into()) as u8)
            .collect(),
        _ => (1..=last).filter(|_| random.once_in(2)).collect(),
    };
    kinds.sort_unstable();
    kinds.dedup();
    let component = |kind| component(family, kind, random);
    Flow {
        family,
        rule: Rule {
            distinguisher: None,
            components: kinds.into_iter().map(component).collect(),
        },
    }
}

/// Half of the time, gives rules a distinguisher, all the same one; in a quarter of these cases one
/// or two of them get another then, or none. Whether they differ.
pub fn distinguish(flows: &mut [&mut Flow], random: &mut Random) -> bool {
    let way = random.below(8);
    if way < 4 || flows.is_empty() {
        return false;
    }
    let own = inputs::distinguisher(random);
    for flow in flows.iter_mut() {
        flow.rule.distinguisher = Some(own);
    }
    if way == 7 {
        for _ in 0..=random.below(2) {
            let place = random.below(flows.len());
            flows[place].rule.distinguisher = another(own, random);
        }
    }
    let first = flows[0].rule.distinguisher;
    flows.iter().any(|flow| flow.rule.distinguisher != first)
}

/// None, a distinguisher with no bit set, one that differs in a bit, or any.
fn another(own: Distinguisher, random: &mut Random) -> Option<Distinguisher> {
    let near = u64::from_be_bytes(own) ^ 1 << random.below(64);
    match random.below(4) {
        0 => None,
        1 => Some([0; 8]),
        2 => Some(near.to_be_bytes()),
        _ => Some(inputs::distinguisher(random)),
    }
}

/// The greatest type of a family.
pub fn last_type(family: u8) -> u8 {
    if family == 6 {
        13
    } else {
        12
    }
}

fn component(family: u8, kind: u8, random: &mut Random) -> Component {
    let content = match kind {
        1 | 2 => Content::Prefix(prefix(family, random)),
        _ => Content::List(list(kind, random)),
    };
    Component { kind, content }
}

/// Any prefix that is good in the family.
pub fn prefix(family: u8, random: &mut Random) -> Prefix {
    let any = u128::from(random.number()) << 64 | u128::from(random.number());
    // Few bits, so that one prefix often covers another.
    let any = random.pick(&[any, 0, u128::MAX, 0x0A01 << 112]);
    match family {
        4 => cut(Prefix {
            address: Address::Ipv4((any >> 96) as u32),
            length: random.below(33) as u8,
            offset: None,
        }),
        _ => {
            let length = random.below(129);
            let offset = match random.below(2) {
                0 => 0,
                _ => random.below(length.max(1)),
            };
            cut(Prefix {
                address: Address::Ipv6(any),
                length: length as u8,
                offset: Some(offset as u8),
            })
        }
    }
}

/// The prefix without the address bits beside it.
pub fn cut(prefix: Prefix) -> Prefix {
    let from = |place: u8| u128::MAX.checked_shr(place.into()).unwrap_or(0);
    let kept = from(prefix.offset.unwrap_or(0)) & !from(prefix.length);
    let address = match prefix.address {
        Address::Ipv4(address) => Address::Ipv4(address & (kept >> 96) as u32),
        Address::Ipv6(address) => Address::Ipv6(address & kept),
    };
    Prefix { address, ..prefix }
}

/// A list: mostly a few operators, now and then many, rarely more than a rule may have.
fn list(kind: u8, random: &mut Random) -> Vec<Operator> {
    let count = match random.below(2000) {
        0 => 2040 + random.below(12),
        1..=4 => 300 + random.below(300),
        5..=100 => 5 + random.below(36),
        _ => random.pick(&[1, 1, 1, 2, 2, 3, 4]),
    };
    let reserved = random.once_in(6);
    let operators = (0..count).map(|_| operator(kind, reserved, random));
    let mut list: Vec<Operator> = operators.collect();
    if count > 1 && random.once_in(3) && !is_bitmask(kind) {
        make_range(&mut list, random);
    }
    close(&mut list);
    list
}

fn is_bitmask(kind: u8) -> bool {
    [9, 12].contains(&kind)
}

/// The reserved bits of an operator octet in lists of a type.
pub fn reserved_bits(kind: u8) -> u8 {
    match is_bitmask(kind) {
        true => 0x0C,
        false => 0x08,
    }
}

/// The greatest width code of a type.
pub fn most_code(kind: u8) -> u8 {
    // In both families.
    inputs::most_code(Form::Standard(4), kind)
}

/// The value as a type can hold it. What does not fit sets the highest bit that does, so that a mask
/// with bits beyond its field stays one.
fn held(kind: u8, value: u64) -> u64 {
    let bits = 8u32 << most_code(kind);
    let most = u64::MAX >> (64 - bits);
    match value > most {
        true => value & most | 1 << (bits - 1),
        false => value,
    }
}

/// An operator, joined or not, its value in the field's range or just beside it, in its least width
/// or a greater one of its type.
fn operator(kind: u8, reserved: bool, random: &mut Random) -> Operator {
    let kept = match reserved {
        true => 0x4F,
        false => 0x4F & !reserved_bits(kind),
    };
    let most = most(kind);
    let value = match random.below(16) {
        0 => 0,
        1 => 1,
        2 => most - 1,
        3 => most,
        4 => most + 1,
        5 => random.value(),
        6..=8 => random.below(8) as u64,
        9 if kind == 9 => 1 << random.below(17),
        9 if kind == 12 => 1 << random.below(9),
        _ => random.below(most as usize + 1) as u64,
    };
    let value = held(kind, value);
    let code = match random.below(4) {
        0 => any_code(kind, value, random),
        _ => least_code(value),
    };
    Operator {
        octet: random.octet() & kept | code << 4,
        value,
    }
}

/// The code of a width that a type has and that holds a value.
fn any_code(kind: u8, value: u64, random: &mut Random) -> u8 {
    let least = least_code(value);
    least + random.below(usize::from(most_code(kind) - least) + 1) as u8
}

/// The code of the least width that holds a value.
pub fn least_code(value: u64) -> u8 {
    match value {
        0..=0xFF => 0,
        0x100..=0xFFFF => 1,
        0x1_0000..=0xFFFF_FFFF => 2,
        _ => 3,
    }
}

/// Makes a pair of operators a range: at least, AND at most.
fn make_range(list: &mut [Operator], random: &mut Random) {
    let place = random.below(list.len() - 1);
    let (low, high) = (list[place].value, list[place + 1].value);
    let bound = |octet: u8, value: u64| Operator {
        octet: octet | least_code(value) << 4,
        value,
    };
    list[place] = bound(0x03, low.min(high));
    list[place + 1] = bound(0x45, low.max(high));
}

/// Sets the end mark on the last operator alone, and takes AND from the first.
fn close(list: &mut [Operator]) {
    list.iter_mut().for_each(|one| one.octet &= !END);
    if let Some(last) = list.last_mut() {
        last.octet |= END;
    }
    if let Some(first) = list.first_mut() {
        first.octet &= !AND;
    }
}

/// A rule that is this one but for one thing, or for nothing, and which thing that is.
pub fn like(flow: &Flow, random: &mut Random) -> (Flow, &'static str) {
    for _ in 0..8 {
        let mut other = flow.clone();
        let change = random.below(8);
        let what = match change {
            0 => Some("nothing"),
            1 => drop_last(&mut other),
            2 => add_component(&mut other, random),
            3 => change_type(&mut other, random),
            _ => change_content(&mut other, random),
        };
        if let Some(what) = what {
            return (other, what);
        }
    }
    (flow.clone(), "nothing")
}

fn drop_last(flow: &mut Flow) -> Option<&'static str> {
    flow.rule.components.pop().map(|_| "the last component")
}

fn add_component(flow: &mut Flow, random: &mut Random) -> Option<&'static str> {
    let kind = 1 + random.below(last_type(flow.family).into()) as u8;
    let components = &mut flow.rule.components;
    let at = components.iter().take_while(|one| one.kind < kind).count();
    if components.get(at).map_or(false, |one| one.kind == kind) {
        return None;
    }
    components.insert(at, component(flow.family, kind, random));
    Some("one component more")
}

/// Gives a component the next or the previous type, where its neighbours leave that free and its
/// values are not too wide for it.
fn change_type(flow: &mut Flow, random: &mut Random) -> Option<&'static str> {
    let components = &mut flow.rule.components;
    let at = Some(components.len()).filter(|&count| count != 0)?;
    let at = random.below(at);
    let kind = match random.below(2) {
        0 => components[at].kind + 1,
        _ => components[at].kind - 1,
    };
    let is_prefix = |kind: u8| kind < 3;
    let is_free = components.iter().all(|one| one.kind != kind);
    if !is_free || is_prefix(kind) != is_prefix(components[at].kind) || kind == 0 {
        return None;
    }
    if kind > last_type(flow.family) || is_too_wide(kind, &components[at].content) {
        return None;
    }
    components[at].kind = kind;
    Some("a type")
}

fn is_too_wide(kind: u8, content: &Content) -> bool {
    let is_wide = |one: &Operator| one.octet >> 4 & 3 > most_code(kind);
    match content {
        Content::Prefix(_) => false,
        Content::List(list) => list.iter().any(is_wide),
    }
}

fn change_content(flow: &mut Flow, random: &mut Random) -> Option<&'static str> {
    let components = &mut flow.rule.components;
    let count = Some(components.len()).filter(|&count| count != 0)?;
    let component = &mut components[random.below(count)];
    let kind = component.kind;
    match &mut component.content {
        Content::Prefix(prefix) => change_prefix(prefix, random),
        Content::List(list) => change_list(kind, list, random),
    }
}

/// The length or the offset by one, or a bit: the last, the first or any.
fn change_prefix(prefix: &mut Prefix, random: &mut Random) -> Option<&'static str> {
    let size = match prefix.address {
        Address::Ipv4(_) => 32,
        Address::Ipv6(_) => 128,
    };
    let offset = prefix.offset.unwrap_or(0);
    let up = random.once_in(2);
    let step = |number: u8| {
        if up {
            number + 1
        } else {
            number.wrapping_sub(1)
        }
    };
    let (length, moved, what) = match random.below(3) {
        0 => (step(prefix.length), offset, "a prefix length"),
        1 if prefix.offset.is_some() => (prefix.length, step(offset), "an offset"),
        _ => (prefix.length, offset, "an address bit"),
    };
    if length > size || moved >= length.max(1) {
        return None;
    }
    if what == "an address bit" {
        let last = length.checked_sub(1)?;
        let place = match random.below(3) {
            0 => offset,
            1 => last,
            _ => offset + random.below(usize::from(length - offset)) as u8,
        };
        match &mut prefix.address {
            Address::Ipv4(address) => *address ^= 1 << (31 - place),
            Address::Ipv6(address) => *address ^= 1 << (127 - place),
        }
    }
    prefix.length = length;
    prefix.offset = prefix.offset.map(|_| moved);
    *prefix = cut(prefix.clone());
    Some(what)
}

fn change_list(kind: u8, list: &mut Vec<Operator>, random: &mut Random) -> Option<&'static str> {
    let what = match random.below(8) {
        6 => {
            list.push(operator(kind, false, random));
            Some("one operator more")
        }
        7 if list.len() > 1 => {
            list.pop();
            Some("the last operator")
        }
        change => {
            let place = random.below(list.len());
            change_operator(kind, change, place, &mut list[place], random)
        }
    };
    close(list);
    what
}

fn change_operator(
    kind: u8,
    change: usize,
    place: usize,
    one: &mut Operator,
    random: &mut Random,
) -> Option<&'static str> {
    let with_code = |octet: u8, code: u8| octet & !0x30 | code << 4;
    match change {
        0 => {
            one.octet ^= if is_bitmask(kind) { 0x04 } else { 0x08 };
            Some("a reserved bit")
        }
        1 | 2 => {
            let value = match random.below(2) {
                0 => one.value.checked_add(1)?,
                _ => one.value.checked_sub(1)?,
            };
            let value = Some(value).filter(|&value| held(kind, value) == value)?;
            let code = (one.octet >> 4 & 3).max(least_code(value));
            (one.octet, one.value) = (with_code(one.octet, code), value);
            Some("a value by one")
        }
        3 => {
            one.octet ^= 1 << random.below(if is_bitmask(kind) { 2 } else { 3 });
            Some("a comparison bit")
        }
        4 => {
            let code = any_code(kind, one.value, random);
            one.octet = with_code(one.octet, code);
            Some("a width")
        }
        _ if place != 0 => {
            one.octet ^= AND;
            Some("an AND")
        }
        _ => None,
    }
}

/// Stores a rule, now and then behind operators that are another's, and with some behind it.
pub fn store(flow: &Flow, random: &mut Random, record: &mut Stored) {
    record.clear(flow.family.into());
    records::begin(random, record);
    record.push_rule(&flow.rule);
    if random.once_in(4) {
        record.values.push(random.value());
        record.octets.push(random.octet());
    }
}

/// Gives an operator a width that its type does not have, where the rule that words store has such a
/// list: whether it has.
pub fn widen(random: &mut Random, words: &[u64], octets: &mut [u8]) -> bool {
    let is_narrow = |group: &&[u64]| matches!(group[0], 3..=13) && most_code(group[0] as u8) < 3;
    let lists: Vec<&[u64]> = words[..COUNT].chunks(4).filter(is_narrow).collect();
    if lists.is_empty() {
        return false;
    }
    let list = random.pick(&lists);
    let most = most_code(list[0] as u8);
    let code = 1 + most + random.below(usize::from(3 - most)) as u8;
    let operator = random.below(list[2] as usize) as u64;
    let place = words[FIRST].wrapping_add(list[1]).wrapping_add(operator);
    let octet = octets.get_mut(place as usize);
    octet.map_or(false, |octet| {
        *octet = *octet & !0x30 | code << 4;
        true
    })
}

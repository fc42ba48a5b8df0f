//! Rules as the archive takes them: words, and operators in two lists. `surface` has the layout.
//!
//! Between them and owned rules operators are taken apart and put together here, in Rust, since a call for each would cost more than the
//! reading; a test holds every octet to the archive's own calls.

use crate::error::{Reason, Refusal};
use crate::operators::{BitmaskOperator, NumericOperator};
use crate::rules::{FlowSpecComponent, FlowSpecNlri, NetworkPrefix};
use crate::surface::{self, COUNT, DISTINGUISHED, DISTINGUISHER, FAMILY, FIRST, OPERATORS, WORDS};
use ipnet::{IpNet, Ipv4Net, Ipv6Net};
use std::mem::MaybeUninit;
use std::net::IpAddr;

/// The most components that a rule has.
pub(crate) const COMPONENTS: usize = COUNT / 4;
/// The longest NLRI: two octets of length and a body of 4,095.
pub(crate) const LONGEST: usize = 4097;
/// So many operators have their lists on the stack.
const FEW: usize = 32;
/// The most octets of an NLRI beside its operators, of which each takes nine at most: components, distinguisher and length.
const BESIDE: usize = 19 * COMPONENTS + 8 + 2;

/// Rules one after another, their operators in one pair of lists.
#[derive(Debug, Clone, Default, PartialEq, Eq)]
pub(crate) struct Many {
    pub words: Vec<u64>,
    pub values: Vec<u64>,
    pub octets: Vec<u8>,
}

/// Reads a rule: what it is, and the octets used.
#[inline]
pub(crate) fn read_rule(
    standard: u8,
    family: u8,
    input: &[u8],
) -> Result<(FlowSpecNlri, usize), Refusal> {
    let places = most_operators(input);
    if places <= FEW {
        let (mut values, mut octets) = ([MaybeUninit::uninit(); FEW], [MaybeUninit::uninit(); FEW]);
        return read_into(standard, family, input, &mut values, &mut octets);
    }
    let (mut values, mut octets) = (Vec::with_capacity(places), Vec::with_capacity(places));
    let (values, octets) = (values.spare_capacity_mut(), octets.spare_capacity_mut());
    read_into(standard, family, input, values, octets)
}

/// The same with lists for its operators.
#[inline]
fn read_into(
    standard: u8,
    family: u8,
    input: &[u8],
    values: &mut [MaybeUninit<u64>],
    octets: &mut [MaybeUninit<u8>],
) -> Result<(FlowSpecNlri, usize), Refusal> {
    let mut words = MaybeUninit::uninit();
    let read = surface::read_anew(standard, family, input, &mut words, values, octets)?;
    Ok((rule_of(read.words, read.values, read.octets), read.used))
}

/// Checks a rule: the octets used.
pub(crate) fn check_rule(standard: u8, family: u8, input: &[u8]) -> Result<usize, Refusal> {
    let (used, _) = surface::check(standard, family, input).accepted()?;
    Ok(used)
}

/// The rule that words name, whose operators begin where the lists do.
#[inline]
fn rule_of(words: &[u64], values: &[u64], octets: &[u8]) -> FlowSpecNlri {
    let distinguisher = distinguisher_of(words);
    let count = (words[COUNT] as usize).min(COMPONENTS);
    let mut components = Vec::with_capacity(count);
    for group in words[..4 * count].chunks_exact(4) {
        push_component(group, values, octets, &mut components);
    }
    FlowSpecNlri {
        components,
        distinguisher,
    }
}

/// The distinguisher of the rule that words name.
#[inline]
fn distinguisher_of(words: &[u64]) -> Option<[u8; 8]> {
    match words[DISTINGUISHED] {
        0 => None,
        _ => Some(words[DISTINGUISHER].to_be_bytes()),
    }
}

/// No input has more operators: each takes two octets of it at least.
fn most_operators(input: &[u8]) -> usize {
    (input.len() / 2).min(OPERATORS)
}

/// Writes a rule.
pub(crate) fn write_rule(
    standard: u8,
    family: u8,
    rule: &FlowSpecNlri,
) -> Result<Vec<u8>, Refusal> {
    with_rule(family, rule, |words, values, octets| {
        let most = (9 * values.len() + BESIDE).min(LONGEST);
        if values.len() <= FEW {
            let mut out = [0; 9 * FEW + BESIDE];
            let answer = surface::write(standard, family, words, values, octets, &mut out[..most]);
            Ok(out[..answer.accepted()?.0].to_vec())
        } else {
            let mut out = vec![0; most];
            let answer = surface::write(standard, family, words, values, octets, &mut out);
            out.truncate(answer.accepted()?.0);
            Ok(out)
        }
    })?
}

/// Puts a rule into words and lists and lends them.
pub(crate) fn with_rule<T>(
    family: u8,
    rule: &FlowSpecNlri,
    call: impl FnOnce(&[u64], &[u64], &[u8]) -> T,
) -> Result<T, Refusal> {
    let mut words = [0; WORDS];
    let count = operators_in(rule);
    if count <= FEW {
        let (mut values, mut octets) = ([0; FEW], [0; FEW]);
        let (values, octets) = (&mut values[..count], &mut octets[..count]);
        put_rule(family, 0, rule, &mut words, values, octets)?;
        Ok(call(&words, values, octets))
    } else {
        let (mut values, mut octets) = (vec![0; count], vec![0; count]);
        put_rule(family, 0, rule, &mut words, &mut values, &mut octets)?;
        Ok(call(&words, &values, &octets))
    }
}

impl Many {
    /// How many rules there are.
    pub fn len(&self) -> usize {
        self.words.len() / WORDS
    }

    /// The number of a rule's family, and the rule.
    pub fn get(&self, place: usize) -> Option<(u8, FlowSpecNlri)> {
        let words = self.words.chunks_exact(WORDS).nth(place)?;
        let first = words[FIRST] as usize;
        let rule = rule_of(words, &self.values[first..], &self.octets[first..]);
        Some((words[FAMILY] as u8, rule))
    }

    /// Takes off what came after so many rules and operators.
    pub fn truncate(&mut self, rules: usize, operators: usize) {
        self.words.truncate(WORDS * rules);
        self.values.truncate(operators);
        self.octets.truncate(operators);
    }

    /// Adds a rule. Nothing is added on a refusal.
    pub fn push(&mut self, family: u8, rule: &FlowSpecNlri) -> Result<(), Refusal> {
        let (rules, first) = (self.len(), self.values.len());
        let (words, values, octets) = self.places(operators_in(rule));
        let put = put_rule(family, first, rule, words, values, octets);
        if put.is_err() {
            self.truncate(rules, first);
        }
        put
    }

    /// Reads a rule and adds it: the octets used. Nothing is added on a refusal.
    pub fn read(&mut self, standard: u8, family: u8, input: &[u8]) -> Result<usize, Refusal> {
        let (rules, first) = (self.len(), self.values.len());
        let (words, values, octets) = self.places(most_operators(input));
        match surface::read(standard, family, input, words, values, octets).accepted() {
            Ok((used, operators)) => {
                words[FIRST] = first as u64;
                self.truncate(rules + 1, first + operators);
                Ok(used)
            }
            Err(refusal) => {
                self.truncate(rules, first);
                Err(refusal)
            }
        }
    }

    /// New places for a rule of so many operators.
    fn places(&mut self, operators: usize) -> (&mut [u64], &mut [u64], &mut [u8]) {
        let (base, first) = (self.words.len(), self.values.len());
        self.words.resize(base + WORDS, 0);
        self.values.resize(first + operators, 0);
        self.octets.resize(first + operators, 0);
        (
            &mut self.words[base..],
            &mut self.values[first..],
            &mut self.octets[first..],
        )
    }
}

/// How many operators a rule has.
pub(crate) fn operators_in(rule: &FlowSpecNlri) -> usize {
    rule.components
        .iter()
        .map(|component| list_of(component).len())
        .sum()
}

/// The operators of a component.
pub(crate) enum List<'a> {
    None,
    Numeric(&'a [NumericOperator]),
    Bitmask(&'a [BitmaskOperator]),
}

pub(crate) fn list_of(component: &FlowSpecComponent) -> List<'_> {
    use FlowSpecComponent::*;
    match component {
        DestinationPrefix(_)
        | SourcePrefix(_)
        | DestinationIpv6Prefix { .. }
        | SourceIpv6Prefix { .. } => List::None,
        IpProtocol(list)
        | Port(list)
        | DestinationPort(list)
        | SourcePort(list)
        | IcmpType(list)
        | IcmpCode(list)
        | PacketLength(list)
        | Dscp(list)
        | FlowLabel(list) => List::Numeric(list),
        TcpFlags(list) | Fragment(list) => List::Bitmask(list),
    }
}

impl List<'_> {
    fn len(&self) -> usize {
        match self {
            List::None => 0,
            List::Numeric(list) => list.len(),
            List::Bitmask(list) => list.len(),
        }
    }

    /// How many octets operators and values take, also where a width has no code.
    pub fn octets(&self) -> usize {
        let of = |width: u8| 1 + usize::from(width);
        match self {
            List::None => 0,
            List::Numeric(list) => list.iter().map(|one| of(one.value_length)).sum(),
            List::Bitmask(list) => list.iter().map(|one| of(one.value_length)).sum(),
        }
    }

    /// The first width that has no code.
    pub fn odd_width(&self) -> Option<u8> {
        let odd = |width: &u8| !has_code(*width);
        match self {
            List::None => None,
            List::Numeric(list) => list.iter().map(|one| one.value_length).find(odd),
            List::Bitmask(list) => list.iter().map(|one| one.value_length).find(odd),
        }
    }

    /// Fills places, one for each operator: whether every operator's width has a code.
    fn fill(&self, values: &mut [u64], octets: &mut [u8]) -> bool {
        let places = values.iter_mut().zip(octets);
        let mut coded = true;
        match self {
            List::None => {}
            List::Numeric(list) => {
                for (one, (value, octet)) in list.iter().zip(places) {
                    (*value, *octet) = (one.value, numeric_octet(one));
                    coded &= has_code(one.value_length);
                }
            }
            List::Bitmask(list) => {
                for (one, (value, octet)) in list.iter().zip(places) {
                    (*value, *octet) = (one.bitmask, bitmask_octet(one));
                    coded &= has_code(one.value_length);
                }
            }
        }
        coded
    }
}

/// Puts a rule into 64 words that are 0, and its operators into as many places, which start at `first`. BadRecord if an operator's width
/// has no code. Whatever else may be wrong with a rule has its words, and the archive refuses it; more than 13 components are counted,
/// though there is no place for them.
fn put_rule(
    family: u8,
    first: usize,
    rule: &FlowSpecNlri,
    words: &mut [u64],
    values: &mut [u64],
    octets: &mut [u8],
) -> Result<(), Refusal> {
    // Before the components: as the last thing done it costs five nanoseconds.
    if let Some(distinguisher) = rule.distinguisher {
        words[DISTINGUISHED] = 1;
        words[DISTINGUISHER] = u64::from_be_bytes(distinguisher);
    }
    let mut start = 0;
    for (at, component) in rule.components.iter().enumerate() {
        let list = list_of(component);
        let places = start..start + list.len();
        if !list.fill(&mut values[places.clone()], &mut octets[places]) {
            return Err(Reason::BadRecord.into());
        }
        if at < COMPONENTS {
            let group = component_words(component, start as u64, list.len() as u64);
            words[4 * at..4 * at + 4].copy_from_slice(&group);
        }
        start += list.len();
    }
    words[COUNT] = rule.components.len() as u64;
    words[FAMILY] = u64::from(family);
    words[FIRST] = first as u64;
    Ok(())
}

/// The four words of a component, its list with this start and this count.
fn component_words(component: &FlowSpecComponent, start: u64, count: u64) -> [u64; 4] {
    use FlowSpecComponent::*;
    let kind = u64::from(component.component_type());
    match component {
        DestinationPrefix(prefix) | SourcePrefix(prefix) => prefix_words(kind, prefix, None),
        DestinationIpv6Prefix { offset, prefix } | SourceIpv6Prefix { offset, prefix } => {
            prefix_words(kind, prefix, Some(*offset))
        }
        _ => [kind, start, count, 0],
    }
}

fn prefix_words(kind: u64, prefix: &NetworkPrefix, offset: Option<u8>) -> [u64; 4] {
    let (form, high, low) = match prefix.prefix.addr() {
        IpAddr::V4(address) => (0, u64::from(u32::from(address)), 0),
        IpAddr::V6(address) => {
            let address = u128::from(address);
            (1, (address >> 64) as u64, address as u64)
        }
    };
    let (form, offset) = match offset {
        None => (form, 0),
        Some(offset) => (form + 2, u64::from(offset)),
    };
    let length = u64::from(prefix.prefix.prefix_len());
    [kind + 16 * form, length + 256 * offset, high, low]
}

/// Adds the component that four words name, which a reading wrote, or which were put in from a component, where there is room for it.
///
/// It is pushed right after the room is seen to, so that it is made where it stands and not copied there: the copy waits for what was just
/// written, some nanoseconds each.
#[inline]
fn push_component(
    group: &[u64],
    values: &[u64],
    octets: &[u8],
    components: &mut Vec<FlowSpecComponent>,
) {
    use FlowSpecComponent::*;
    let (kind, form) = (group[0] % 16, group[0] / 16);
    if kind <= 2 {
        let (length, offset) = ((group[1] % 256) as u8, (group[1] / 256) as u8);
        let prefix = prefix_of(form, length, group[2], group[3]);
        has_room(components);
        return match (kind, form) {
            (1, 0 | 1) => components.push(DestinationPrefix(prefix)),
            (1, _) => components.push(DestinationIpv6Prefix { offset, prefix }),
            (_, 0 | 1) => components.push(SourcePrefix(prefix)),
            _ => components.push(SourceIpv6Prefix { offset, prefix }),
        };
    }
    // Both are small: of 32 bits, no sum and no size of a list is too large for a word, and none is tested for it.
    let (start, count) = (group[1] as u32 as usize, group[2] as u32 as usize);
    let places = start..start + count;
    let values = &values[places.clone()];
    let octets = &octets[places][..values.len()];
    if matches!(kind, 9 | 12) {
        let list = operators(values, octets, bitmask_of);
        has_room(components);
        return components.push(match kind {
            9 => TcpFlags(list),
            _ => Fragment(list),
        });
    }
    let list = operators(values, octets, numeric_of);
    has_room(components);
    components.push(match kind {
        3 => IpProtocol(list),
        4 => Port(list),
        5 => DestinationPort(list),
        6 => SourcePort(list),
        7 => IcmpType(list),
        8 => IcmpCode(list),
        10 => PacketLength(list),
        11 => Dscp(list),
        _ => FlowLabel(list),
    });
}

/// That a push does not have to grow the list.
#[inline]
fn has_room(components: &Vec<FlowSpecComponent>) {
    assert!(components.len() < components.capacity());
}

fn prefix_of(form: u64, length: u8, high: u64, low: u64) -> NetworkPrefix {
    let net = match form {
        0 | 2 => Ipv4Net::new((high as u32).into(), length).map(IpNet::V4),
        _ => {
            let address = u128::from(high) << 64 | u128::from(low);
            Ipv6Net::new(address.into(), length).map(IpNet::V6)
        }
    };
    NetworkPrefix::from(net.expect("a length that was read is within its address"))
}

/// The operators of a list.
#[inline]
fn operators<T>(values: &[u64], octets: &[u8], operator: impl Fn(u8, u64) -> T) -> Vec<T> {
    let mut list = Vec::with_capacity(values.len());
    let pairs = octets.iter().zip(values);
    list.extend(pairs.map(|(&octet, &value)| operator(octet, value)));
    list
}

/// The operator of an octet without reserved bits, as a reading leaves it.
#[inline]
fn numeric_of(octet: u8, value: u64) -> NumericOperator {
    NumericOperator {
        value,
        ..NUMERIC[usize::from(octet)]
    }
}

#[inline]
fn bitmask_of(octet: u8, bitmask: u64) -> BitmaskOperator {
    BitmaskOperator {
        bitmask,
        ..BITMASK[usize::from(octet)]
    }
}

/// The operators of all octets, each made by a function of its octet.
macro_rules! of_all_octets {
    ($operator:ty, $of_octet:ident) => {{
        const NONE: $operator = $of_octet(0);
        let mut table = [NONE; 256];
        let mut octet = 0;
        while octet < 256 {
            table[octet] = $of_octet(octet as u8);
            octet += 1;
        }
        table
    }};
}

/// With the value 0: one load, where to take an octet apart is a dozen steps.
static NUMERIC: [NumericOperator; 256] = of_all_octets!(NumericOperator, numeric_of_octet);
static BITMASK: [BitmaskOperator; 256] = of_all_octets!(BitmaskOperator, bitmask_of_octet);

const fn numeric_of_octet(octet: u8) -> NumericOperator {
    NumericOperator {
        end_of_list: octet & 0x80 != 0,
        and_with_next: octet & 0x40 != 0,
        value_length: 1 << (octet >> 4 & 3),
        less_than: octet & 0x04 != 0,
        greater_than: octet & 0x02 != 0,
        equal: octet & 0x01 != 0,
        value: 0,
    }
}

const fn bitmask_of_octet(octet: u8) -> BitmaskOperator {
    BitmaskOperator {
        end_of_list: octet & 0x80 != 0,
        and_with_next: octet & 0x40 != 0,
        value_length: 1 << (octet >> 4 & 3),
        not: octet & 0x02 != 0,
        match_flag: octet & 0x01 != 0,
        bitmask: 0,
    }
}

/// Whether a width has a code.
fn has_code(width: u8) -> bool {
    width.is_power_of_two() && width <= 8
}

/// The octet of an operator whose width has a code.
fn numeric_octet(one: &NumericOperator) -> u8 {
    let flags =
        u8::from(one.less_than) << 2 | u8::from(one.greater_than) << 1 | u8::from(one.equal);
    shared_bits(one.end_of_list, one.and_with_next, one.value_length) | flags
}

fn bitmask_octet(one: &BitmaskOperator) -> u8 {
    let flags = u8::from(one.not) << 1 | u8::from(one.match_flag);
    shared_bits(one.end_of_list, one.and_with_next, one.value_length) | flags
}

fn shared_bits(end: bool, and: bool, width: u8) -> u8 {
    u8::from(end) << 7 | u8::from(and) << 6 | (width.trailing_zeros() as u8 & 3) << 4
}

#[cfg(test)]
mod tests {
    use super::*;

    #[test]
    fn every_octet_and_every_width_is_as_the_archive_has_it() {
        for octet in 0..=255 {
            if let Ok(one) = NumericOperator::from_byte_and_value(octet, u64::MAX) {
                assert_eq!(
                    (numeric_of(octet, u64::MAX), numeric_octet(&one)),
                    (one, octet)
                );
            }
            if let Ok(one) = BitmaskOperator::from_byte_and_value(octet, u64::MAX) {
                assert_eq!(
                    (bitmask_of(octet, u64::MAX), bitmask_octet(&one)),
                    (one, octet)
                );
            }
            let written = surface::operator_write(octet % 2, 0, 0, octet, 0);
            assert_eq!(has_code(octet), written.status == 0);
        }
    }
}

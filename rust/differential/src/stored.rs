//! A rule as the proved code stores it: 64 words, its operators in two lists beside each other.
//!
//! Thirteen groups of four words hold the components, then come the count, the family (0 for a
//! plain rule), the place in the lists where the rule's operators begin, 1 and the distinguisher as
//! a number, its first octet the highest, or 0 and 0 where there is none, then seven words of 0. A
//! prefix: type + 16 x form, length + 256 x offset, and the address in two words, one of them for
//! IPv4. A list: type, start (counted from the rule's first place), count, 0. An unused group is 0.

use crate::{neutral, MOST_COMPONENTS, MOST_OPERATORS};
use oracle::flowspec::FlowSpecNlri;
use oracle::records;
use protocol::{words, Address, Component, Content, Operator, Prefix};
use standard::{Distinguisher, Flow, Rule};
use std::ops::Range;

pub use protocol::words::{IPV4, IPV4_OFFSET, IPV6, IPV6_OFFSET};

pub const WORDS: usize = 64;
/// Where the words after the components stand.
pub const COUNT: usize = 4 * MOST_COMPONENTS;
pub const FAMILY: usize = COUNT + 1;
pub const FIRST: usize = COUNT + 2;
/// Whether there is a distinguisher; the next word is the distinguisher.
pub const DISTINGUISHED: usize = COUNT + 3;
/// The words after that, which are 0.
pub const UNUSED: usize = COUNT + 5;

/// A rule's words with the lists that they speak of, which need not be equally long.
#[derive(Debug, Clone, PartialEq, Eq)]
pub struct Stored {
    pub words: Vec<u64>,
    pub values: Vec<u64>,
    pub octets: Vec<u8>,
}

impl Stored {
    /// A rule with no components.
    pub fn new(family: u64) -> Self {
        let mut stored = Stored {
            words: Vec::new(),
            values: Vec::new(),
            octets: Vec::new(),
        };
        stored.clear(family);
        stored
    }

    pub fn clear(&mut self, family: u64) {
        self.words.clear();
        self.words.resize(WORDS, 0);
        self.words[FAMILY] = family;
        self.values.clear();
        self.octets.clear();
    }

    pub fn count(&self) -> usize {
        self.words[COUNT] as usize
    }

    /// Adds a component's words. A fourteenth is only counted.
    pub fn push(&mut self, group: [u64; 4]) {
        let at = 4 * self.count();
        if at < COUNT {
            self.words[at..at + 4].copy_from_slice(&group);
        }
        self.words[COUNT] += 1;
    }

    /// Adds a prefix; an IPv4 address is the low 32 bits.
    pub fn push_prefix(&mut self, kind: u8, form: u64, length: u8, offset: u8, address: u128) {
        let (high, low) = match form {
            IPV4 | IPV4_OFFSET => (address as u64, 0),
            _ => ((address >> 64) as u64, address as u64),
        };
        let range = u64::from(length) + 256 * u64::from(offset);
        self.push([u64::from(kind) + 16 * form, range, high, low]);
    }

    /// Adds a list, its operators after those that are there.
    pub fn push_list(&mut self, kind: u8, operators: impl Iterator<Item = (u8, u64)>) {
        let start = self.values.len();
        for (octet, value) in operators {
            self.octets.push(octet);
            self.values.push(value);
        }
        let count = self.values.len() - start;
        let first = self.words[FIRST];
        self.push([u64::from(kind), start as u64 - first, count as u64, 0]);
    }

    /// Adds a component.
    fn push_component(&mut self, component: Component<impl Iterator<Item = Operator>>) {
        match component.content {
            Content::Prefix(prefix) => {
                let address = match prefix.address {
                    Address::Ipv4(address) => address.into(),
                    Address::Ipv6(address) => address,
                };
                let (form, offset) = (words::form(&prefix), prefix.offset.unwrap_or(0));
                self.push_prefix(component.kind, form, prefix.length, offset, address);
            }
            Content::List(list) => self.push_list(component.kind, list),
        }
    }

    /// Gives the rule this distinguisher, or none.
    pub fn put_distinguisher(&mut self, distinguisher: Option<Distinguisher>) {
        let words = distinguisher.map_or([0, 0], |octets| [1, u64::from_be_bytes(octets)]);
        self.words[DISTINGUISHED..UNUSED].copy_from_slice(&words);
    }

    /// Puts a rule of the original Rust in place of what is here.
    pub fn put_original(&mut self, rule: &FlowSpecNlri) {
        self.clear(0);
        for component in &rule.components {
            self.push_component(records::component(component));
        }
    }

    /// Puts a rule of the crate `standard` in place of what is here.
    pub fn put_standard(&mut self, family: u8, rule: &Rule) {
        self.clear(u64::from(family));
        self.push_rule(rule);
    }

    /// Adds the components of a rule, and gives it its distinguisher.
    pub fn push_rule(&mut self, rule: &Rule) {
        self.put_distinguisher(rule.distinguisher);
        for component in &rule.components {
            self.push_component(neutral::component(component));
        }
    }
}

/// The rule that the first 64 words name with lists, in the form that `standard` takes. Words that
/// name none stand as a rule of family 0, which whoever asks for a rule's family refuses alike.
pub fn flow(words: &[u64], values: &[u64], octets: &[u8]) -> Flow {
    let places = values.len().min(octets.len());
    match named(words, places) {
        Some(named) => Flow {
            family: words[FAMILY] as u8,
            rule: standard_rule(&named, values, octets),
        },
        None => Flow {
            family: 0,
            rule: Rule {
                distinguisher: None,
                components: Vec::new(),
            },
        },
    }
}

/// The rule that words name, its lists by their places in the lent ones.
pub struct Named {
    distinguisher: Option<Distinguisher>,
    parts: Vec<Part>,
}

type Part = Component<Range<usize>>;

/// The rule that words name in lists of so many places. Nothing where they are a BadRecord of every
/// writing: too few, no stored form, over a maximum, a prefix length over its address's, or
/// operators outside the lists. A list of no operators names none, wherever it starts.
pub fn named(words: &[u64], places: usize) -> Option<Named> {
    let words = words.get(..WORDS)?;
    if words[COUNT] > MOST_COMPONENTS as u64 || words[FAMILY] > 255 {
        return None;
    }
    let (used, unused) = words[..COUNT].split_at(4 * words[COUNT] as usize);
    let mut zeros = unused.iter().chain(&words[UNUSED..]);
    if zeros.any(|&word| word != 0) {
        return None;
    }
    let distinguisher = match words[DISTINGUISHED..UNUSED] {
        [0, 0] => None,
        [1, number] => Some(number.to_be_bytes()),
        _ => return None,
    };
    let groups = used.chunks(4);
    let parts = groups.map(|group| part(group, words[FIRST], places));
    let parts: Vec<Part> = parts.collect::<Option<_>>()?;
    // A count is at most `places`, so the sum is within a word.
    let operators: usize = parts.iter().map(operators_in).sum();
    let named = Named {
        distinguisher,
        parts,
    };
    Some(named).filter(|_| operators <= MOST_OPERATORS)
}

fn part(group: &[u64], first: u64, places: usize) -> Option<Part> {
    let (named, rest) = group.split_first()?;
    match (named % 16, named / 16, rest) {
        (kind @ (1 | 2), form @ 0..=3, &[range, high, low]) => {
            prefix(kind as u8, form, range, (high, low))
        }
        (kind @ 3..=13, 0, &[start, count, 0]) => list(kind as u8, start, count, first, places),
        _ => None,
    }
}

fn prefix(kind: u8, form: u64, range: u64, (high, low): (u64, u64)) -> Option<Part> {
    let (length, offset) = ((range % 256) as u8, range / 256);
    let offset = match form {
        IPV4 | IPV6 if offset == 0 => None,
        IPV4_OFFSET | IPV6_OFFSET => Some(u8::try_from(offset).ok()?),
        _ => return None,
    };
    let (address, longest) = match form {
        IPV4 | IPV4_OFFSET if low == 0 => (Address::Ipv4(u32::try_from(high).ok()?), 32),
        IPV6 | IPV6_OFFSET => (Address::Ipv6(u128::from(high) << 64 | u128::from(low)), 128),
        _ => return None,
    };
    let content = Content::Prefix(Prefix {
        address,
        length,
        offset,
    });
    Some(Component { kind, content }).filter(|_| length <= longest)
}

fn list(kind: u8, start: u64, count: u64, first: u64, places: usize) -> Option<Part> {
    let mut named = 0..0;
    if count != 0 {
        let from = first.checked_add(start)?;
        let end = from.checked_add(count)?;
        if end > places as u64 {
            return None;
        }
        named = from as usize..end as usize;
    }
    let content = Content::List(named);
    Some(Component { kind, content })
}

fn operators_in(part: &Part) -> usize {
    match &part.content {
        Content::Prefix(_) => 0,
        Content::List(places) => places.len(),
    }
}

/// A component with the operators at its places.
fn filled<'a>(
    part: &Part,
    values: &'a [u64],
    octets: &'a [u8],
) -> Component<impl Iterator<Item = Operator> + 'a> {
    part.clone().with_list(|places| {
        let octets = octets[places.clone()].iter().copied();
        octets.zip(values[places].iter().copied())
    })
}

/// The rule of the original Rust that has these components. It knows no distinguisher.
pub fn original(named: &Named, values: &[u64], octets: &[u8]) -> FlowSpecNlri {
    let component = |part| records::original(filled(part, values, octets));
    let components = named.parts.iter().map(component).collect::<Option<_>>();
    FlowSpecNlri::new(components.expect("types and lengths were tested"))
}

/// The rule in the form that the RFCs' writing takes.
pub fn standard_rule(named: &Named, values: &[u64], octets: &[u8]) -> Rule {
    let component = |part| neutral::standard(filled(part, values, octets));
    Rule {
        distinguisher: named.distinguisher,
        components: named.parts.iter().map(component).collect(),
    }
}

//! The four words that a component has on the surface of the proved code.
//!
//! A prefix: type + 16 x form, length + 256 x offset, and the address in two words, one of them for
//! IPv4. A list: type, start, count, 0.

use crate::rules::{Address, Component, Content, Prefix, Span};

/// The forms of a prefix.
pub const IPV4: u64 = 0;
pub const IPV6: u64 = 1;
pub const IPV4_OFFSET: u64 = 2;
pub const IPV6_OFFSET: u64 = 3;

/// Words of this form are no component.
const NO_FORM: u64 = 15;

/// The words of a component. One that no rule holds (a prefix of type 3, a list of type 14) has words
/// that are none, for the proved code to refuse.
pub fn of(component: &Component<Span>) -> [u64; 4] {
    let kind = component.kind;
    let (form, rest) = match component.content {
        Content::Prefix(prefix) => {
            let form = if matches!(kind, 1 | 2) {
                form(&prefix)
            } else {
                NO_FORM
            };
            let offset = u64::from(prefix.offset.unwrap_or(0));
            let (high, low) = match prefix.address {
                Address::Ipv4(address) => (address.into(), 0),
                Address::Ipv6(address) => ((address >> 64) as u64, address as u64),
            };
            (form, [u64::from(prefix.length) + 256 * offset, high, low])
        }
        Content::List((start, count)) => {
            let form = if matches!(kind, 3..=13) { 0 } else { NO_FORM };
            (form, [start, count, 0])
        }
    };
    let [range, high, low] = rest;
    [u64::from(kind % 16) + 16 * form, range, high, low]
}

/// The form of a prefix.
pub fn form(prefix: &Prefix) -> u64 {
    match (prefix.address, prefix.offset) {
        (Address::Ipv4(_), None) => IPV4,
        (Address::Ipv6(_), None) => IPV6,
        (Address::Ipv4(_), Some(_)) => IPV4_OFFSET,
        (Address::Ipv6(_), Some(_)) => IPV6_OFFSET,
    }
}

/// The component that four words name; they must be those of one.
pub fn component(words: &[u64]) -> Component<Span> {
    let (kind, form) = ((words[0] % 16) as u8, words[0] / 16);
    let content = match kind {
        1 | 2 => Content::Prefix(Prefix {
            address: match form {
                IPV4 | IPV4_OFFSET => Address::Ipv4(words[2] as u32),
                _ => Address::Ipv6(u128::from(words[2]) << 64 | u128::from(words[3])),
            },
            length: (words[1] % 256) as u8,
            offset: match form {
                IPV4 | IPV6 => None,
                _ => Some((words[1] / 256) as u8),
            },
        }),
        _ => Content::List((words[1], words[2])),
    };
    Component { kind, content }
}

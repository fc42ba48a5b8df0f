//! The original's records, made of components that are nobody's own, and taken apart into those.

use crate::flowspec::{BitmaskOperator, FlowSpecComponent, NumericOperator};
use crate::NetworkPrefix;
use ipnet::{IpNet, Ipv4Net, Ipv6Net};
use protocol::{Address, Component, Content, Operator, Prefix};
use std::net::IpAddr;
use std::slice::Iter;

/// The original's component, if it can hold this one: a prefix of type 1 or 2 and a length within its
/// address, or a list of type 3 to 13. An operator may have any octet.
pub fn original(component: Component<impl Iterator<Item = Operator>>) -> Option<FlowSpecComponent> {
    match component.content {
        Content::Prefix(prefix) => original_prefix(component.kind, prefix),
        Content::List(list) => original_list(component.kind, list),
    }
}

fn original_prefix(kind: u8, prefix: Prefix) -> Option<FlowSpecComponent> {
    let net = match prefix.address {
        Address::Ipv4(address) => Ipv4Net::new(address.into(), prefix.length).map(IpNet::V4),
        Address::Ipv6(address) => Ipv6Net::new(address.into(), prefix.length).map(IpNet::V6),
    };
    let (offset, prefix) = (prefix.offset, NetworkPrefix::new(net.ok()?, None));
    Some(match (kind, offset) {
        (1, None) => FlowSpecComponent::DestinationPrefix(prefix),
        (1, Some(offset)) => FlowSpecComponent::DestinationIpv6Prefix { offset, prefix },
        (2, None) => FlowSpecComponent::SourcePrefix(prefix),
        (2, Some(offset)) => FlowSpecComponent::SourceIpv6Prefix { offset, prefix },
        _ => return None,
    })
}

fn original_list(kind: u8, list: impl Iterator<Item = Operator>) -> Option<FlowSpecComponent> {
    Some(match kind {
        3 => FlowSpecComponent::IpProtocol(numeric(list)),
        4 => FlowSpecComponent::Port(numeric(list)),
        5 => FlowSpecComponent::DestinationPort(numeric(list)),
        6 => FlowSpecComponent::SourcePort(numeric(list)),
        7 => FlowSpecComponent::IcmpType(numeric(list)),
        8 => FlowSpecComponent::IcmpCode(numeric(list)),
        9 => FlowSpecComponent::TcpFlags(bitmask(list)),
        10 => FlowSpecComponent::PacketLength(numeric(list)),
        11 => FlowSpecComponent::Dscp(numeric(list)),
        12 => FlowSpecComponent::Fragment(bitmask(list)),
        13 => FlowSpecComponent::FlowLabel(numeric(list)),
        _ => return None,
    })
}

/// The records whose flags and widths stand in octets. Unlike `from_byte_and_value` this takes every
/// octet: any record that the original can hold with one of four widths can then be asked for.
fn numeric(list: impl Iterator<Item = Operator>) -> Vec<NumericOperator> {
    let record = |(octet, value): Operator| NumericOperator {
        end_of_list: octet & 0x80 != 0,
        and_with_next: octet & 0x40 != 0,
        value_length: width(octet),
        less_than: octet & 0x04 != 0,
        greater_than: octet & 0x02 != 0,
        equal: octet & 0x01 != 0,
        value,
    };
    list.map(record).collect()
}

/// As `numeric`, for bitmask operators.
fn bitmask(list: impl Iterator<Item = Operator>) -> Vec<BitmaskOperator> {
    let record = |(octet, bitmask): Operator| BitmaskOperator {
        end_of_list: octet & 0x80 != 0,
        and_with_next: octet & 0x40 != 0,
        value_length: width(octet),
        not: octet & 0x02 != 0,
        match_flag: octet & 0x01 != 0,
        bitmask,
    };
    list.map(record).collect()
}

/// The width in octets that an operator octet names.
pub fn width(octet: u8) -> u8 {
    1 << (octet >> 4 & 0x03)
}

/// The operators of a list of the original's.
pub enum Operators<'a> {
    Numeric(Iter<'a, NumericOperator>),
    Bitmask(Iter<'a, BitmaskOperator>),
}

impl Iterator for Operators<'_> {
    type Item = Operator;

    fn next(&mut self) -> Option<Operator> {
        match self {
            Operators::Numeric(list) => list.next().map(|one| (one.to_byte(), one.value)),
            Operators::Bitmask(list) => list.next().map(|one| (one.to_byte(), one.bitmask)),
        }
    }
}

/// What a component of the original's holds.
pub fn component(original: &FlowSpecComponent) -> Component<Operators<'_>> {
    use FlowSpecComponent::*;
    let content = match original {
        DestinationPrefix(prefix) | SourcePrefix(prefix) => Content::Prefix(held(prefix, None)),
        DestinationIpv6Prefix { offset, prefix } | SourceIpv6Prefix { offset, prefix } => {
            Content::Prefix(held(prefix, Some(*offset)))
        }
        IpProtocol(list)
        | Port(list)
        | DestinationPort(list)
        | SourcePort(list)
        | IcmpType(list)
        | IcmpCode(list)
        | PacketLength(list)
        | Dscp(list)
        | FlowLabel(list) => Content::List(Operators::Numeric(list.iter())),
        TcpFlags(list) | Fragment(list) => Content::List(Operators::Bitmask(list.iter())),
    };
    Component {
        kind: original.component_type(),
        content,
    }
}

fn held(prefix: &NetworkPrefix, offset: Option<u8>) -> Prefix {
    let address = match prefix.prefix.addr() {
        IpAddr::V4(address) => Address::Ipv4(address.into()),
        IpAddr::V6(address) => Address::Ipv6(address.into()),
    };
    Prefix {
        address,
        length: prefix.prefix.prefix_len(),
        offset,
    }
}

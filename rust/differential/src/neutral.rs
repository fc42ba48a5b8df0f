//! Rules and packets of the crate `standard` in the form of the crate `protocol`, and rules back.

use protocol::{Address, Content};
use standard::{Component, Packet};

/// What a component of `standard` holds.
pub fn component(
    component: &Component,
) -> protocol::Component<impl Iterator<Item = protocol::Operator> + '_> {
    let content = match &component.content {
        standard::Content::Prefix(prefix) => Content::Prefix(protocol::Prefix {
            address: match prefix.address {
                standard::Address::Ipv4(address) => Address::Ipv4(address),
                standard::Address::Ipv6(address) => Address::Ipv6(address),
            },
            length: prefix.length,
            offset: prefix.offset,
        }),
        standard::Content::List(list) => {
            Content::List(list.iter().map(|one| (one.octet, one.value)))
        }
    };
    protocol::Component {
        kind: component.kind,
        content,
    }
}

/// The component of `standard` that holds this.
pub fn standard(
    component: protocol::Component<impl Iterator<Item = protocol::Operator>>,
) -> Component {
    let content = match component.content {
        Content::Prefix(prefix) => standard::Content::Prefix(standard::Prefix {
            address: match prefix.address {
                Address::Ipv4(address) => standard::Address::Ipv4(address),
                Address::Ipv6(address) => standard::Address::Ipv6(address),
            },
            length: prefix.length,
            offset: prefix.offset,
        }),
        Content::List(list) => {
            let operators = list.map(|(octet, value)| standard::Operator { octet, value });
            standard::Content::List(operators.collect())
        }
    };
    Component {
        kind: component.kind,
        content,
    }
}

/// What a packet of `standard` holds.
pub fn packet(packet: &Packet) -> protocol::Packet {
    protocol::Packet {
        family: packet.family,
        source: packet.source,
        destination: packet.destination,
        protocol: packet.protocol,
        length: packet.length,
        dscp: packet.dscp,
        fragment: packet.fragment,
        ports: packet.ports,
        icmp: packet.icmp,
        flags: packet.flags,
        label: packet.label,
    }
}

//! Rules and packets from short texts.

// Each test program has its own copy, and none uses all of it.
#![allow(dead_code, unused_imports)]

pub use inputs::octets;
use standard::{read, Address, Component, Content, Flow, Operator, Packet, Prefix, Rule};

pub fn rule(components: &[Component]) -> Rule {
    Rule {
        distinguisher: None,
        components: components.to_vec(),
    }
}

pub fn ipv4(kind: u8, address: u32, length: u8) -> Component {
    let prefix = Prefix {
        address: Address::Ipv4(address),
        length,
        offset: None,
    };
    Component {
        kind,
        content: Content::Prefix(prefix),
    }
}

pub fn ipv6(kind: u8, address: u128, length: u8, offset: u8) -> Component {
    let prefix = Prefix {
        address: Address::Ipv6(address),
        length,
        offset: Some(offset),
    };
    Component {
        kind,
        content: Content::Prefix(prefix),
    }
}

pub fn list(kind: u8, pairs: &[(u8, u64)]) -> Component {
    let operators = pairs.iter();
    let operators = operators.map(|&(octet, value)| Operator { octet, value });
    Component {
        kind,
        content: Content::List(operators.collect()),
    }
}

/// The rule that octets read as, all of them.
pub fn flow(family: u8, text: &str) -> Flow {
    let octets = octets(text);
    let reading = read(family, &octets).expect("accepted");
    assert_eq!(reading.used, octets.len(), "{text}");
    let rule = reading.rule;
    Flow { family, rule }
}

/// A packet of this family that has no field which may be absent, its numbers all 0.
pub fn packet(family: u64) -> Packet {
    Packet {
        family,
        destination: 0,
        source: 0,
        protocol: 0,
        length: 0,
        dscp: 0,
        fragment: 0,
        ports: None,
        icmp: None,
        flags: None,
        label: None,
    }
}

/// As `packet`, to this IPv4 address.
pub fn packet_to(address: [u8; 4]) -> Packet {
    Packet {
        destination: u32::from_be_bytes(address).into(),
        ..packet(4)
    }
}

/// As `packet`, with these source and destination ports.
pub fn packet_with_ports(family: u64, source: u64, destination: u64) -> Packet {
    Packet {
        ports: Some((source, destination)),
        ..packet(family)
    }
}

//! A rule, and what it is made of.

/// How many octets a route distinguisher has.
pub const DISTINGUISHER_OCTETS: usize = 8;
/// A route distinguisher. Octets of 0 alone are one too.
pub type Distinguisher = [u8; DISTINGUISHER_OCTETS];

/// A rule: the distinguisher of the virtual network that it is for, if it is for one (RFC 8955, 8),
/// and its components, in order.
#[derive(Debug, Clone, PartialEq, Eq)]
pub struct Rule {
    pub distinguisher: Option<Distinguisher>,
    pub components: Vec<Component>,
}

/// A rule with the family that it is of, 4 or 6; with any other number it is a BadRecord.
#[derive(Debug, Clone, PartialEq, Eq)]
pub struct Flow {
    pub family: u8,
    pub rule: Rule,
}

/// A component: its type octet and what follows it (RFC 8955, 4.2).
#[derive(Debug, Clone, PartialEq, Eq)]
pub struct Component {
    pub kind: u8,
    pub content: Content,
}

#[derive(Debug, Clone, PartialEq, Eq)]
pub enum Content {
    Prefix(Prefix),
    List(Vec<Operator>),
}

/// An address with a length, and with an offset where it has that form. A record can hold forms
/// that neither family has; the writing refuses them.
#[derive(Debug, Clone, PartialEq, Eq)]
pub struct Prefix {
    pub address: Address,
    pub length: u8,
    pub offset: Option<u8>,
}

#[derive(Debug, Clone, Copy, PartialEq, Eq)]
pub enum Address {
    Ipv4(u32),
    Ipv6(u128),
}

/// An operator octet with its value.
#[derive(Debug, Clone, Copy, PartialEq, Eq)]
pub struct Operator {
    pub octet: u8,
    pub value: u64,
}

//! A rule, its components and its prefixes as the original has them.

use crate::operators::{BitmaskOperator, NumericOperator};
use ipnet::{AddrParseError, IpNet};
use std::fmt::{self, Display, Formatter};
use std::net::Ipv4Addr;
use std::str::FromStr;

/// A prefix with the path id of ADD-PATH, which FlowSpec does not use: a reading leaves it `None`, a writing does not look at it.
///
/// ```
/// use krubbadin::NetworkPrefix;
///
/// let prefix: NetworkPrefix = "192.0.2.0/24".parse().unwrap();
/// assert_eq!(prefix, NetworkPrefix::new("192.0.2.0/24".parse().unwrap(), None));
/// assert_eq!(prefix.to_string(), "192.0.2.0/24");
/// ```
#[derive(Debug, Clone, Copy, PartialEq, Eq, Hash)]
pub struct NetworkPrefix {
    /// The prefix itself, with the host bits that it was given.
    pub prefix: IpNet,
    /// The path id.
    pub path_id: Option<u32>,
}

impl NetworkPrefix {
    /// A prefix with a path id or without one.
    ///
    /// ```
    /// use krubbadin::NetworkPrefix;
    /// let prefix = NetworkPrefix::new("2001:db8::/32".parse().unwrap(), None);
    /// assert_eq!(prefix.prefix.prefix_len(), 32);
    /// ```
    pub fn new(prefix: IpNet, path_id: Option<u32>) -> Self {
        NetworkPrefix { prefix, path_id }
    }
}

impl From<IpNet> for NetworkPrefix {
    fn from(prefix: IpNet) -> Self {
        NetworkPrefix::new(prefix, None)
    }
}

impl FromStr for NetworkPrefix {
    type Err = AddrParseError;

    fn from_str(text: &str) -> Result<Self, AddrParseError> {
        text.parse().map(|prefix: IpNet| prefix.into())
    }
}

impl Display for NetworkPrefix {
    fn fmt(&self, f: &mut Formatter<'_>) -> fmt::Result {
        self.prefix.fmt(f)
    }
}

/// A rule: its components in order, and its route distinguisher if it is a rule of a virtual network.
///
/// [`FlowSpecNlri::new`] makes one without a distinguisher. The original has the components alone, so that a struct literal written for it
/// needs `distinguisher: None` beside them.
///
/// ```
/// use krubbadin::{FlowSpecComponent, FlowSpecNlri, NumericOperator};
///
/// let rule = FlowSpecNlri::new(vec![
///     FlowSpecComponent::DestinationPrefix("192.0.2.0/24".parse().unwrap()),
///     FlowSpecComponent::IpProtocol(vec![NumericOperator::equal_to(6)]),
/// ]);
/// assert_eq!(rule.components().len(), 2);
/// ```
#[derive(Clone, PartialEq, Eq)]
pub struct FlowSpecNlri {
    /// The components.
    pub components: Vec<FlowSpecComponent>,
    /// The route distinguisher, which rules of virtual networks have (RFC 8955, 8). [`RouteDistinguisher`] prints it. It plays no part in
    /// matching or in rank, and the plain writing does not look at it.
    pub distinguisher: Option<[u8; 8]>,
}

/// As the original prints it where there is no distinguisher, which it does not know.
///
/// ```
/// use krubbadin::FlowSpecNlri;
///
/// let rule = FlowSpecNlri::new(vec![]);
/// assert_eq!(format!("{rule:?}"), "FlowSpecNlri { components: [] }");
/// let rule = rule.with_distinguisher([0, 0, 0, 1, 0, 0, 0, 2]);
/// assert_eq!(format!("{rule:?}"), "FlowSpecNlri { components: [], distinguisher: [0, 0, 0, 1, 0, 0, 0, 2] }");
/// ```
impl fmt::Debug for FlowSpecNlri {
    fn fmt(&self, f: &mut Formatter<'_>) -> fmt::Result {
        let mut rule = f.debug_struct("FlowSpecNlri");
        rule.field("components", &self.components);
        if let Some(distinguisher) = &self.distinguisher {
            rule.field("distinguisher", distinguisher);
        }
        rule.finish()
    }
}

/// The route distinguisher of a rule, which tells the virtual network that announced it (RFC 4364, 4.2): a type of two octets and a value
/// of six.
///
/// It prints as `type:administrator:number`. In type 0 the administrator is an AS number of two octets, in type 1 an IPv4 address, in type 2
/// an AS number of four octets. Of another type the six octets are printed in hexadecimal.
///
/// ```
/// use krubbadin::RouteDistinguisher;
///
/// assert_eq!(RouteDistinguisher([0, 0, 0xFB, 0xF0, 0, 0, 0, 7]).to_string(), "0:64496:7");
/// assert_eq!(RouteDistinguisher([0, 1, 192, 0, 2, 1, 0, 7]).to_string(), "1:192.0.2.1:7");
/// assert_eq!(RouteDistinguisher([0, 2, 0, 1, 0, 0, 0, 7]).to_string(), "2:65536:7");
/// assert_eq!(RouteDistinguisher([0, 3, 0, 0, 0, 0, 0x0A, 0xFF]).to_string(), "3:000000000AFF");
/// ```
#[derive(Debug, Clone, Copy, PartialEq, Eq, Hash, PartialOrd, Ord)]
pub struct RouteDistinguisher(
    /// The eight octets, as they stand in an NLRI.
    pub [u8; 8],
);

/// ```
/// use krubbadin::RouteDistinguisher;
/// assert_eq!(RouteDistinguisher::from([0, 0, 0, 1, 0, 0, 0, 2]).to_string(), "0:1:2");
/// ```
impl From<[u8; 8]> for RouteDistinguisher {
    fn from(octets: [u8; 8]) -> Self {
        RouteDistinguisher(octets)
    }
}

impl Display for RouteDistinguisher {
    fn fmt(&self, f: &mut Formatter<'_>) -> fmt::Result {
        let bits = u64::from_be_bytes(self.0);
        let (kind, value) = (bits >> 48, bits & 0xFFFF_FFFF_FFFF);
        let (front, number) = (value >> 16, value & 0xFFFF);
        match kind {
            0 => write!(f, "0:{}:{}", value >> 32, value & 0xFFFF_FFFF),
            1 => write!(f, "1:{}:{number}", Ipv4Addr::from(front as u32)),
            2 => write!(f, "2:{front}:{number}"),
            _ => write!(f, "{kind}:{value:012X}"),
        }
    }
}

/// A component of a rule.
///
/// ```
/// use krubbadin::{BitmaskOperator, FlowSpecComponent};
///
/// let syn = FlowSpecComponent::TcpFlags(vec![BitmaskOperator::partial_match(0x02)]);
/// assert_eq!(syn.component_type(), 9);
/// assert!(syn.uses_bitmask_operators());
/// ```
#[derive(Debug, Clone, PartialEq, Eq)]
pub enum FlowSpecComponent {
    /// Type 1, the destination's prefix.
    DestinationPrefix(NetworkPrefix),
    /// Type 2, the source's prefix.
    SourcePrefix(NetworkPrefix),
    /// Type 3, the protocol.
    IpProtocol(Vec<NumericOperator>),
    /// Type 4, the source port or the destination port.
    Port(Vec<NumericOperator>),
    /// Type 5, the destination port.
    DestinationPort(Vec<NumericOperator>),
    /// Type 6, the source port.
    SourcePort(Vec<NumericOperator>),
    /// Type 7, the ICMP or ICMPv6 type.
    IcmpType(Vec<NumericOperator>),
    /// Type 8, the ICMP or ICMPv6 code.
    IcmpCode(Vec<NumericOperator>),
    /// Type 9, the TCP flags.
    TcpFlags(Vec<BitmaskOperator>),
    /// Type 10, the packet's length.
    PacketLength(Vec<NumericOperator>),
    /// Type 11, the DSCP.
    Dscp(Vec<NumericOperator>),
    /// Type 12, the fragment bits.
    Fragment(Vec<BitmaskOperator>),
    /// Type 13, the flow label of IPv6.
    FlowLabel(Vec<NumericOperator>),
    /// Type 1 with an offset, as the standard reading gives a prefix of IPv6.
    DestinationIpv6Prefix {
        /// The address bits before it are not looked at.
        offset: u8,
        /// The prefix.
        prefix: NetworkPrefix,
    },
    /// Type 2 with an offset, as the standard reading gives a prefix of IPv6.
    SourceIpv6Prefix {
        /// The address bits before it are not looked at.
        offset: u8,
        /// The prefix.
        prefix: NetworkPrefix,
    },
}

impl FlowSpecComponent {
    /// The component's type, 1 to 13.
    ///
    /// ```
    /// use krubbadin::FlowSpecComponent;
    /// assert_eq!(FlowSpecComponent::FlowLabel(vec![]).component_type(), 13);
    /// ```
    pub const fn component_type(&self) -> u8 {
        match self {
            FlowSpecComponent::DestinationPrefix(_)
            | FlowSpecComponent::DestinationIpv6Prefix { .. } => 1,
            FlowSpecComponent::SourcePrefix(_) | FlowSpecComponent::SourceIpv6Prefix { .. } => 2,
            FlowSpecComponent::IpProtocol(_) => 3,
            FlowSpecComponent::Port(_) => 4,
            FlowSpecComponent::DestinationPort(_) => 5,
            FlowSpecComponent::SourcePort(_) => 6,
            FlowSpecComponent::IcmpType(_) => 7,
            FlowSpecComponent::IcmpCode(_) => 8,
            FlowSpecComponent::TcpFlags(_) => 9,
            FlowSpecComponent::PacketLength(_) => 10,
            FlowSpecComponent::Dscp(_) => 11,
            FlowSpecComponent::Fragment(_) => 12,
            FlowSpecComponent::FlowLabel(_) => 13,
        }
    }

    /// Whether its operators are numeric.
    ///
    /// ```
    /// use krubbadin::FlowSpecComponent;
    /// assert!(FlowSpecComponent::Port(vec![]).uses_numeric_operators());
    /// ```
    pub const fn uses_numeric_operators(&self) -> bool {
        self.component_type() > 2 && !self.uses_bitmask_operators()
    }

    /// Whether its operators are bitmasks.
    ///
    /// ```
    /// use krubbadin::FlowSpecComponent;
    /// assert!(FlowSpecComponent::Fragment(vec![]).uses_bitmask_operators());
    /// ```
    pub const fn uses_bitmask_operators(&self) -> bool {
        matches!(self.component_type(), 9 | 12)
    }
}

impl FlowSpecNlri {
    /// A rule of these components, without a distinguisher.
    ///
    /// ```
    /// let rule = krubbadin::FlowSpecNlri::new(vec![]);
    /// assert!(rule.components.is_empty() && rule.distinguisher.is_none());
    /// ```
    pub fn new(components: Vec<FlowSpecComponent>) -> Self {
        FlowSpecNlri {
            components,
            distinguisher: None,
        }
    }

    /// The same rule in the virtual network of this distinguisher.
    ///
    /// ```
    /// use krubbadin::{write, Family, FlowSpecComponent, FlowSpecNlri};
    ///
    /// let rule = FlowSpecNlri::new(vec![FlowSpecComponent::DestinationPrefix("10.0.0.0/8".parse().unwrap())]);
    /// let rule = rule.with_distinguisher([0, 0, 0xFB, 0xF0, 0, 0, 0, 7]);
    /// assert_eq!(rule.to_string(), "distinguisher 0:64496:7; destination 10.0.0.0/8");
    /// assert_eq!(write(Family::Ipv4, &rule).unwrap(), [0x0B, 0, 0, 0xFB, 0xF0, 0, 0, 0, 7, 0x01, 0x08, 0x0A]);
    /// ```
    pub fn with_distinguisher(self, distinguisher: [u8; 8]) -> Self {
        FlowSpecNlri {
            distinguisher: Some(distinguisher),
            ..self
        }
    }

    /// Its components.
    ///
    /// ```
    /// use krubbadin::{FlowSpecComponent, FlowSpecNlri};
    /// let rule = FlowSpecNlri::new(vec![FlowSpecComponent::Port(vec![])]);
    /// assert_eq!(rule.components()[0].component_type(), 4);
    /// ```
    pub fn components(&self) -> &[FlowSpecComponent] {
        &self.components
    }

    /// Whether it has a prefix of IPv4 without an offset.
    ///
    /// ```
    /// use krubbadin::{FlowSpecComponent, FlowSpecNlri};
    /// let rule = FlowSpecNlri::new(vec![FlowSpecComponent::SourcePrefix("10.0.0.0/8".parse().unwrap())]);
    /// assert!(rule.is_ipv4() && !rule.is_ipv6());
    /// ```
    pub fn is_ipv4(&self) -> bool {
        self.has_prefix(|prefix| matches!(prefix, IpNet::V4(_)))
    }

    /// Whether it has a prefix of IPv6, a prefix with an offset, or a flow label.
    ///
    /// ```
    /// use krubbadin::{FlowSpecComponent, FlowSpecNlri};
    /// let rule = FlowSpecNlri::new(vec![FlowSpecComponent::FlowLabel(vec![])]);
    /// assert!(rule.is_ipv6() && !rule.is_ipv4());
    /// ```
    pub fn is_ipv6(&self) -> bool {
        let tells = |component: &FlowSpecComponent| {
            matches!(
                component,
                FlowSpecComponent::DestinationIpv6Prefix { .. }
                    | FlowSpecComponent::SourceIpv6Prefix { .. }
                    | FlowSpecComponent::FlowLabel(_)
            )
        };
        self.has_prefix(|prefix| matches!(prefix, IpNet::V6(_)))
            || self.components.iter().any(tells)
    }

    fn has_prefix(&self, is: fn(&IpNet) -> bool) -> bool {
        self.components.iter().any(|component| match component {
            FlowSpecComponent::DestinationPrefix(prefix)
            | FlowSpecComponent::SourcePrefix(prefix) => is(&prefix.prefix),
            _ => false,
        })
    }
}

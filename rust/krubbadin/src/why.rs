//! Why a rule is no record and a packet is out of range. The archive is asked again, about parts of what it refused, so that what is named
//! is what it refuses; which of a part's numbers it is, is looked up in the part.

use crate::packet::Packet;
use crate::rules::FlowSpecNlri;
use crate::standard::Family;
use crate::stored::{list_of, with_rule, COMPONENTS};
use crate::surface::{
    self, COUNT, DISTINGUISHED, DISTINGUISHER, FAMILY, FIRST, OPERATORS, PACKET, STANDARD, WORDS,
};
use std::fmt::{self, Display, Formatter};

/// Why a rule is refused as [`BadRecord`](crate::Reason::BadRecord): the first ground that is met, component by component. Places are
/// counted from 0. `Display` says it in words. More may join it.
///
/// ```
/// use krubbadin::{why, Family, FlowSpecComponent, FlowSpecNlri, Ground};
///
/// let rule = FlowSpecNlri::new(vec![FlowSpecComponent::IpProtocol(vec![])]);
/// let ground = why(Family::Ipv4, &rule).unwrap();
/// assert_eq!(ground, Ground::EmptyList { component: 0 });
/// assert_eq!(ground.to_string(), "component 0 is a list without operators");
/// ```
#[derive(Debug, Clone, Copy, PartialEq, Eq, Hash)]
#[non_exhaustive]
pub enum Ground {
    /// The rule is of no family; 4 and 6 are.
    Family(u64),
    /// Fewer than 64 words were lent.
    Words(usize),
    /// This word of the 64 is none that a rule has there.
    Word(usize),
    /// This word of the two of a distinguisher is wrong: 55, which says whether there is one, is neither 0 nor 1; or 56, its bits, is not 0
    /// where there is none.
    Distinguisher(usize),
    /// It has this many components, and 13 is the most.
    Components(u64),
    /// It has this many operators, and 2,047 is the most.
    Operators(u64),
    /// Its body has this many octets, the distinguisher's among them, and 4,095 is the most. [`write()`](crate::write()) tells it as
    /// [`ValueTooLarge`](crate::Reason::ValueTooLarge), the other calls as `BadRecord`.
    Octets(usize),
    /// A type does not follow the one before it.
    Order {
        /// The component's place.
        component: usize,
        /// The type before it.
        before: u8,
        /// Its type.
        found: u8,
    },
    /// A type that there is not, or not in this family.
    Type {
        /// The component's place.
        component: usize,
        /// Its type.
        found: u8,
    },
    /// A prefix that is not of its family's form: in family 4 an IPv4 address without an offset, in family 6 an IPv6 address with one.
    Form {
        /// The component's place.
        component: usize,
        /// The family that is asked for.
        family: u8,
    },
    /// A prefix whose length or offset is out of range.
    Range {
        /// The component's place.
        component: usize,
        /// The offset.
        offset: u8,
        /// The length.
        length: u8,
    },
    /// A prefix with address bits outside its range.
    Bits {
        /// The component's place.
        component: usize,
    },
    /// A list without operators.
    EmptyList {
        /// The component's place.
        component: usize,
    },
    /// A list that is not within the lent ones.
    Outside {
        /// The component's place.
        component: usize,
    },
    /// The last operator of a list has no end mark.
    NoEnd {
        /// The component's place.
        component: usize,
    },
    /// An operator that is not the last of its list has an end mark.
    EarlyEnd {
        /// The component's place.
        component: usize,
        /// The operator's place in its list.
        operator: usize,
    },
    /// The first operator of a list has AND, and nothing comes before it.
    FirstAnd {
        /// The component's place.
        component: usize,
    },
    /// A value is too large for its width.
    Value {
        /// The component's place.
        component: usize,
        /// The operator's place in its list.
        operator: usize,
        /// The octets of its value.
        width: u8,
    },
    /// A value has more octets than its type takes by the standard: TCP flags take 1 or 2, DSCP values and fragment bits 1.
    TooWide {
        /// The component's place.
        component: usize,
        /// The operator's place in its list.
        operator: usize,
        /// The octets of its value.
        width: u8,
        /// The most octets that its type takes.
        most: u8,
    },
    /// A width that is not 1, 2, 4 or 8.
    Width {
        /// The component's place.
        component: usize,
        /// The width.
        width: u8,
    },
}

impl Display for Ground {
    fn fmt(&self, f: &mut Formatter<'_>) -> fmt::Result {
        match self {
            Ground::Family(family) => {
                write!(f, "its family is {family}, and only 4 and 6 are families")
            }
            Ground::Words(count) => write!(f, "it has {count} words, and a rule has 64"),
            Ground::Word(at) => write!(f, "word {at} is none that a rule has there"),
            Ground::Distinguisher(DISTINGUISHED) => {
                write!(
                    f,
                    "word 55 says whether it has a distinguisher, and is neither 0 nor 1"
                )
            }
            Ground::Distinguisher(at) => {
                write!(
                    f,
                    "word {at} has bits of a distinguisher, and there is none"
                )
            }
            Ground::Components(count) => write!(f, "it has {count} components, and 13 is the most"),
            Ground::Operators(count) => write!(f, "it has {count} operators, and 2047 is the most"),
            Ground::Octets(count) => write!(f, "its body has {count} octets, and 4095 is the most"),
            Ground::Order {
                component,
                before,
                found,
            } => {
                write!(f, "component {component} has type {found} after type {before}, and types must rise")
            }
            Ground::Type {
                component,
                found: 13,
            } => {
                write!(f, "component {component} has type 13, the flow label, which is not in IPv4 (RFC 8956)")
            }
            Ground::Type { component, found } => {
                write!(
                    f,
                    "component {component} has type {found}, and types are 1 to 13"
                )
            }
            Ground::Form {
                component,
                family: 4,
            } => {
                write!(
                    f,
                    "component {component} is no prefix of IPv4, an IPv4 address without an offset"
                )
            }
            Ground::Form { component, .. } => {
                write!(
                    f,
                    "component {component} is no prefix of IPv6, an IPv6 address with an offset"
                )
            }
            Ground::Range {
                component,
                offset,
                length,
            } => {
                write!(f, "component {component} is a prefix with length {length} and offset {offset}, which is out of range")
            }
            Ground::Bits { component } => {
                write!(
                    f,
                    "component {component} is a prefix with address bits outside its range"
                )
            }
            Ground::EmptyList { component } => {
                write!(f, "component {component} is a list without operators")
            }
            Ground::Outside { component } => {
                write!(
                    f,
                    "component {component} names operators outside the lent lists"
                )
            }
            Ground::NoEnd { component } => {
                write!(
                    f,
                    "component {component} is a list whose last operator has no end mark"
                )
            }
            Ground::EarlyEnd {
                component,
                operator,
            } => {
                write!(f, "component {component} is a list with an end mark on operator {operator}, which is not its last")
            }
            Ground::FirstAnd { component } => {
                write!(
                    f,
                    "component {component} is a list with AND on its first operator"
                )
            }
            Ground::Value {
                component,
                operator,
                width: 1,
            } => {
                write!(f, "component {component} has a value at operator {operator} that does not fit 1 octet")
            }
            Ground::Value {
                component,
                operator,
                width,
            } => {
                write!(f, "component {component} has a value at operator {operator} that does not fit {width} octets")
            }
            Ground::TooWide {
                component,
                operator,
                width,
                most,
            } => {
                write!(f, "component {component} has a value of {width} octets at operator {operator}, and {most} is the most in its type")
            }
            Ground::Width { component, width } => {
                write!(f, "component {component} has a value of {width} octets, and 1, 2, 4 and 8 are the widths")
            }
        }
    }
}

/// Why a rule is no record of a family, where it is none: why [`write()`](crate::write()), [`matches()`](crate::matches()),
/// [`rank`](crate::rank) and [`Table::push`](crate::Table::push) refuse it.
///
/// ```
/// use krubbadin::{why, write, Family, FlowSpecComponent, FlowSpecNlri, Reason};
///
/// let rule = FlowSpecNlri::new(vec![FlowSpecComponent::DestinationPrefix("10.0.0.1/8".parse().unwrap())]);
/// assert_eq!(write(Family::Ipv4, &rule).unwrap_err().reason(), Reason::BadRecord);
/// let ground = why(Family::Ipv4, &rule).unwrap();
/// assert_eq!(ground.to_string(), "component 0 is a prefix with address bits outside its range");
/// let good = FlowSpecNlri::new(vec![FlowSpecComponent::DestinationPrefix("10.0.0.0/8".parse().unwrap())]);
/// assert_eq!(why(Family::Ipv4, &good), None);
/// ```
pub fn why(family: Family, rule: &FlowSpecNlri) -> Option<Ground> {
    why_owned(STANDARD, family.number(), rule)
}

/// The same of either writing.
pub(crate) fn why_owned(standard: u8, family: u8, rule: &FlowSpecNlri) -> Option<Ground> {
    let asked = with_rule(family, rule, |words, values, octets| {
        why_rule(standard, family, words, values, octets)
    });
    asked.unwrap_or_else(|_| odd_width(rule))
}

/// The ground that only an owned rule can have: its operators' widths need no code.
fn odd_width(rule: &FlowSpecNlri) -> Option<Ground> {
    let widths = rule.components.iter().map(|one| list_of(one).odd_width());
    let mut found = widths.enumerate();
    found.find_map(|(component, width)| width.map(|width| Ground::Width { component, width }))
}

/// Why the rule in the first 64 words is no record, where it is none: why [`write`](crate::surface::write) with the same arguments refuses
/// it by 10, 11 or 7. [`matches`](crate::surface::matches), [`rank`](crate::surface::rank) and [`choose`](crate::surface::choose) ask for
/// the standard writing in the family that the rule's own words say.
///
/// ```
/// use krubbadin::surface::{matches, why_rule, COUNT, FAMILY};
/// use krubbadin::{Ground, Packet};
///
/// let mut words = [0; 64];
/// words[..4].copy_from_slice(&[3, 0, 2, 0]); // the protocol, two operators from place 0
/// (words[COUNT], words[FAMILY]) = (1, 4);
/// let packet = Packet::new([10, 1, 2, 3], [192, 0, 2, 1]).words();
/// assert_eq!(matches(&words, &[6], &[0x81], &packet).status, 10);
/// assert_eq!(why_rule(1, 4, &words, &[6], &[0x81]), Some(Ground::Outside { component: 0 }));
/// ```
pub fn why_rule(
    standard: u8,
    family: u8,
    words: &[u64],
    values: &[u64],
    octets: &[u8],
) -> Option<Ground> {
    let writing = Writing {
        standard: standard != 0,
        family,
        values,
        octets,
    };
    // No room is lent: whatever is refused by 10, 11 or 7 is refused so before.
    let answer = surface::write(standard, family, words, values, octets, &mut []);
    match answer.status {
        7 => Some(Ground::Octets(answer.first as usize)),
        10 => Some(writing.ground(words)),
        11 => Some(Ground::Family(answer.first)),
        _ => None,
    }
}

/// A writing, and the lists that are lent to it.
struct Writing<'a> {
    standard: bool,
    family: u8,
    values: &'a [u64],
    octets: &'a [u8],
}

impl Writing<'_> {
    fn refuses(&self, words: &[u64; WORDS]) -> bool {
        let (standard, family) = (u8::from(self.standard), self.family);
        surface::write(standard, family, words, self.values, self.octets, &mut []).status == 10
    }

    /// The ground, of a rule that is refused by 10.
    fn ground(&self, lent: &[u64]) -> Ground {
        let mut words = [0; WORDS];
        match lent.get(..WORDS) {
            Some(lent) => words.copy_from_slice(lent),
            None => return Ground::Words(lent.len()),
        }
        if words[COUNT] > COMPONENTS as u64 {
            return Ground::Components(words[COUNT]);
        }
        let count = words[COUNT] as usize;
        let mut rule = empty(&words);
        for component in 0..count {
            let group = [0, 1, 2, 3].map(|word| words[4 * component + word]);
            rule[4 * component..4 * component + 4].copy_from_slice(&group);
            rule[COUNT] = component as u64 + 1;
            if !self.refuses(&rule) {
                continue;
            }
            let mut alone = empty(&words);
            alone[..4].copy_from_slice(&group);
            alone[COUNT] = 1;
            return if self.refuses(&alone) {
                self.own_ground(component, group, words[FIRST])
            } else {
                self.shared_ground(component, &words)
            };
        }
        // The components are taken, so that it is a word beside them.
        let strays = |at: &usize| match *at {
            COUNT | FAMILY | FIRST => false,
            DISTINGUISHED => words[DISTINGUISHED] > 1,
            DISTINGUISHER => words[DISTINGUISHED] == 0 && words[DISTINGUISHER] != 0,
            at => at >= 4 * count && words[at] != 0,
        };
        match (0..WORDS).find(strays) {
            Some(at @ (DISTINGUISHED | DISTINGUISHER)) => Ground::Distinguisher(at),
            Some(at) => Ground::Word(at),
            None => Ground::Word(FAMILY),
        }
    }

    /// Of a component that is taken by itself, and not after those before it.
    fn shared_ground(&self, component: usize, words: &[u64; WORDS]) -> Ground {
        let kind = |at: usize| (words[4 * at] % 16) as u8;
        if self.standard && component > 0 && kind(component) <= kind(component - 1) {
            return Ground::Order {
                component,
                before: kind(component - 1),
                found: kind(component),
            };
        }
        let operators = |at: usize| if kind(at) > 2 { words[4 * at + 2] } else { 0 };
        let all = (0..words[COUNT] as usize).map(operators);
        Ground::Operators(all.fold(0, u64::saturating_add))
    }

    /// Of a component that is not taken by itself.
    fn own_ground(&self, component: usize, group: [u64; 4], first: u64) -> Ground {
        let kind = (group[0] % 16) as u8;
        let last = if self.standard && self.family == 4 {
            12
        } else {
            13
        };
        match kind {
            1 | 2 => self.prefix_ground(component, group),
            3.. if kind <= last => self.list_ground(component, group, first),
            _ => Ground::Type {
                component,
                found: kind,
            },
        }
    }

    fn prefix_ground(&self, component: usize, [kind, range, high, low]: [u64; 4]) -> Ground {
        let form = kind / 16;
        let (ipv6, has_offset) = (form % 2 == 1, form / 2 == 1);
        let most = if has_offset { 0xFFFF } else { 0xFF };
        let wide = high > u64::from(u32::MAX);
        let faults = [form > 3, range > most, !ipv6 && wide, !ipv6 && low != 0];
        if let Some(word) = faults.iter().position(|&fault| fault) {
            return Ground::Word(4 * component + word);
        }
        let (family, of_family) = (self.family, self.family == 6);
        if self.standard && (ipv6, has_offset) != (of_family, of_family) {
            return Ground::Form { component, family };
        }
        let (length, offset) = ((range % 256) as u8, (range / 256) as u8);
        let before = !self.standard || !has_offset || offset < length || range == 0;
        if length > if ipv6 { 128 } else { 32 } || !before {
            return Ground::Range {
                component,
                offset,
                length,
            };
        }
        Ground::Bits { component }
    }

    fn list_ground(
        &self,
        component: usize,
        [kind, start, count, zero]: [u64; 4],
        first: u64,
    ) -> Ground {
        if kind > 13 {
            return Ground::Word(4 * component);
        } else if zero != 0 {
            return Ground::Word(4 * component + 3);
        } else if count > OPERATORS as u64 {
            return Ground::Operators(count);
        } else if count == 0 {
            return Ground::EmptyList { component };
        }
        let from = first
            .checked_add(start)
            .and_then(|from| usize::try_from(from).ok());
        let places = from.and_then(|from| Some(from..from.checked_add(count as usize)?));
        let lent = places
            .and_then(|places| Some((self.values.get(places.clone())?, self.octets.get(places)?)));
        let (values, octets) = match lent {
            Some(lists) => lists,
            None => return Ground::Outside { component },
        };
        if octets[0] & 0x40 != 0 {
            return Ground::FirstAnd { component };
        }
        let most = most_octets(kind);
        for (operator, (&value, &octet)) in values.iter().zip(octets).enumerate() {
            let width = 1 << (octet >> 4 & 3);
            if width > most {
                return Ground::TooWide {
                    component,
                    operator,
                    width,
                    most,
                };
            }
            if width < 8 && value >> (8 * width) != 0 {
                return Ground::Value {
                    component,
                    operator,
                    width,
                };
            }
            if octet & 0x80 != 0 && operator + 1 < values.len() {
                return Ground::EarlyEnd {
                    component,
                    operator,
                };
            }
        }
        Ground::NoEnd { component }
    }
}

/// The most octets of a value in a list of this type by the standard (RFC 8955, 4.2.2.9, 4.2.2.11 and 4.2.2.12).
fn most_octets(kind: u64) -> u8 {
    match kind {
        9 => 2,
        11 | 12 => 1,
        _ => 8,
    }
}

/// A rule without components that has its operators at the same place. The family in its words plays no part in writing.
fn empty(words: &[u64; WORDS]) -> [u64; WORDS] {
    let mut rule = [0; WORDS];
    rule[FIRST] = words[FIRST];
    rule
}

/// The field that makes a packet a [`BadPacket`](crate::Reason::BadPacket). `Display` says it in words. More may join it.
///
/// ```
/// use krubbadin::{Field, Packet};
///
/// let mut packet = Packet::new([10, 1, 2, 3], [192, 0, 2, 1]);
/// packet.dscp = 64;
/// assert_eq!(packet.why(), Some(Field::Dscp));
/// assert_eq!(Field::Dscp.to_string(), "the DSCP is above 63");
/// ```
#[derive(Debug, Clone, Copy, PartialEq, Eq, Hash)]
#[non_exhaustive]
pub enum Field {
    /// This many words were lent, and a packet has 20.
    Words(usize),
    /// The family is neither 4 nor 6. Addresses of two families have none.
    Family,
    /// The destination has more than the 32 bits of IPv4.
    Destination,
    /// The source has more than the 32 bits of IPv4.
    Source,
    /// The protocol is above 255.
    Protocol,
    /// The length is above 65,575.
    Length,
    /// The DSCP is above 63.
    Dscp,
    /// The fragment bits are above 15.
    Fragment,
    /// A port is above 65,535.
    Ports,
    /// An ICMP type or code is above 255.
    Icmp,
    /// The TCP flags are above 4,095.
    TcpFlags,
    /// The flow label is above 1,048,575.
    FlowLabel,
    /// There is a flow label, and IPv4 has none.
    LabelInIpv4,
    /// This word says whether a field is there, and is neither 0 nor 1.
    Presence(usize),
    /// Word 19 is not 0.
    Unused,
}

impl Display for Field {
    fn fmt(&self, f: &mut Formatter<'_>) -> fmt::Result {
        match self {
            Field::Words(count) => write!(f, "it has {count} words, and a packet has 20"),
            Field::Family => write!(f, "it is not of one family, 4 or 6"),
            Field::Destination => write!(f, "the destination has more than 32 bits in IPv4"),
            Field::Source => write!(f, "the source has more than 32 bits in IPv4"),
            Field::Protocol => write!(f, "the protocol is above 255"),
            Field::Length => write!(f, "the length is above 65575"),
            Field::Dscp => write!(f, "the DSCP is above 63"),
            Field::Fragment => write!(f, "the fragment bits are above 15"),
            Field::Ports => write!(f, "a port is above 65535"),
            Field::Icmp => write!(f, "the ICMP type or code is above 255"),
            Field::TcpFlags => write!(
                f,
                "the TCP flags are above 4095; the data offset is no part of them"
            ),
            Field::FlowLabel => write!(f, "the flow label is above 1048575"),
            Field::LabelInIpv4 => write!(f, "it has a flow label, which is not in IPv4 (RFC 8956)"),
            Field::Presence(word) => write!(f, "word {word} is neither 0 nor 1"),
            Field::Unused => write!(f, "word 19 is not 0"),
        }
    }
}

impl Packet {
    /// The field that is out of range, where one is: why [`matches()`](crate::matches()) and [`choose`](crate::choose) refuse the packet.
    ///
    /// ```
    /// use krubbadin::{choose, Packet, Reason, Table};
    ///
    /// let mut packet = Packet::new([10, 1, 2, 3], [192, 0, 2, 1]);
    /// assert_eq!(packet.why(), None);
    /// packet.flow_label = Some(5);
    /// assert_eq!(choose(&Table::new(), &packet).unwrap_err().reason(), Reason::BadPacket);
    /// let field = packet.why().unwrap();
    /// assert_eq!(field.to_string(), "it has a flow label, which is not in IPv4 (RFC 8956)");
    /// ```
    pub fn why(&self) -> Option<Field> {
        why_packet(&self.words())
    }
}

/// The field of a packet's words that is out of range, where one is: why [`matches`](crate::surface::matches) and
/// [`choose`](crate::surface::choose) refuse it by 13.
///
/// ```
/// use krubbadin::surface::{choose, why_packet};
/// use krubbadin::{Field, Packet};
///
/// let mut words = Packet::new([10, 1, 2, 3], [192, 0, 2, 1]).words();
/// words[5] = 256;
/// assert_eq!(choose(&[], &[], &[], &words).status, 13);
/// assert_eq!(why_packet(&words), Some(Field::Protocol));
/// ```
pub fn why_packet(words: &[u64]) -> Option<Field> {
    if in_range(words) {
        return None;
    }
    if words.len() != PACKET {
        return Some(Field::Words(words.len()));
    }
    // A packet of the same family that has nothing but the words of one field.
    let only = |family: u64, at: &[usize]| {
        let mut part = [0; PACKET];
        part[0] = family;
        at.iter().for_each(|&at| part[at] = words[at]);
        in_range(&part)
    };
    let of = |at: &[usize]| only(words[0], at);
    let fields: [(Field, &[usize]); 16] = [
        (Field::Family, &[]),
        (Field::Destination, &[1, 2]),
        (Field::Source, &[3, 4]),
        (Field::Protocol, &[5]),
        (Field::Length, &[6]),
        (Field::Dscp, &[7]),
        (Field::Fragment, &[8]),
        (Field::Presence(9), &[9]),
        (Field::Ports, &[9, 10, 11]),
        (Field::Presence(12), &[12]),
        (Field::Icmp, &[12, 13, 14]),
        (Field::Presence(15), &[15]),
        (Field::TcpFlags, &[15, 16]),
        (Field::LabelInIpv4, &[17]),
        (Field::FlowLabel, &[17, 18]),
        (Field::Unused, &[19]),
    ];
    let found = fields.iter().find(|(_, at)| !of(at));
    found.map(|&(field, _)| match field {
        Field::LabelInIpv4 if !only(6, &[17]) => Field::Presence(17),
        field => field,
    })
}

/// Whether the archive takes words for a packet. It looks at the packet before the rule.
fn in_range(packet: &[u64]) -> bool {
    surface::matches(&[], &[], &[], packet).status != 13
}

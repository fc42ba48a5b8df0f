//! BGP FlowSpec rules (RFC 8955, RFC 8956), checked, read, written, matched and ranked by proved code.
//!
//! The work is done by libkrubbadin.a, an archive of functions that are proved: each returns on any input, keeps to what it was lent, and
//! answers exactly what a short definition says. This crate puts Rust's types around them.
//!
//! # In place of the flowspec module of bgpkit-parser
//!
//! The names and types at the root of this crate are those of that module, so that code written against it goes on with another `use` line.
//! One thing is more: a [`FlowSpecNlri`] has a `distinguisher` too, so that where code makes one by a struct literal and not by
//! [`FlowSpecNlri::new`], the literal needs `distinguisher: None`.
//!
//! ```
//! // was: use bgpkit_parser::models::{encode_flowspec_nlri, parse_flowspec_nlri, FlowSpecComponent};
//! use krubbadin::{encode_flowspec_nlri, parse_flowspec_nlri, FlowSpecComponent};
//!
//! # fn main() -> Result<(), Box<dyn std::error::Error>> {
//! let octets = [0x06, 0x03, 0x81, 0x06, 0x05, 0x81, 0x50];
//! let rule = parse_flowspec_nlri(&octets)?;
//! if let FlowSpecComponent::DestinationPort(ports) = &rule.components[1] {
//!     assert_eq!(ports[0].value, 80);
//! }
//! assert_eq!(encode_flowspec_nlri(&rule)?, octets);
//! # Ok(())
//! # }
//! ```
//!
//! # By the RFCs
//!
//! [`read`] and [`write()`] go by the RFCs where the original does not, [`matches()`] says whether a rule matches a packet, [`rank`] and
//! [`precedes`] which of two rules comes first, and [`choose`] which of many decides:
//!
//! ```
//! use krubbadin::{choose, Family, Packet, Table};
//!
//! # fn main() -> Result<(), krubbadin::Refusal> {
//! let mut table = Table::new();
//! table.read(Family::Ipv4, &[0x03, 0x01, 0x08, 0x0A])?; // to 10.0.0.0/8
//! table.read(Family::Ipv4, &[0x06, 0x03, 0x81, 0x06, 0x05, 0x81, 0x50])?; // TCP to port 80
//! let mut packet = Packet::new([203, 0, 113, 5], [192, 0, 2, 1]);
//! packet.protocol = 6;
//! packet.ports = Some((49152, 80));
//! assert_eq!(choose(&table, &packet)?, Some(1));
//! # Ok(())
//! # }
//! ```
//!
//! # Rules of virtual networks
//!
//! A rule that is announced under subfamily 134 has a route distinguisher before its components (RFC 8955, 8). Whoever reads it says so:
//! [`read_distinguished`], [`check_distinguished`] and [`Table::read_distinguished`] expect one, [`read`], [`check`] and [`Table::read`] expect
//! none. [`write()`] writes the one that a rule has. It plays no part in matching or in rank, and [`rank`] and [`choose`] take rules of one
//! distinguisher, or rules that all have none:
//!
//! ```
//! use krubbadin::{choose, read_distinguished, write, Family, Packet, Reason, RouteDistinguisher, Table};
//!
//! # fn main() -> Result<(), krubbadin::Refusal> {
//! let octets = [0x0B, 0x00, 0x00, 0xFB, 0xF0, 0x00, 0x00, 0x00, 0x07, 0x01, 0x08, 0x0A]; // to 10.0.0.0/8
//! let (rule, _) = read_distinguished(Family::Ipv4, &octets)?;
//! let distinguisher = rule.distinguisher.map(RouteDistinguisher);
//! assert_eq!(distinguisher.unwrap().to_string(), "0:64496:7");
//! assert_eq!(write(Family::Ipv4, &rule)?, octets);
//! let mut table = Table::new();
//! table.push(Family::Ipv4, &rule)?;
//! let packet = Packet::new([203, 0, 113, 5], [10, 0, 2, 1]);
//! assert_eq!(choose(&table, &packet)?, Some(0));
//! table.read(Family::Ipv4, &[0x03, 0x01, 0x08, 0x0A])?; // the same rule outside
//! assert_eq!(choose(&table, &packet).unwrap_err().reason(), Reason::MixedDistinguisher(1));
//! # Ok(())
//! # }
//! ```
//!
//! # To validate alone
//!
//! [`check`] says whether octets are a rule, and how many of them it takes, without making the rule; [`check_flowspec_nlri`] says it as the
//! original reads. They accept and refuse what the readings do, with the same refusals, and allocate nothing:
//!
//! ```
//! use krubbadin::{check, Family, Reason, Refusal};
//!
//! assert_eq!(check(Family::Ipv4, &[0x06, 0x03, 0x81, 0x06, 0x05, 0x81, 0x50]), Ok(7));
//! // a length of 33, at octet 2
//! assert_eq!(check(Family::Ipv4, &[0x02, 0x01, 0x21]), Err(Refusal::at(Reason::InvalidPrefix, 2)));
//! ```
//!
//! # What is wrong
//!
//! A [`Refusal`] says its [reason](Refusal::reason), and where octets are refused the [place](Refusal::place) of the wrong one, counted from
//! the start of the input:
//!
//! ```
//! use krubbadin::{read, Family, Reason};
//!
//! let refusal = read(Family::Ipv4, &[0x05, 0x03, 0x81, 0x06, 0x01, 0x21]).unwrap_err(); // a prefix after the protocol
//! assert_eq!(refusal.reason(), Reason::InvalidComponentOrder { expected_greater_than: 3, found: 1 });
//! assert_eq!(refusal.place(), Some(4));
//! assert_eq!(refusal.to_string(), "octet 4: a component of type 1 follows type 3, and types must rise");
//! ```
//!
//! Of a rule that is refused as [`BadRecord`](Reason::BadRecord) [`why`] says the ground, of a packet that is refused as
//! [`BadPacket`](Reason::BadPacket) [`Packet::why`] says the field. A rule prints in one line:
//!
//! ```
//! use krubbadin::{parse_flowspec_nlri, why, Family};
//!
//! # fn main() -> Result<(), krubbadin::FlowSpecError> {
//! let rule = parse_flowspec_nlri(&[0x07, 0x01, 0x08, 0x0A, 0x0D, 0x91, 0x00, 0x05])?;
//! assert_eq!(rule.to_string(), "destination 10.0.0.0/8; flow label =5");
//! let ground = why(Family::Ipv4, &rule).unwrap();
//! assert_eq!(ground.to_string(), "component 1 has type 13, the flow label, which is not in IPv4 (RFC 8956)");
//! # Ok(())
//! # }
//! ```
//!
//! # Without a heap
//!
//! The types above own what they hold. [`surface`] has the archive's calls themselves, on slices that the caller lends.

#![deny(unsafe_code)]
#![deny(missing_docs)]

mod error;
pub mod nlri;
pub mod operators;
mod packet;
mod rules;
mod standard;
mod stored;
pub mod surface;
mod text;
mod why;

pub use error::{EncodingError, FlowSpecError, Reason, Refusal};
pub use nlri::{check_flowspec_nlri, encode_flowspec_nlri, parse_flowspec_nlri};
pub use operators::{BitmaskOperator, NumericOperator};
pub use packet::Packet;
pub use rules::{FlowSpecComponent, FlowSpecNlri, NetworkPrefix, RouteDistinguisher};
pub use standard::{
    check, check_distinguished, choose, matches, precedes, rank, read, read_distinguished, write,
    Family, Table,
};
pub use why::{why, Field, Ground};

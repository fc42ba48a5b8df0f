//! The text of requests and answers: numbers, octets, rules, packets, refusals, read and printed.
//!
//! There is one text for each thing, so reading is strict: what it accepts is what printing gives
//! back. Texts are octets, since a request need not be UTF-8, and are put at the end of a list, so
//! that a program that answers many requests can do so in one. `text` makes a `String` of what is put.
//!
//! A request is a call's name and its fields. Those of `tools/answer`, with a TAB between them, are
//!
//! | request | answer |
//! |---|---|
//! | `plain_read OCTETS V,O` (places lent in the lists of values and octets), `std_read4`, `std_read6` | `ok USED OPERATORS RULE` |
//! | `std_read FAMILY EXPECTED OCTETS PLACES` (`rd` where a distinguisher is expected, else `-`; lent in each list) | `ok USED OPERATORS RD RULE` |
//! | `check FAMILY OCTETS`, the family `plain` for the plain reading | `ok USED OPERATORS` |
//! | `plain_place OCTETS` | `ok USED` |
//! | `plain_write COMPONENTS VALUES OCTETS ROOM`, `std_write FAMILY COMPONENTS VALUES OCTETS ROOM` | `ok OCTETS` |
//! | `match FAMILY OCTETS PACKET` | `yes`, `no` |
//! | `rank FAMILY OCTETS OCTETS` | `first`, `second`, `equal` |
//! | `choose PACKET RULES`, `decide p:PACKET RULES` | `ok PLACE`, `ok none` |
//!
//! A refusal is `err`, its number and, joined by commas, what it carries; of `std_read`,
//! `plain_place` and `decide` it is `err NUMBER CARRIED @PLACE`, `-` for nothing carried and for no
//! place. A distinguisher, `RD`, is sixteen hex digits, `-` for none. A rule is `-`
//! where it has no components, else components joined by `;`: `TYPE:4/LENGTH/HEX`,
//! `TYPE:6/LENGTH/HEX`, with an offset `TYPE:4o/OFFSET/LENGTH/HEX` or `TYPE:6o/OFFSET/LENGTH/HEX`, or
//! a list, `TYPE:OCTET=VALUE,OCTET=VALUE`; in a writing a list is `TYPE:@START+COUNT`. Rules to choose
//! from are `FAMILY=RULE`, in `decide` `FAMILY!RD!RULE`, joined by `&`, `.` for none. A packet is
//! `family|source|destination|protocol|length|dscp|fragment|ports|icmp|flags|label`.
//! `rust/oracle/src/help.txt` has the oracle's calls, whose octets and rules are the same and whose
//! other numbers are hex.

#![forbid(unsafe_code)]

// In order: each takes from those above it alone.
mod fields;

mod packets;
mod rules;

pub mod words;

pub use fields::{cut, distinguisher, hex_number, number, octet_number, octets, pair, values};
pub use fields::{put_distinguisher, put_number, put_octets, put_placed_refusal, put_refusal};
pub use fields::{put_values, text, Bad, Read, NONE};
pub use packets::{Packet, PACKET};
pub use rules::{component, components, operators, span};
pub use rules::{put_operators, put_rule, put_span};
pub use rules::{Address, Component, Content, Operator, Prefix, Span};

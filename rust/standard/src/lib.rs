//! FlowSpec rules read, written, matched, ranked and chosen from as RFC 8955 (IPv4) and RFC 8956
//! (IPv6) say.
//!
//! The proved code is compared with this. It follows the project's scope ("document 01") and the
//! RFCs by the sections that are cited; nothing in it is taken from the proved code or from
//! bgpkit-parser. It is meant to be read rather than to be fast: address bits are looked at one at a
//! time, a numeric list is the set of numbers that satisfy it, and the chooser sorts its rules. It
//! allocates what it answers, so refusal 9, NoRoom, has no counterpart here. `direct` answers as the
//! chooser does by a way that is fast too, to be timed.
//!
//! The refusal of a reading has the place of the wrong octet. bgpkit-parser tells none, so that the
//! plain reading is here too, as far as it tells what a rule takes or where it broke.

// In order: each takes from those above it alone.
mod refusals;
mod rules;
mod terms;

mod octets;
mod packets;
mod reading;
mod writing;

mod plain;

mod checking;
mod matching;
mod ranking;

mod choosing;
pub mod direct;

pub use choosing::choose;
pub use matching::matches;
pub use packets::Packet;
pub use plain::plain_used;
pub use ranking::{precedes, rank};
pub use reading::{read, read_distinguished, Reading};
pub use refusals::{Fault, Refusal};
pub use rules::{Address, Component, Content, Flow, Operator, Prefix, Rule};
pub use rules::{Distinguisher, DISTINGUISHER_OCTETS};
pub use writing::write;

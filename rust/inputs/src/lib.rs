//! Inputs of the readings, and the generator of everything that is random: what the comparison and
//! the tests of the crates share.

mod form;
mod random;
mod readings;

pub use form::{Form, LONGEST_BODY, LONGEST_INPUT};
pub use random::Random;
pub use readings::{by_rule, framed, good_inputs, list_of, most_code, octets, random};
pub use readings::{distinguisher, Take, DISTINGUISHERS, DOCUMENTED, FIXED, LONG_LISTS};

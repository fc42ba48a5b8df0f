//! The text of the fields of requests: numbers, flags, octets, and the original's components and rules.
//!
//! There is one text for each thing: what is accepted is what printing gives back, except for
//! reserved operator bits, which a record does not hold. `help.txt` has the forms.

use crate::flowspec::{FlowSpecComponent, FlowSpecNlri};
use crate::records;
use protocol::{put_octets, put_operators, put_rule, Read};

pub use protocol::Bad;

/// An upper-case hex number without leading zeros that fits in `T`.
pub fn number<T: TryFrom<u64>>(field: &str) -> Read<T> {
    let number = protocol::hex_number(field.as_bytes())?;
    T::try_from(number).map_err(|_| Bad("a number is within its range"))
}

/// A flag, `0` or `1`.
pub fn flag(field: &str) -> Read<bool> {
    match field {
        "0" => Ok(false),
        "1" => Ok(true),
        _ => Err(Bad("a flag is 0 or 1")),
    }
}

/// An octet string.
pub fn octets(field: &str) -> Read<Vec<u8>> {
    let mut list = Vec::new();
    protocol::octets(field.as_bytes(), &mut list)?;
    Ok(list)
}

pub fn octets_text(octets: &[u8]) -> String {
    protocol::text(|out| put_octets(octets, out))
}

/// A rule.
pub fn rule(field: &str) -> Read<FlowSpecNlri> {
    let components = protocol::components(field.as_bytes());
    let components = components.map(|component| original(component?));
    Ok(FlowSpecNlri::new(components.collect::<Result<_, _>>()?))
}

pub fn rule_text(rule: &FlowSpecNlri) -> String {
    let components = rule.components.iter().map(records::component);
    protocol::text(|out| put_rule(components, put_operators, out))
}

/// One component of a rule.
pub fn component(field: &str) -> Read<FlowSpecComponent> {
    original(protocol::component(field.as_bytes())?)
}

fn original(component: protocol::Component<&[u8]>) -> Read<FlowSpecComponent> {
    const BAD: Bad =
        Bad("a prefix has type 1 or 2 and a length within its address, a list type 3 to 13");
    let operators = |content| protocol::operators(content).collect::<Read<Vec<_>>>();
    let component = component.try_with_list(operators)?;
    records::original(component.with_list(Vec::into_iter)).ok_or(BAD)
}

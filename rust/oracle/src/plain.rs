//! The writings as requests of `tools/answer`, which the crate `protocol` describes, each with what the
//! original answers.

use crate::{calls, requests};
use protocol::{components, operators, put_number, put_octets, put_refusal, put_rule, put_span};
use protocol::{put_values, text, Read};

/// The room that a rule is given whose body is too long: more than any NLRI takes, so that it is not
/// the room that is refused.
const ROOM: usize = 5_000;

/// The refusal of a body that is too long.
const TOO_LONG: u64 = 7;

/// The lines of `tests/plain-answers`, one for each rule of the writings.
pub fn answers() -> Vec<String> {
    let line = |rule: &String| line(rule).unwrap_or_else(|bad| panic!("{rule}: {bad:?}"));
    requests::written_rules().iter().map(line).collect()
}

/// `REQUEST = ANSWER` for a rule, its operators in lists of values and octets, in the order in which
/// the rule has them. What is written has exactly the room that it takes.
pub fn line(rule: &str) -> Read<String> {
    let (mut values, mut octets) = (Vec::new(), Vec::new());
    let mut places = Vec::new();
    for component in components(rule.as_bytes()) {
        let component = component?.try_with_list(|list| {
            let start = values.len();
            for operator in operators(list) {
                let (octet, value) = operator?;
                octets.push(octet);
                values.push(value);
            }
            Ok((start as u64, (values.len() - start) as u64))
        })?;
        places.push(component);
    }
    let written = calls::written(rule)?;
    Ok(text(|out| {
        out.extend_from_slice(b"plain_write\t");
        put_rule(places, put_span, out);
        out.push(b'\t');
        put_values(&values, out);
        out.push(b'\t');
        put_octets(&octets, out);
        out.push(b'\t');
        put_number(written.as_ref().map_or(ROOM, Vec::len) as u64, out);
        out.extend_from_slice(b" = ");
        match written {
            Ok(octets) => {
                out.extend_from_slice(b"ok ");
                put_octets(&octets, out);
            }
            Err(length) => put_refusal(TOO_LONG, [length as u64], out),
        }
    }))
}

//! The calls: a request's fields go to the original, and what it gives back becomes an answer.

use crate::error::EncodingError;
use crate::flowspec::{
    encode_flowspec_nlri, parse_flowspec_nlri, BitmaskOperator, FlowSpecError, NumericOperator,
};
use crate::text::{self, Bad};
use std::io::{self, BufRead, Write};

/// Answers each line of the input in turn. A line that cannot be read is answered `bad` and does
/// not end the run; it need not be UTF-8.
pub fn answer_all(mut input: impl BufRead, mut output: impl Write) -> io::Result<()> {
    let mut line = Vec::new();
    while input.read_until(b'\n', &mut line)? != 0 {
        if line.last() == Some(&b'\n') {
            line.pop();
        }
        let answer = std::str::from_utf8(&line)
            .map_err(|_| Bad("a request is UTF-8"))
            .and_then(answer)
            .unwrap_or_else(|Bad(reason)| format!("bad {reason}"));
        output.write_all(&line)?;
        writeln!(output, " = {answer}")?;
        line.clear();
    }
    output.flush()
}

/// The answer to one request.
pub fn answer(request: &str) -> Result<String, Bad> {
    let fields: Vec<&str> = request.split(' ').collect();
    match fields[..] {
        ["numeric", octet, value] => numeric(text::number(octet)?, text::number(value)?),
        ["bitmask", octet, value] => bitmask(text::number(octet)?, text::number(value)?),
        ["numeric_record", end, and, width, less, greater, equal, value] => {
            let record = NumericOperator {
                end_of_list: text::flag(end)?,
                and_with_next: text::flag(and)?,
                value_length: text::number(width)?,
                less_than: text::flag(less)?,
                greater_than: text::flag(greater)?,
                equal: text::flag(equal)?,
                value: text::number(value)?,
            };
            Ok(format!("0 {:X}", record.to_byte()))
        }
        ["bitmask_record", end, and, width, not, match_flag, value] => {
            let record = BitmaskOperator {
                end_of_list: text::flag(end)?,
                and_with_next: text::flag(and)?,
                value_length: text::number(width)?,
                not: text::flag(not)?,
                match_flag: text::flag(match_flag)?,
                bitmask: text::number(value)?,
            };
            Ok(format!("0 {:X}", record.to_byte()))
        }
        ["equal_to", value] => numeric_made(NumericOperator::equal_to, value),
        ["greater_than_or_equal", value] => {
            numeric_made(NumericOperator::greater_than_or_equal, value)
        }
        ["exact_match", value] => bitmask_made(BitmaskOperator::exact_match, value),
        ["partial_match", value] => bitmask_made(BitmaskOperator::partial_match, value),
        ["parse", octets] => parse(octets),
        ["encode", rule] => encode(rule),
        ["kind", component] => kind(component),
        ["family", rule] => family(rule),
        _ => Err(Bad("no call has this name and this number of fields")),
    }
}

fn numeric(octet: u8, value: u64) -> Result<String, Bad> {
    let read = NumericOperator::from_byte_and_value(octet, value);
    Ok(read.map_or_else(|error| refusal(&error), |record| numeric_answer(&record)))
}

fn bitmask(octet: u8, value: u64) -> Result<String, Bad> {
    let read = BitmaskOperator::from_byte_and_value(octet, value);
    Ok(read.map_or_else(|error| refusal(&error), |record| bitmask_answer(&record)))
}

fn numeric_made(make: fn(u64) -> NumericOperator, value: &str) -> Result<String, Bad> {
    Ok(numeric_answer(&make(text::number(value)?)))
}

fn bitmask_made(make: fn(u64) -> BitmaskOperator, value: &str) -> Result<String, Bad> {
    Ok(bitmask_answer(&make(text::number(value)?)))
}

fn parse(octets: &str) -> Result<String, Bad> {
    Ok(match parse_flowspec_nlri(&text::octets(octets)?) {
        Ok(rule) => format!("0 {}", text::rule_text(&rule)),
        Err(error) => refusal(&error),
    })
}

fn encode(rule: &str) -> Result<String, Bad> {
    Ok(match written(rule)? {
        Ok(octets) => format!("0 {}", text::octets_text(&octets)),
        Err(length) => format!("7 {length:X}"),
    })
}

/// The octets that the original writes for a rule, or the length of a body that is too long for it.
pub(crate) fn written(rule: &str) -> Result<Result<Vec<u8>, usize>, Bad> {
    Ok(match encode_flowspec_nlri(&text::rule(rule)?) {
        Ok(octets) => Ok(octets),
        Err(EncodingError::ValueTooLarge { actual, .. }) => Err(actual),
        Err(error @ EncodingError::Unencodable { .. }) => {
            unreachable!("FlowSpec encoding has no such error: {error}")
        }
    })
}

fn kind(component: &str) -> Result<String, Bad> {
    let component = text::component(component)?;
    Ok(format!(
        "0 {:X} {} {}",
        component.component_type(),
        u8::from(component.uses_numeric_operators()),
        u8::from(component.uses_bitmask_operators())
    ))
}

fn family(rule: &str) -> Result<String, Bad> {
    let rule = text::rule(rule)?;
    let (ipv4, ipv6) = (u8::from(rule.is_ipv4()), u8::from(rule.is_ipv6()));
    Ok(format!("0 {ipv4} {ipv6}"))
}

fn numeric_answer(record: &NumericOperator) -> String {
    format!(
        "0 {} {} {:X} {} {} {} {:X} {:X}",
        u8::from(record.end_of_list),
        u8::from(record.and_with_next),
        record.value_length,
        u8::from(record.less_than),
        u8::from(record.greater_than),
        u8::from(record.equal),
        record.value,
        record.to_byte()
    )
}

fn bitmask_answer(record: &BitmaskOperator) -> String {
    format!(
        "0 {} {} {:X} {} {} {:X} {:X}",
        u8::from(record.end_of_list),
        u8::from(record.and_with_next),
        record.value_length,
        u8::from(record.not),
        u8::from(record.match_flag),
        record.bitmask,
        record.to_byte()
    )
}

/// A refusal's number and what it carries.
fn refusal(error: &FlowSpecError) -> String {
    match *error {
        FlowSpecError::InsufficientData => "1".to_string(),
        FlowSpecError::InvalidComponentOrder {
            expected_greater_than,
            found,
        } => format!("2 {expected_greater_than:X} {found:X}"),
        FlowSpecError::InvalidComponentType(found) => format!("3 {found:X}"),
        FlowSpecError::InvalidPrefix => "4".to_string(),
        FlowSpecError::InvalidOperator(octet) => format!("5 {octet:X}"),
        FlowSpecError::InvalidValueLength(code) => format!("6 {code:X}"),
    }
}

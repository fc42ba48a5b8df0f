//! Requests to read: octet strings of at most 4,097 octets, which is what the plain reading takes.

use super::sample::{good_rule, rule_of_length, Random};
use crate::flowspec::nlri::encode_length;
use crate::flowspec::{encode_flowspec_nlri, FlowSpecNlri};
use crate::records;
use crate::text;
use inputs::{octets, DOCUMENTED, FIXED};

/// Accepted rules of several lists, operators and widths, to be cut and restated like the others;
/// one octet follows the third.
const MIXED: [&str; 4] = [
    "0D 05 13 00 50 D5 00 5A 0A A1 00 00 05 DC",
    "15 0A 03 40 D4 02 00 0C 40 01 81 02 0D B1 00 00 00 00 00 0A BC DE",
    "0B 07 81 08 08 81 00 09 01 02 C2 10 0B",
    "10 0B 01 0A 81 2E 0C 01 01 82 02 0D A1 00 0F FF FF",
];

/// Document 01's cases and the RFCs' worked examples, then those above. The plain reading does not
/// know the offset octet of the last two examples: it reads 0.32.1.13/32 and refuses B8 as a type.
pub fn fixed() -> Vec<Vec<u8>> {
    let texts = FIXED[..DOCUMENTED].iter().chain(&MIXED);
    texts.map(|text| octets(text)).collect()
}

pub fn requests() -> Vec<String> {
    let mut inputs = fixed();
    inputs.extend(fixed().iter().flat_map(|input| cuts(input)));
    inputs.extend(fixed().iter().flat_map(|input| restated(input)));
    inputs.extend(prefixes());
    inputs.extend(lists());
    inputs.extend(operator_octets());
    inputs.extend(lengths());
    inputs.extend(long_bodies());
    inputs.extend(orders());
    inputs.extend(random_inputs());
    let texts = inputs.iter().map(|input| text::octets_text(input));
    texts.map(|octets| format!("parse {octets}")).collect()
}

/// Every truncation, with the length as it was and with the length made right again.
fn cuts(input: &[u8]) -> Vec<Vec<u8>> {
    let body = input.get(1..).unwrap_or_default();
    let cut = (0..input.len()).map(|end| input[..end].to_vec());
    let mended = (0..body.len()).map(|end| framed(&body[..end]));
    cut.chain(mended).collect()
}

/// Every stated length up to beyond the end, the input long enough for it and not: the last
/// component then overruns the stated end, or what follows it is taken for a component.
fn restated(input: &[u8]) -> Vec<Vec<u8>> {
    let body = input.get(1..).unwrap_or_default();
    let longer = [body, &[0x0D, 0x81, 0x07]].concat();
    let short = (0..=body.len() + 1).map(|length| stated(length, body));
    let long = (0..=longer.len()).map(|length| stated(length, &longer));
    short.chain(long).collect()
}

/// Every prefix length up to 129, and two far above: with its octets, one short, one too many, and
/// with its octets but a stated end before the last.
fn prefixes() -> Vec<Vec<u8>> {
    let mut inputs = Vec::new();
    for kind in [1, 2] {
        for length in (0..=129).chain([200, 255]) {
            let needed = (usize::from(length) + 7) / 8;
            let body = [&[kind, length][..], &ramp(needed)].concat();
            inputs.push(framed(&body));
            inputs.push(framed(&body[..body.len() - 1]));
            inputs.push(framed(&[&body[..], &[0x00]].concat()));
            inputs.push(stated(body.len() - 1, &body));
        }
    }
    inputs
}

/// Every list type with every width: values, reserved bits, missing octets, no end, AND first.
fn lists() -> Vec<Vec<u8>> {
    let mut bodies = Vec::new();
    for kind in 3..=13u8 {
        for code in 0..4u8 {
            let (code, width) = (code << 4, 1 << code);
            let value = ramp(width);
            for value in [vec![0; width], vec![0xFF; width], value.clone()] {
                bodies.push([&[kind, 0x81 | code][..], &value].concat());
            }
            for reserved in [0, 0x08, 0x04, 0x0C] {
                let head = [kind, 0x80 | code | reserved];
                bodies.push([&head[..], &value].concat());
                // A missing value is found before a reserved bit.
                bodies.push([&head[..], &value[1..]].concat());
            }
            bodies.push(vec![kind, 0x81 | code]);
            bodies.push([&[kind, 0x01 | code][..], &value].concat());
            let first = [&[kind, 0x41 | code][..], &value].concat();
            bodies.push([&first[..], &[0xC2 | code], &value].concat());
        }
    }
    bodies.iter().map(|body| framed(body)).collect()
}

/// Every operator octet in a numeric and in a bitmask list, first and, after another, second.
fn operator_octets() -> Vec<Vec<u8>> {
    let mut bodies = Vec::new();
    for kind in [5, 12] {
        for octet in 0..=0xFF {
            let value = ramp(usize::from(records::width(octet)));
            let close: &[u8] = if octet < 0x80 { &[0x80, 0x2A] } else { &[] };
            bodies.push([&[kind, octet][..], &value, close].concat());
            if octet % 3 == 0 {
                bodies.push([&[kind, 0x01, 0x2A, octet][..], &value, close].concat());
            }
        }
    }
    bodies.iter().map(|body| framed(body)).collect()
}

/// Length fields by themselves, and both forms of them before a short body.
fn lengths() -> Vec<Vec<u8>> {
    let body = octets("01 18 C0 00 02");
    let mut inputs: Vec<Vec<u8>> = [0x01, 0x02, 0x7F, 0xEE, 0xEF]
        .map(|length| vec![length])
        .to_vec();
    for first in 0xF0..=0xFF {
        inputs.push(vec![first]);
        for second in [0, 1, 5, 0xEF, 0xF0, 0xFF] {
            inputs.push(vec![first, second]);
            inputs.push([&[first, second][..], &body].concat());
        }
    }
    inputs
}

/// Bodies where the length takes a second octet, where its high part begins, and at its end. Few
/// are of the last kind, since their answers are long.
fn long_bodies() -> Vec<Vec<u8>> {
    let mut inputs = Vec::new();
    for length in (238..=242).chain(254..=258) {
        for widest in [1, 8] {
            let rule = rule_of_length(length, widest);
            let input = written(&rule);
            let body = &input[if length < 240 { 1 } else { 2 }..];
            let high = 0xF0 | (length >> 8) as u8;
            inputs.push([&[high, length as u8][..], body].concat());
            inputs.push([&input[..], &[0x05]].concat());
            inputs.push(input[..input.len() - 1].to_vec());
            inputs.push(stated(length - 1, body));
            inputs.push(stated(239, body));
            inputs.push(input);
        }
    }
    for length in [1024, 2303, 4094, 4095] {
        let input = written(&rule_of_length(length, 8));
        inputs.push(input[..input.len() - 1].to_vec());
        inputs.push(input);
    }
    inputs.push(written(&rule_of_length(4095, 4)));
    inputs
}

/// Every type after every known one, and alone every type there is.
fn orders() -> Vec<Vec<u8>> {
    let mut inputs = Vec::new();
    for first in 1..=13 {
        for second in (0..=14).chain([0x81, 0xFF]) {
            let body = [component(first), component(second)].concat();
            inputs.push(framed(&body));
        }
    }
    for kind in 0..=0xFF {
        inputs.push(framed(&component(kind)));
    }
    inputs.push(framed(&(1..=13).flat_map(component).collect::<Vec<u8>>()));
    inputs.push(framed(&(1..=14).flat_map(component).collect::<Vec<u8>>()));
    inputs
}

/// Random good rules, damaged copies of each, and random octets.
fn random_inputs() -> Vec<Vec<u8>> {
    let mut random = Random::new(0xF10);
    let mut inputs = Vec::new();
    for _ in 0..300 {
        let good = written(&good_rule(&mut random));
        inputs.extend((0..3).map(|_| damaged(&good, &mut random)));
        inputs.push(good);
    }
    for _ in 0..100 {
        let length = random.below(12);
        let body: Vec<u8> = (0..length).map(|_| random.octet() % 16).collect();
        inputs.push(framed(&body));
    }
    inputs
}

/// One or two faults put into the octets.
fn damaged(good: &[u8], random: &mut Random) -> Vec<u8> {
    let mut input = good.to_vec();
    for _ in 0..=random.below(2) {
        if input.is_empty() {
            break;
        }
        let place = random.below(input.len());
        match random.below(7) {
            0 => input[place] = random.octet(),
            1 => input[place] ^= 1 << random.below(8),
            2 => input.insert(place, random.octet()),
            3 => {
                input.remove(place);
            }
            4 => input.truncate(place),
            5 => input.push(random.octet()),
            _ => input[0] = place as u8,
        }
    }
    input
}

/// A least component of this type; of an unknown type, octets that a list could have.
fn component(kind: u8) -> Vec<u8> {
    match kind {
        1 | 2 => vec![kind, 0x08, 0x0A],
        _ => vec![kind, 0x81, 0x06],
    }
}

/// Up to 16 octets that all differ, their lowest bits set: none lost, moved or masked goes unseen.
fn ramp(count: usize) -> Vec<u8> {
    (1..=count).map(|place| (place * 0x21) as u8 | 1).collect()
}

fn framed(body: &[u8]) -> Vec<u8> {
    stated(body.len(), body)
}

/// The body behind a length that need not be its own.
fn stated(length: usize, body: &[u8]) -> Vec<u8> {
    let mut input = Vec::new();
    encode_length(length as u16, &mut input);
    input.extend(body);
    input
}

fn written(rule: &FlowSpecNlri) -> Vec<u8> {
    encode_flowspec_nlri(rule).expect("the lists' rules fit")
}

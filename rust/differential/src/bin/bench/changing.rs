//! Readings and choices whose inputs change from call to call, so that no branch is taken as it was
//! the last time because the input is the same.

use crate::coding::ORIGINAL;
use crate::deciding::{table, RUST};
use crate::timing::{opaque, repeat, Bar, Sheet, Times};
use differential::compare::Comparison;
use differential::stored::WORDS;
use differential::{archive, packets, wordwise, Form, MOST_OPERATORS};
use inputs::{framed, Random};
use oracle::flowspec::parse_flowspec_nlri;
use standard::{direct, Flow, Packet};

/// How many there are, asked in turn.
const INPUTS: usize = 256;
/// How many rules there are to choose from.
const RULES: usize = 8;

/// At most so much of the original's time, and of the Rust chooser's.
const PARSE: f64 = 0.45;
const CHOOSE: f64 = 0.8;

/// Times all; nothing where the answers differ.
pub fn bench(sheet: &mut Sheet) -> bool {
    let inputs = inputs();
    let mut random = Random::new(0xF16);
    let rules: Vec<Flow> = (0..RULES).map(|_| flow(&body(&mut random))).collect();
    let packets: Vec<Packet> = (0..INPUTS).map(|_| packet(&rules, &mut random)).collect();
    if !answers_agree(&inputs, &rules, &packets) {
        return false;
    }
    sheet.heading("octets", ["proved", "original"]);
    let times = parse_times(&inputs, sheet);
    let ratio = sheet.row("parse", &in_turn(), octets_of_one(&inputs), times);
    sheet
        .bars
        .push(bar(format!("parse, {}", in_turn()), ratio, ORIGINAL, PARSE));
    sheet.heading("rules", ["proved", "Rust", "parsed"]);
    let name = format!("{INPUTS} packets in turn");
    let times = choose_times(&rules, &packets, sheet);
    let ratio = sheet.row("choose", &name, RULES, times);
    sheet.bars.push(bar(
        format!("choose, {name}, of {RULES}"),
        ratio,
        RUST,
        CHOOSE,
    ));
    true
}

/// The rules that are read in turn, what they are called, and how many octets one has on average.
pub fn inputs() -> Vec<Vec<u8>> {
    let mut random = Random::new(0xF15);
    (0..INPUTS).map(|_| framed(&body(&mut random))).collect()
}

pub fn in_turn() -> String {
    format!("{INPUTS} rules in turn")
}

pub fn octets_of_one(inputs: &[Vec<u8>]) -> usize {
    inputs.iter().map(Vec::len).sum::<usize>() / inputs.len()
}

fn bar(what: String, figure: f64, of: &str, most: f64) -> Bar {
    Bar {
        what,
        figure,
        of: of.to_string(),
        most,
    }
}

/// The body of a rule of ordinary shape: to a network or a host, often a protocol, ports and now
/// and then where it comes from, TCP flags, a range of lengths, fragments.
fn body(random: &mut Random) -> Vec<u8> {
    let mut body = Vec::new();
    for (kind, odds) in [(1, 9), (2, 3)] {
        if random.below(10) < odds {
            let length = random.pick(&[16, 20, 22, 24, 24, 24, 28, 32, 32, 32]);
            body.extend([kind, length]);
            body.extend((0..(length + 7) / 8).map(|_| random.octet()));
            // Bits past the length are 0, as exporters send them.
            if let (Some(last), 1..=7) = (body.last_mut(), length % 8) {
                *last &= 0xFF << (8 - length % 8);
            }
        }
    }
    let protocol = random.pick(&[6, 6, 6, 17, 17, 1]);
    if body.is_empty() || random.below(10) < 8 {
        body.extend([3, 0x81, protocol]);
    }
    if protocol == 1 && random.once_in(2) {
        body.extend([7, 0x81, random.pick(&[0, 3, 8])]);
    }
    if protocol != 1 && random.below(10) < 7 {
        body.push(random.pick(&[4, 5, 5, 5, 6]));
        put_ports(random, &mut body);
    }
    if protocol == 6 && random.below(10) < 3 {
        body.extend([
            9,
            random.pick(&[0x80, 0x81]),
            random.pick(&[0x02, 0x10, 0x12, 0x04]),
        ]);
    }
    if random.below(10) < 2 {
        let least = 64 + random.below(1000) as u16;
        put_range(least, least + random.below(400) as u16, 10, &mut body);
    }
    if random.once_in(10) {
        body.extend([11, 0x81, random.below(64) as u8]);
    }
    if random.below(10) < 2 {
        body.extend([
            12,
            random.pick(&[0x80, 0x81]),
            random.pick(&[0x01, 0x02, 0x04]),
        ]);
    }
    body
}

/// One port, a range or a list of a few.
fn put_ports(random: &mut Random, body: &mut Vec<u8>) {
    let ports = [22, 25, 53, 80, 123, 179, 389, 443, 1900, 3389, 8080, 11_211];
    match random.below(4) {
        0 => {
            let least = 1024 + random.below(40_000) as u16;
            let kind = body.pop().expect("the type stands there");
            put_range(least, least + random.below(20_000) as u16, kind, body);
        }
        1 => {
            let count = 2 + random.below(4);
            for left in (0..count).rev() {
                put_operator(0x01, random.pick(&ports), left == 0, body);
            }
        }
        _ => put_operator(0x01, random.pick(&ports), true, body),
    }
}

/// From the one number to the other.
fn put_range(least: u16, most: u16, kind: u8, body: &mut Vec<u8>) {
    body.push(kind);
    put_operator(0x03, least, false, body);
    put_operator(0x45, most, true, body);
}

/// An operator, its value in as few octets as hold it.
fn put_operator(octet: u8, value: u16, is_last: bool, body: &mut Vec<u8>) {
    let octet = octet | if is_last { 0x80 } else { 0 };
    match u8::try_from(value) {
        Ok(value) => body.extend([octet, value]),
        Err(_) => {
            body.push(octet | 0x10);
            body.extend(value.to_be_bytes());
        }
    }
}

fn flow(body: &[u8]) -> Flow {
    let reading = standard::read(4, &framed(body)).expect("these are accepted");
    Flow {
        family: 4,
        rule: reading.rule,
    }
}

/// A packet near what one of the rules asks for.
fn packet(rules: &[Flow], random: &mut Random) -> Packet {
    packets::near(&rules[random.below(rules.len())], random).0
}

/// What is timed must be the same work.
fn answers_agree(inputs: &[Vec<u8>], rules: &[Flow], packets: &[Packet]) -> bool {
    let mut comparison = Comparison::new();
    for input in inputs {
        comparison.reading(Form::Plain, input);
    }
    let table = table(rules);
    for packet in packets {
        comparison.choosing(&table, &packets::words(packet));
    }
    comparison.differ == 0
}

fn parse_times(inputs: &[Vec<u8>], sheet: &mut Sheet) -> Times<2> {
    let (mut words, mut values) = ([0; WORDS], [0; MOST_OPERATORS]);
    let mut octets = [0; MOST_OPERATORS];
    let mut ours = inputs.iter().cycle();
    let mut theirs = inputs.iter().cycle();
    sheet.times([
        &mut |calls| {
            repeat(calls, || {
                let input = ours.next().map_or(&[][..], |input| opaque(&input[..]));
                let answer =
                    archive::read(Form::Plain, input, &mut words, &mut values, &mut octets);
                opaque(&answer).status != 0
            })
        },
        &mut |calls| {
            repeat(calls, || {
                let input = theirs.next().map_or(&[][..], |input| opaque(&input[..]));
                opaque(&parse_flowspec_nlri(input)).is_err()
            })
        },
    ])
}

fn choose_times(rules: &[Flow], packets: &[Packet], sheet: &mut Sheet) -> Times<3> {
    let table = &table(rules);
    let words: Vec<[u64; packets::WORDS]> = packets.iter().map(packets::words).collect();
    let (mut ours, mut theirs) = (words.iter().cycle(), words.iter().cycle());
    let mut parsed = packets.iter().cycle();
    sheet.times([
        &mut |calls| {
            repeat(calls, || {
                let words = ours.next().map_or(&[][..], |words| opaque(&words[..]));
                opaque(&archive::choose(opaque(table), words)).status != 0
            })
        },
        &mut |calls| {
            repeat(calls, || {
                let words = theirs.next().map_or(&[][..], |words| opaque(&words[..]));
                opaque(&wordwise::choose(opaque(table), words)).is_err()
            })
        },
        &mut |calls| {
            repeat(calls, || {
                let packet = parsed.next().expect("there are packets");
                opaque(&direct::choose(opaque(rules), opaque(packet))).is_err()
            })
        },
    ])
}

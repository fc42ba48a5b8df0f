//! Requests of the standard calls as lines of text, and what the crate `standard` answers.
//!
//! The crate `protocol` says what the lines are; `tools/answer` takes the same.

use crate::stored::{Stored, COUNT, FAMILY, IPV4, IPV4_OFFSET, IPV6};
use crate::{neutral, peers, refusal, Answer, Form};
use protocol::{
    put_distinguisher, put_octets, put_operators, put_placed_refusal, put_refusal, put_rule,
    put_span, put_values, text, words,
};
use standard::{Content, Fault, Flow, Packet, Reading, Refusal, Rule};
use std::cmp::Ordering;
use std::fmt::{self, Display, Formatter};

pub enum Request {
    Read {
        family: u8,
        input: Vec<u8>,
        values: usize,
        octets: usize,
    },
    /// A reading that expects a distinguisher or none, so many places lent in each list, and tells
    /// where it broke.
    ReadPlaced {
        family: u8,
        is_distinguished: bool,
        input: Vec<u8>,
        places: usize,
    },
    /// The plain reading, of which only the octets used are told, or where it broke.
    PlainPlace {
        input: Vec<u8>,
    },
    /// Of a rule whose first place is 0.
    Write {
        family: u8,
        record: Stored,
        room: usize,
    },
    Match {
        family: u8,
        input: Vec<u8>,
        packet: Packet,
    },
    Rank {
        family: u8,
        one: Vec<u8>,
        other: Vec<u8>,
    },
    /// Of rules without a distinguisher.
    Choose {
        packet: Packet,
        flows: Vec<Flow>,
    },
    Decide {
        packet: Packet,
        flows: Vec<Flow>,
    },
}

impl Display for Request {
    fn fmt(&self, f: &mut Formatter<'_>) -> fmt::Result {
        let fields = match self {
            Request::Read {
                family,
                input,
                values,
                octets,
            } => vec![
                format!("std_read{family}"),
                hex(input),
                format!("{values},{octets}"),
            ],
            Request::ReadPlaced {
                family,
                is_distinguished,
                input,
                places,
            } => vec![
                format!("std_read\t{family}"),
                if *is_distinguished { "rd" } else { "-" }.to_string(),
                hex(input),
                places.to_string(),
            ],
            Request::PlainPlace { input } => vec!["plain_place".to_string(), hex(input)],
            Request::Write {
                family,
                record,
                room,
            } => vec![
                format!("std_write\t{family}"),
                components_text(&record.words),
                text(|out| put_values(&record.values, out)),
                hex(&record.octets),
                room.to_string(),
            ],
            Request::Match {
                family,
                input,
                packet,
            } => vec![format!("match\t{family}"), hex(input), packet_text(packet)],
            Request::Rank { family, one, other } => {
                vec![format!("rank\t{family}"), hex(one), hex(other)]
            }
            Request::Choose { packet, flows } => {
                let flow = |flow: &Flow| format!("{}={}", flow.family, rule_text(&flow.rule));
                let rules = flows_text(flows, flow);
                vec!["choose".to_string(), packet_text(packet), rules]
            }
            Request::Decide { packet, flows } => {
                let flow = |flow: &Flow| {
                    let distinguisher = distinguisher_text(&flow.rule);
                    let rule = rule_text(&flow.rule);
                    format!("{}!{distinguisher}!{rule}", flow.family)
                };
                let packet = format!("p:{}", packet_text(packet));
                vec!["decide".to_string(), packet, flows_text(flows, flow)]
            }
        };
        write!(f, "{}", fields.join("\t"))
    }
}

impl Request {
    /// What `standard` answers.
    pub fn answer(&self) -> String {
        match self {
            Request::Read {
                family,
                input,
                values,
                octets,
            } => match read(standard::read(*family, input), *values.min(octets)) {
                Ok((told, rule)) => format!("{told} {}", rule_text(&rule)),
                Err(answer) => refused(answer),
            },
            Request::ReadPlaced {
                family,
                is_distinguished,
                input,
                places,
            } => {
                let reading = match is_distinguished {
                    true => standard::read_distinguished(*family, input),
                    false => standard::read(*family, input),
                };
                match read(reading, *places) {
                    Ok((told, rule)) => {
                        format!("{told} {} {}", distinguisher_text(&rule), rule_text(&rule))
                    }
                    Err(answer) => refused_at(answer),
                }
            }
            Request::PlainPlace { input } => match peers::plain_used(input) {
                answer if answer.is_accepted() => format!("ok {}", answer.first),
                answer => refused_at(answer),
            },
            Request::Write {
                family,
                record,
                room,
            } => write(*family, record, *room),
            Request::Match {
                family,
                input,
                packet,
            } => match matches(*family, input, packet) {
                Ok(true) => "yes".to_string(),
                Ok(false) => "no".to_string(),
                Err(refusal) => refused(peers::standard_refusal(refusal)),
            },
            Request::Rank { family, one, other } => match rank(*family, one, other) {
                Ok(Ordering::Less) => "first".to_string(),
                Ok(Ordering::Equal) => "equal".to_string(),
                Ok(Ordering::Greater) => "second".to_string(),
                Err(refusal) => refused(peers::standard_refusal(refusal)),
            },
            Request::Choose { packet, flows } => match standard::choose(flows, packet) {
                Ok(place) => chosen(place),
                Err(refusal) => refused(peers::standard_refusal(refusal)),
            },
            Request::Decide { packet, flows } => match standard::choose(flows, packet) {
                Ok(place) => chosen(place),
                Err(refusal) => refused_at(peers::standard_refusal(refusal)),
            },
        }
    }
}

/// What an accepted reading tells before the rule, and the rule.
fn read(reading: Result<Reading, Fault>, places: usize) -> Result<(String, Rule), Answer> {
    let Reading { rule, used } = reading.map_err(peers::standard_fault)?;
    let operators = rule.components.iter().map(|one| match &one.content {
        Content::Prefix(_) => 0,
        Content::List(list) => list.len(),
    });
    let operators: usize = operators.sum();
    if places < operators {
        return Err(Answer::refused(refusal::NO_ROOM, operators as u64, 0));
    }
    Ok((format!("ok {used} {operators}"), rule))
}

fn chosen(place: Option<usize>) -> String {
    match place {
        Some(place) => format!("ok {place}"),
        None => "ok none".to_string(),
    }
}

fn write(family: u8, record: &Stored, room: usize) -> String {
    let mut written = Vec::new();
    let answer = peers::write(Form::Standard(family), record, &mut written);
    match answer.status {
        0 if written.len() > room => {
            let needed = written.len() as u64;
            refused(Answer::refused(refusal::NO_ROOM, needed, 0))
        }
        0 => format!("ok {}", hex(&written)),
        _ => refused(answer),
    }
}

fn flow(family: u8, input: &[u8]) -> Result<Flow, Refusal> {
    let reading = standard::read(family, input).map_err(|fault| fault.refusal)?;
    let rule = reading.rule;
    Ok(Flow { family, rule })
}

pub fn matches(family: u8, input: &[u8], packet: &Packet) -> Result<bool, Refusal> {
    standard::matches(&flow(family, input)?, packet)
}

pub fn rank(family: u8, one: &[u8], other: &[u8]) -> Result<Ordering, Refusal> {
    standard::rank(&flow(family, one)?, &flow(family, other)?)
}

/// A refusal with what it carries.
fn refused(answer: Answer) -> String {
    text(|out| put_refusal(answer.status, answer.carried(), out))
}

/// A refusal with its place, too.
fn refused_at(answer: Answer) -> String {
    let place = answer.place;
    text(|out| put_placed_refusal(answer.status, &answer.carried(), place, out))
}

pub fn hex(octets: &[u8]) -> String {
    text(|out| put_octets(octets, out))
}

fn flows_text(flows: &[Flow], flow: impl Fn(&Flow) -> String) -> String {
    match flows {
        [] => ".".to_string(),
        _ => flows.iter().map(flow).collect::<Vec<String>>().join("&"),
    }
}

fn distinguisher_text(rule: &Rule) -> String {
    text(|out| put_distinguisher(rule.distinguisher, out))
}

/// The components of a rule.
pub fn rule_text(rule: &Rule) -> String {
    let components = rule.components.iter().map(neutral::component);
    text(|out| put_rule(components, put_operators, out))
}

/// The components that words name, as a writing is asked for them.
fn components_text(words: &[u64]) -> String {
    let groups = words[..COUNT].chunks(4).take(words[COUNT] as usize);
    text(|out| put_rule(groups.map(words::component), put_span, out))
}

/// Whether a text can say these words: at most 13 components of known types and forms, the rule's
/// first place 0, its family the one that is asked for, no distinguisher.
pub fn can_be_said(family: u8, words: &[u64]) -> bool {
    let said = |group: &[u64]| match (group[0] % 16, group[0] / 16) {
        (1 | 2, IPV4) => group[1] < 256 && group[2] >> 32 == 0 && group[3] == 0,
        (1 | 2, IPV4_OFFSET) => group[1] < 1 << 16 && group[2] >> 32 == 0 && group[3] == 0,
        (1 | 2, form) if form < 4 => group[1] < if form == IPV6 { 256 } else { 1 << 16 },
        (3..=13, 0) => group[3] == 0,
        _ => false,
    };
    let count = words[COUNT] as usize;
    count <= COUNT / 4
        && words[FAMILY] == u64::from(family)
        && words[..4 * count].chunks(4).all(said)
        && words[4 * count..COUNT].iter().all(|&word| word == 0)
        && words[FAMILY + 1..].iter().all(|&word| word == 0)
}

fn packet_text(packet: &Packet) -> String {
    text(|out| neutral::packet(packet).put(out))
}

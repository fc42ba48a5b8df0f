//! The safe crate's calls on rules that it owns, as a program that changed its `use` line makes them:
//! its parsing beside the original's, its choosing beside the same choice in Rust over parsed rules.

use crate::changing::{self, in_turn, octets_of_one};
use crate::coding::{ports, FIVE, FIVE_OCTETS, ORIGINAL, PORTS, SEVEN, SEVEN_OCTETS};
use crate::deciding::{self, cases};
use crate::timing::{opaque, repeat, Bar, Sheet, Times};
use inputs::{framed, octets};
use krubbadin::{Family, Table};
use oracle::flowspec::parse_flowspec_nlri;
use standard::{direct, Packet};
use std::net::{IpAddr, Ipv4Addr, Ipv6Addr};

/// At most so much of the original's time. Short rules have no bar: both sides make the same
/// allocations, which are half of the time of the 7-octet rule.
const PARSE: f64 = 0.8;

/// How many rules there are to choose from.
const RULES: [usize; 3] = [1, 8, 64];

/// A choice with the crate's table and packet.
struct Choice {
    case: deciding::Case,
    table: Table,
    packet: krubbadin::Packet,
}

/// Times all; nothing where the answers differ.
pub fn bench(sheet: &mut Sheet) -> bool {
    let inputs = [
        (SEVEN.to_string(), vec![octets(SEVEN_OCTETS)], None),
        (FIVE.to_string(), vec![octets(FIVE_OCTETS)], Some(PARSE)),
        (PORTS.to_string(), vec![framed(&ports(200))], Some(PARSE)),
        (in_turn(), changing::inputs(), None),
    ];
    let choices: Vec<Choice> = RULES.into_iter().flat_map(cases).map(choice).collect();
    let mut rules = inputs.iter().flat_map(|(_, inputs, _)| inputs);
    if !rules.all(|input| same_rule(input)) || !choices.iter().all(same_choice) {
        return false;
    }
    sheet.heading("octets", ["the crate", "original"]);
    for (name, inputs, most) in &inputs {
        let times = parse_times(inputs, sheet);
        let ratio = sheet.row("parse", name, octets_of_one(inputs), times);
        sheet.bars.extend(most.map(|most| Bar {
            what: format!("the crate's parse, {name}"),
            figure: ratio,
            of: ORIGINAL.to_string(),
            most,
        }));
    }
    sheet.heading("rules", ["the crate", "parsed"]);
    for choice in &choices {
        let (name, count) = (&choice.case.name, choice.case.rules.len());
        let times = choose_times(choice, sheet);
        sheet.row("choose", name, count, times);
    }
    true
}

fn choice(case: deciding::Case) -> Choice {
    let mut table = Table::new();
    for flow in &case.rules {
        let octets = standard::write(flow.family, &flow.rule).expect("these are good");
        let family = Family::try_from(flow.family).expect("these are of a family");
        table.read(family, &octets).expect("these are good");
    }
    let packet = packet(&case.packet);
    Choice {
        case,
        table,
        packet,
    }
}

/// The packet as the crate has it.
fn packet(packet: &Packet) -> krubbadin::Packet {
    let address = |address: u128| match packet.family {
        4 => IpAddr::from(Ipv4Addr::from(address as u32)),
        _ => IpAddr::from(Ipv6Addr::from(address)),
    };
    krubbadin::Packet {
        protocol: packet.protocol as u8,
        length: packet.length as u32,
        dscp: packet.dscp as u8,
        fragment: packet.fragment as u8,
        ports: packet.ports.map(|(from, to)| (from as u16, to as u16)),
        icmp: packet.icmp.map(|(kind, code)| (kind as u8, code as u8)),
        tcp_flags: packet.flags.map(|flags| flags as u16),
        flow_label: packet.label.map(|label| label as u32),
        ..krubbadin::Packet::new(address(packet.source), address(packet.destination))
    }
}

/// What is timed must be the same work: the two rules print alike, field for field.
fn same_rule(input: &[u8]) -> bool {
    let ours = krubbadin::parse_flowspec_nlri(input).map(|rule| format!("{rule:?}"));
    let theirs = parse_flowspec_nlri(input).map(|rule| format!("{rule:?}"));
    ours.ok() == theirs.ok()
}

fn same_choice(choice: &Choice) -> bool {
    let ours = krubbadin::choose(&choice.table, &choice.packet);
    let theirs = direct::choose(&choice.case.rules, &choice.case.packet);
    ours.ok() == theirs.ok()
}

fn parse_times(inputs: &[Vec<u8>], sheet: &mut Sheet) -> Times<2> {
    let (mut ours, mut theirs) = (inputs.iter().cycle(), inputs.iter().cycle());
    sheet.times([
        &mut |calls| {
            repeat(calls, || {
                let input = ours.next().map_or(&[][..], |input| opaque(&input[..]));
                opaque(&krubbadin::parse_flowspec_nlri(input)).is_err()
            })
        },
        &mut |calls| {
            repeat(calls, || {
                let input = theirs.next().map_or(&[][..], |input| opaque(&input[..]));
                opaque(&parse_flowspec_nlri(input)).is_err()
            })
        },
    ])
}

fn choose_times(choice: &Choice, sheet: &mut Sheet) -> Times<2> {
    let (table, packet) = (&choice.table, &choice.packet);
    let case = &choice.case;
    sheet.times([
        &mut |calls| {
            let answer = || krubbadin::choose(opaque(table), opaque(packet));
            repeat(calls, || opaque(&answer()).is_err())
        },
        &mut |calls| {
            let answer = || direct::choose(opaque(&case.rules[..]), opaque(&case.packet));
            repeat(calls, || opaque(&answer()).is_err())
        },
    ])
}

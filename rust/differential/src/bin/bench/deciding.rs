//! Ranking and choosing beside two straightforward Rust choosers that make the same checks: one over
//! the same stored form (`differential::wordwise`), and one over rules that are parsed and stand
//! in records of their own (`standard::direct`), to whom the checks of the stored form are spared.
//! The bar is the first's time.

use crate::coding::{ports, FIVE_OCTETS};
use crate::timing::{opaque, repeat, Bar, Sheet, Times};
use differential::compare::Comparison;
use differential::stored::Stored;
use differential::{archive, packets, tables, wordwise};
use inputs::{framed, octets};
use standard::{direct, Content, Flow, Packet};

/// At most so much of the time of the Rust over the same stored form.
const RANK: f64 = 0.8;
const CHOOSE: f64 = 0.7;
/// At most so much more than there are more rules or operators.
const GROWTH: f64 = 1.1;

pub const RUST: &str = "the Rust chooser's time";

/// How many rules there are to choose from.
const RULES: [usize; 3] = [1, 8, 64];
/// How many operators the lists have whose times are compared.
const OPERATORS: [usize; 2] = [8, 64];

/// Rules and a packet, and what is to be seen on them.
pub struct Case {
    pub name: String,
    pub rules: Vec<Flow>,
    pub packet: Packet,
}

/// Times all; nothing where the answers differ.
pub fn bench(sheet: &mut Sheet) -> bool {
    let pairs = pairs();
    let cases: Vec<Case> = RULES.into_iter().flat_map(cases).collect();
    let lists = OPERATORS.map(|count| case_of_lists(8, count));
    if !answers_agree(&pairs, cases.iter().chain(&lists)) {
        return false;
    }
    sheet.heading("octets", ["proved", "Rust", "parsed"]);
    for (name, one, other) in &pairs {
        let octets = standard::write(one.family, &one.rule).expect("these are good");
        let times = rank_times(one, other, sheet);
        let ratio = sheet.row("rank", name, octets.len(), times);
        sheet.bars.push(Bar {
            what: format!("rank, {name}"),
            figure: ratio,
            of: RUST.to_string(),
            most: RANK,
        });
    }
    sheet.heading("rules", ["proved", "Rust", "parsed"]);
    for case in cases.iter().chain(&lists) {
        let (name, count) = (&case.name, case.rules.len());
        let times = choose_times(case, sheet);
        let ratio = sheet.row("choose", name, count, times);
        sheet.bars.push(Bar {
            what: format!("choose, {name}, of {count}"),
            figure: ratio,
            of: RUST.to_string(),
            most: CHOOSE,
        });
    }
    let each = cases.len() / RULES.len();
    let (of_8, of_64) = (&cases[each..2 * each], &cases[2 * each..]);
    for (less, more) in of_8.iter().zip(of_64) {
        let what = format!("{}, 64 rules", more.name);
        growth(&what, "8 rules", less, more, sheet);
    }
    let [less, more] = &lists;
    growth("lists of 64 operators", "lists of 8", less, more, sheet);
    true
}

/// The time of eight times as much, by eight times the time; the two in turns.
fn growth(what: &str, of: &str, less: &Case, more: &Case, sheet: &mut Sheet) {
    let times = sheet.times([&mut proved(more), &mut proved(less)]);
    sheet.bars.push(Bar {
        what: format!("choose, {what}"),
        figure: times.ratio() / 8.0,
        of: format!("8 times the time of {of}"),
        most: GROWTH,
    });
}

fn flow(family: u8, body: &[u8]) -> Flow {
    let rule = standard::read(family, &framed(body))
        .expect("these are accepted")
        .rule;
    Flow { family, rule }
}

/// Two rules that are the same, that differ at the front and that differ at the end.
fn pairs() -> Vec<(&'static str, Flow, Flow)> {
    let five = |host: u8, flags: u8| {
        let mut body = octets(FIVE_OCTETS).split_off(1);
        (body[3], *body.last_mut().expect("it is not empty")) = (host, flags);
        flow(4, &body)
    };
    let list = || flow(4, &ports(200));
    vec![
        ("5 components, equal", five(0, 2), five(0, 2)),
        ("5 components, another address", five(0, 2), five(1, 2)),
        ("5 components, other flags", five(0, 2), five(0, 3)),
        ("200-octet port list, equal", list(), list()),
    ]
}

/// Choices among so many rules.
pub fn cases(count: usize) -> Vec<Case> {
    let case = |name: &str, rule: &dyn Fn(u8) -> Flow, packet| Case {
        name: name.to_string(),
        rules: (0..count).map(|place| rule(place as u8)).collect(),
        packet,
    };
    let last = count as u8 - 1;
    vec![
        case(
            "net, protocol, port; the last matches",
            &net,
            packet_4(last),
        ),
        case("net, protocol, port; none matches", &net, packet_4(200)),
        case("5 components, all match", &five, packet_4(2)),
        case("4 components, IPv6, all match", &four, packet_6()),
        case_of_lists(count, 66),
    ]
}

/// To a network of its own, TCP, port 80.
fn net(place: u8) -> Flow {
    let net = [1, 24, 192, 0, place];
    flow(4, &[&net[..], &octets("03 81 06 05 81 50")].concat())
}

/// Two prefixes, TCP, ports 80 to 90 or one of its own, SYN.
fn five(place: u8) -> Flow {
    let front = octets("01 18 C0 00 02 02 18 CB 00 71 03 81 06 05 03 50 45 5A 91");
    let port = [1, 0xFF - place];
    flow(4, &[&front[..], &port, &octets("09 81 02")].concat())
}

/// Two prefixes, one with an offset, TCP, ports from 80 to one of its own.
fn four(place: u8) -> Flow {
    let prefixes = octets("01 30 00 20 01 0D B8 00 00 02 68 40 12 34 56 78 9A");
    let ports = octets("03 81 06 05 03 50 D5 01");
    flow(6, &[&prefixes[..], &ports, &[0xFF - place]].concat())
}

/// So many rules with a list of so many ports each, of which the last matches.
fn case_of_lists(rules: usize, operators: usize) -> Case {
    let with_last = |place: usize| {
        let mut flow = flow(4, &ports(1 + 3 * operators));
        if let Content::List(list) = &mut flow.rule.components[0].content {
            list[operators / 2].value += place as u64;
            list[operators - 1].value = 80;
        }
        flow
    };
    Case {
        name: format!("lists of {operators} ports, all match"),
        rules: (0..rules).map(with_last).collect(),
        packet: packet_4(2),
    }
}

/// A packet to port 80 of 192.0.NET.7.
fn packet_4(net: u8) -> Packet {
    Packet {
        family: 4,
        destination: u32::from_be_bytes([192, 0, net, 7]).into(),
        source: 0xCB00_7101,
        protocol: 6,
        length: 1500,
        dscp: 0,
        fragment: 0,
        ports: Some((50_000, 80)),
        icmp: None,
        flags: Some(2),
        label: None,
    }
}

fn packet_6() -> Packet {
    Packet {
        family: 6,
        destination: 0x2001_0DB8 << 96 | 7,
        source: 0x12_3456_789A << 24 | 7,
        label: Some(7),
        ..packet_4(2)
    }
}

fn stored(flow: &Flow) -> Stored {
    let mut stored = Stored::new(0);
    stored.put_standard(flow.family, &flow.rule);
    stored
}

pub fn table(rules: &[Flow]) -> Stored {
    let mut table = tables::empty();
    rules
        .iter()
        .for_each(|rule| tables::push(&mut table, &stored(rule)));
    table
}

/// What is timed must be the same work.
fn answers_agree<'a>(pairs: &[(&str, Flow, Flow)], cases: impl Iterator<Item = &'a Case>) -> bool {
    let mut comparison = Comparison::new();
    for (_, one, other) in pairs {
        comparison.ranking(&stored(one), &stored(other));
    }
    for case in cases {
        comparison.choosing(&table(&case.rules), &packets::words(&case.packet));
    }
    comparison.differ == 0
}

fn rank_times(one: &Flow, other: &Flow, sheet: &mut Sheet) -> Times<3> {
    let (ours, theirs) = (&stored(one), &stored(other));
    sheet.times([
        &mut |calls| {
            let answer = || archive::rank(opaque(ours), opaque(theirs));
            repeat(calls, || opaque(&answer()).status != 0)
        },
        &mut |calls| {
            let answer = || wordwise::rank(opaque(ours), opaque(theirs));
            repeat(calls, || opaque(&answer()).is_err())
        },
        &mut |calls| {
            let answer = || direct::rank(opaque(one), opaque(other));
            repeat(calls, || opaque(&answer()).is_err())
        },
    ])
}

/// Choices by the proved code.
fn proved(case: &Case) -> impl FnMut(u64) -> u64 {
    let (table, words) = (table(&case.rules), packets::words(&case.packet));
    move |calls| {
        let answer = || archive::choose(opaque(&table), opaque(&words));
        repeat(calls, || opaque(&answer()).status != 0)
    }
}

pub fn choose_times(case: &Case, sheet: &mut Sheet) -> Times<3> {
    let (table, words) = (&table(&case.rules), &packets::words(&case.packet));
    let (rules, packet) = (&case.rules[..], &case.packet);
    sheet.times([
        &mut proved(case),
        &mut |calls| {
            let answer = || wordwise::choose(opaque(table), opaque(words));
            repeat(calls, || opaque(&answer()).is_err())
        },
        &mut |calls| {
            let answer = || direct::choose(opaque(rules), opaque(packet));
            repeat(calls, || opaque(&answer()).is_err())
        },
    ])
}

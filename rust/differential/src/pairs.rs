//! Sets of rules of which every two are ranked: well-formed rules of one family and one
//! distinguisher, or none, that are much like one another.

use crate::edges::{bit, list, of_two_types, prefix, stored_rule, FAMILIES, WHOLE};
use crate::stored::{Stored, FIRST};
use crate::{flows, tables, LONGEST_BODY};
use inputs::{framed, list_of, Random, DISTINGUISHERS};
use standard::{Component, Content, Distinguisher, Flow, Rule, DISTINGUISHER_OCTETS};

/// How many rules a random set has.
const RULES: usize = 5;

/// Whoever is handed a set of rules.
pub type TakeSet<'a> = &'a mut dyn FnMut(&[Stored]);

/// The components of a rule.
type Components = Vec<Component>;

/// All sets that are made by rule: without a distinguisher, with one of zeros and with another.
pub fn by_rule(take: TakeSet) {
    for family in FAMILIES {
        for own in [None, Some(DISTINGUISHERS[0]), Some(DISTINGUISHERS[1])] {
            let stored = |components| stored_rule(&flow(family, own, components));
            let mut take_set = |rules: Vec<Components>| {
                let rules: Vec<Stored> = rules.into_iter().map(stored).collect();
                take(&rules);
            };
            for kind in 3..=flows::last_type(family) {
                take_set(one_operator(kind));
                take_set(one_bit(kind));
                take_set(up_to_three_operators(kind));
            }
            take_set(prefixes_of_few_bits(family));
            take_set(prefixes_around_octets(family));
            take_set(of_two_types(family, flows::last_type(family)).collect());
            take_set(of_all_types(family));
            take_set(long(family, own));
            take(&places(family, own));
        }
    }
}

fn flow(family: u8, distinguisher: Option<Distinguisher>, components: Components) -> Flow {
    let rule = Rule {
        distinguisher,
        components,
    };
    Flow { family, rule }
}

/// One operator of every width that the type has, with all bits of the comparison and all that are
/// reserved, and one of two values.
fn one_operator(kind: u8) -> Vec<Components> {
    let codes = 0..=flows::most_code(kind);
    let octets = codes.flat_map(|code| (0..16).map(move |low| 0x80 | code << 4 | low));
    let operators = octets.flat_map(|octet| [(octet, 5), (octet, 6)]);
    operators.map(|one| vec![list(kind, &[one])]).collect()
}

/// A value of each width that the type has, and apart from it in the first or the last bit of an octet.
fn one_bit(kind: u8) -> Vec<Components> {
    let mut rules = Vec::new();
    for code in 0..=flows::most_code(kind) {
        let bits = 8u32 << code;
        let whole = 0x1122_3344_5566_7788 >> (64 - bits);
        let apart = (0..bits).filter(|bit| [0, 7].contains(&(bit % 8)));
        let values = apart.map(|bit| whole ^ 1 << bit).chain([whole]);
        rules.extend(values.map(|value| vec![list(kind, &[(0x81 | code << 4, value)])]));
    }
    rules
}

/// One operator, two and three, each as others or apart from them in its value, a reserved bit, its
/// AND or its width.
fn up_to_three_operators(kind: u8) -> Vec<Components> {
    let all = [(0x01, 5), (0x01, 6), (0x09, 5), (0x41, 5), (0x11, 5)];
    let is_known = |&(octet, _): &(u8, u64)| octet >> 4 & 3 <= flows::most_code(kind);
    let later: Vec<(u8, u64)> = all.into_iter().filter(is_known).collect();
    let first = later.iter().filter(|(octet, _)| octet & 0x40 == 0);
    let mut lists: Vec<Vec<(u8, u64)>> = first.map(|&one| vec![one]).collect();
    let mut longest = lists.clone();
    for _ in 1..3 {
        let longer = |list: &Vec<(u8, u64)>| {
            let longer = later.iter().map(|&one| [&list[..], &[one]].concat());
            longer.collect::<Vec<_>>()
        };
        longest = longest.iter().flat_map(longer).collect();
        lists.extend(longest.iter().cloned());
    }
    let ended = |mut operators: Vec<(u8, u64)>| {
        operators.last_mut().expect("there is one").0 |= 0x80;
        vec![list(kind, &operators)]
    };
    lists.into_iter().map(ended).collect()
}

/// The offsets that a prefix of this length can have.
fn offsets(family: u8, length: u8) -> std::ops::Range<u8> {
    match family {
        4 => 0..1,
        _ => 0..length.max(1),
    }
}

/// Every prefix of up to four bits, in IPv6 with every offset, of either type; the rule ended behind
/// it or not.
fn prefixes_of_few_bits(family: u8) -> Vec<Components> {
    let mut rules = Vec::new();
    for length in 0..=4 {
        for offset in offsets(family, length) {
            for bits in 0..1u128 << (length - offset) {
                let address = bits.checked_shl(128 - u32::from(length)).unwrap_or(0);
                for kind in [1, 2] {
                    let own = prefix(kind, family, address, length, offset);
                    rules.push(vec![own.clone()]);
                    rules.push(vec![own, list(3, &[(0x81, 6)])]);
                }
            }
        }
    }
    rules
}

/// Prefixes that end and, in IPv6, begin around the end of an octet, with the bits the same and
/// apart in the first and in the last; and such of 10 and of 11.
fn prefixes_around_octets(family: u8) -> Vec<Components> {
    let mut rules = Vec::new();
    let longest = if family == 4 { 32 } else { 128 };
    let lengths = [0, 1, 7, 8, 9, 15, 16, 17, 31, 32, 63, 64, 65, 127, 128];
    for length in lengths.into_iter().filter(|&length| length <= longest) {
        let near = offsets(family, length);
        let near = near.filter(|offset| [0, 1, 7, 8, 9, 63, 64].contains(offset));
        for offset in near {
            let last = length.wrapping_sub(1);
            for address in [WHOLE, WHOLE ^ bit(offset), WHOLE ^ bit(last)] {
                rules.push(vec![prefix(1, family, address, length, offset)]);
            }
        }
        for first in [0x0A, 0x0B] {
            rules.push(vec![prefix(1, family, first << 120, length, 0)]);
        }
    }
    rules
}

/// A rule of all types, and such that are apart from it in one component or lack one.
fn of_all_types(family: u8) -> Vec<Components> {
    let component = |kind: u8, octet: u8| match kind {
        1 | 2 => prefix(kind, family, u128::from(octet) << 120, 8, 0),
        _ => list(kind, &[(0x81, octet.into())]),
    };
    let kinds = 1..=flows::last_type(family);
    let whole: Components = kinds.map(|kind| component(kind, 10)).collect();
    let mut rules = vec![whole.clone()];
    for place in 0..whole.len() {
        let mut apart = whole.clone();
        apart[place] = component(whole[place].kind, 11);
        rules.push(apart.clone());
        apart.remove(place);
        rules.push(apart);
    }
    rules
}

/// Rules whose bodies have a length field of one octet or two, or are the longest, each as it is and
/// apart in the last value or in a reserved bit.
fn long(family: u8, own: Option<Distinguisher>) -> Vec<Components> {
    let before = own.map_or(0, |_| DISTINGUISHER_OCTETS);
    let mut rules = Vec::new();
    let lengths = (238..=241).chain(255..=257);
    for length in lengths.chain(LONGEST_BODY - 2..=LONGEST_BODY) {
        for code in [0, 3] {
            let input = framed(&list_of(4, length - before, code));
            let read = standard::read(family, &input).expect("these are accepted");
            let components = read.rule.components;
            for (bit, value) in [(0, 0), (0, 1), (flows::reserved_bits(4), 0)] {
                let mut apart = components.clone();
                if let Content::List(list) = &mut apart[0].content {
                    let last = list.last_mut().expect("there is one");
                    last.octet ^= bit;
                    last.value ^= value;
                }
                rules.push(apart);
            }
        }
    }
    rules
}

/// A rule of three lists, one that is apart from it in the last value and one in its width, each
/// with its lists in every order, with operators of nobody between them, before them and not; and
/// two lists that are the same and may have the same places.
fn places(family: u8, own: Option<Distinguisher>) -> Vec<Stored> {
    let mut rules = Vec::new();
    for last in [(0x81, 2), (0x81, 3), (0x91, 2)] {
        let ports = list(5, &[(0x03, 80), (0xC5, 90)]);
        let components = vec![list(3, &[(0x81, 6)]), ports, list(9, &[(0x01, 4), last])];
        let held = stored_rule(&flow(family, own, components));
        for order in [
            [0, 1, 2],
            [0, 2, 1],
            [1, 0, 2],
            [1, 2, 0],
            [2, 0, 1],
            [2, 1, 0],
        ] {
            for between in 0..3 {
                let mut rule = held.clone();
                move_lists(&mut rule, &order, |rule| {
                    rule.octets.resize(rule.octets.len() + between, 0xFF);
                    rule.values.resize(rule.octets.len(), u64::MAX);
                });
                rules.push(rule);
            }
        }
    }
    let same = [5, 6].map(|kind| list(kind, &[(0x81, 80)]));
    let mut rule = stored_rule(&flow(family, own, same.to_vec()));
    rules.push(rule.clone());
    rule.words[5] = rule.words[1];
    rules.push(rule);
    rules
}

/// Puts the lists of a rule to other places in the lent ones: in this order, operators that are
/// nobody's before the rule's first place, before each list and behind them all.
fn move_lists(rule: &mut Stored, order: &[usize], mut put_others: impl FnMut(&mut Stored)) {
    let held = rule.clone();
    rule.values.clear();
    rule.octets.clear();
    put_others(rule);
    rule.words[FIRST] = rule.values.len() as u64;
    for component in order {
        put_others(rule);
        let (start, count) = (4 * component + 1, 4 * component + 2);
        let from = (held.words[FIRST] + held.words[start]) as usize;
        let places = from..from + held.words[count] as usize;
        rule.words[start] = rule.values.len() as u64 - rule.words[FIRST];
        rule.values.extend(&held.values[places.clone()]);
        rule.octets.extend(&held.octets[places]);
    }
    put_others(rule);
}

/// A random set: each rule but the first is made from one before it, and how is told; their lists
/// stand anywhere in the lent ones, now and then in one pair for all.
pub fn random(random: &mut Random) -> (Vec<Stored>, Vec<&'static str>) {
    let family = random.pick(&FAMILIES);
    let own = random.once_in(2).then(|| inputs::distinguisher(random));
    let good = |random: &mut Random| (flows::good(family, random), "");
    let mut flows = vec![well_formed(own, random, good).0];
    let mut ways = Vec::new();
    while flows.len() < RULES {
        let from = flows[random.below(flows.len())].clone();
        let (next, way) = well_formed(own, random, |random| next_to(&from, random));
        flows.push(next);
        ways.push(way);
    }
    let stored = flows.iter().map(|flow| store_anywhere(flow, random));
    let mut rules: Vec<Stored> = stored.collect();
    if random.once_in(8) {
        tables::share_lists(&mut rules);
    }
    (rules, ways)
}

/// A rule that the standard writing takes with this distinguisher, which one with many operators may
/// be too long for.
fn well_formed(
    own: Option<Distinguisher>,
    random: &mut Random,
    make: impl Fn(&mut Random) -> (Flow, &'static str),
) -> (Flow, &'static str) {
    loop {
        let (mut flow, way) = make(random);
        flow.rule.distinguisher = own;
        if standard::write(flow.family, &flow.rule).is_ok() {
            return (flow, way);
        }
    }
}

/// A rule that is written as this one, one that is apart from it in one thing, or any, and which.
fn next_to(flow: &Flow, random: &mut Random) -> (Flow, &'static str) {
    match random.below(16) {
        0 => (flows::good(flow.family, random), "any two"),
        1..=3 => (flow.clone(), "nothing"),
        4..=6 => {
            let mut flow = flow.clone();
            let components = &mut flow.rule.components;
            components.iter_mut().for_each(|one| reserve(one, random));
            (flow, "reserved bits")
        }
        7..=8 => {
            let mut flow = flow.clone();
            let way = change_drawn(&mut flow, random);
            (flow, way)
        }
        _ => flows::like(flow, random),
    }
}

/// Changes a bit of a value, whichever octet it is in, or a whole prefix.
fn change_drawn(flow: &mut Flow, random: &mut Random) -> &'static str {
    let components = &mut flow.rule.components;
    let drawn = random.below(components.len().max(1));
    match components.get_mut(drawn).map(|one| &mut one.content) {
        None => "nothing",
        Some(Content::Prefix(prefix)) => {
            *prefix = flows::prefix(flow.family, random);
            "a prefix"
        }
        Some(Content::List(list)) => {
            let drawn = random.below(list.len());
            let bits = 8 << (list[drawn].octet >> 4 & 3);
            list[drawn].value ^= 1 << random.below(bits);
            "a bit of a value"
        }
    }
}

/// Changes any reserved bits of a component's operators.
fn reserve(component: &mut Component, random: &mut Random) {
    let reserved = flows::reserved_bits(component.kind);
    if let Content::List(list) = &mut component.content {
        for operator in list {
            operator.octet ^= random.octet() & reserved;
        }
    }
}

/// Stores a rule, half of the time with its lists in any order and others' operators between them.
fn store_anywhere(flow: &Flow, random: &mut Random) -> Stored {
    let mut rule = Stored::new(0);
    flows::store(flow, random, &mut rule);
    if random.once_in(2) {
        return rule;
    }
    let is_list = |&at: &usize| flow.rule.components[at].kind > 2;
    let mut lists: Vec<usize> = (0..rule.count()).filter(is_list).collect();
    for end in (1..lists.len()).rev() {
        lists.swap(end, random.below(end + 1));
    }
    move_lists(&mut rule, &lists, |rule| {
        for _ in 0..random.below(3) {
            rule.octets.push(random.octet());
            rule.values.push(random.value());
        }
    });
    rule
}

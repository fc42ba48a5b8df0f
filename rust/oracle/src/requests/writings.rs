//! Requests to write: rules of at most 13 components and 2,047 operators, which is what the plain
//! writing takes.

use super::readings::fixed;
use super::sample::{any_rule, good_rule, prefix_forms, rule_of_length, Random};
use crate::flowspec::parse_flowspec_nlri;
use crate::text;

/// A value whose octets all differ, so that a cut shows.
const VALUE: u64 = 0x0123_4567_89AB_CDEF;

pub fn requests() -> Vec<String> {
    let rules = rules().into_iter();
    rules.map(|rule| format!("encode {rule}")).collect()
}

pub fn rules() -> Vec<String> {
    let mut rules = read_rules();
    rules.extend(prefixes());
    rules.extend(lists());
    rules.extend(operator_octets());
    rules.extend(orders());
    rules.extend(long_bodies());
    rules.extend(random_rules());
    rules
}

/// What the fixed inputs of the readings read as.
fn read_rules() -> Vec<String> {
    let rules = fixed().into_iter().map(|input| parse_flowspec_nlri(&input));
    rules.flatten().map(|rule| text::rule_text(&rule)).collect()
}

/// Every form at every length its address has, and offsets in, at and past the length.
fn prefixes() -> Vec<String> {
    let mut rules: Vec<String> = (0..=128)
        .flat_map(prefix_forms)
        .filter(|form| text::component(form).is_ok())
        .collect();
    let (short, long) = ("C0000201", "20010DB8123456789ABCDEF013579BDF");
    for offset in [0, 1, 63, 64, 65, 127, 128, 255] {
        rules.push(format!("1:4o/{offset}/32/{short}"));
        rules.push(format!("2:4o/{offset}/0/{short}"));
        for length in [0, 1, 64, 65, 128] {
            rules.push(format!("1:6o/{offset}/{length}/{long}"));
        }
    }
    rules
}

/// Every list type with every width: values that fit and that are cut, no operators at all, no end
/// mark, and end marks on every operator.
fn lists() -> Vec<String> {
    let mut rules = vec!["-".to_string()];
    for kind in 3..=13 {
        rules.push(format!("{kind}:"));
        rules.push(format!("{kind}:;{kind}:81=6"));
        for code in 0..4 {
            let greatest = u64::MAX >> (64 - (8u32 << code));
            let next = greatest.wrapping_add(1);
            for value in [0, greatest, next, VALUE, u64::MAX] {
                rules.push(format!("{kind}:{:02X}={value}", 0x81 | code << 4));
            }
            let open = 0x41 | code << 4;
            rules.push(format!("{kind}:{open:02X}={VALUE},{open:02X}=1"));
            rules.push(format!("{kind}:80=1,{:02X}={VALUE},81=2", open | 0x80));
        }
    }
    rules
}

/// Every operator octet, reserved bits and all, in a numeric and in a bitmask list.
fn operator_octets() -> Vec<String> {
    let octets = (0..=0xFF).flat_map(|octet| [5, 9].map(|kind| (kind, octet)));
    octets
        .map(|(kind, octet)| format!("{kind}:{octet:02X}={VALUE}"))
        .collect()
}

/// Types in every order, and as many components as a rule may have: rising, falling, all alike.
fn orders() -> Vec<String> {
    let kinds: Vec<u8> = (1..=13).collect();
    let pairs = kinds
        .iter()
        .flat_map(|&a| kinds.iter().map(move |&b| vec![a, b]));
    let falling = kinds.iter().rev().copied().collect();
    let alike = [1, 2, 9, 13].map(|kind| vec![kind; 13]);
    let orders = pairs.chain([kinds.clone(), falling]).chain(alike);
    orders
        .map(|order| {
            let components: Vec<String> = order.into_iter().map(component).collect();
            components.join(";")
        })
        .collect()
}

/// Bodies where the length takes a second octet, where its high part begins, at the longest that
/// may be written, and past it up to the longest that can be asked for.
fn long_bodies() -> Vec<String> {
    let mut rules = Vec::new();
    for length in (237..=242).chain(254..=258) {
        for widest in [1, 2, 4, 8] {
            rules.push(text::rule_text(&rule_of_length(length, widest)));
        }
    }
    for length in (4093..=4098).chain([1024, 2303, 8191, 8192]) {
        rules.push(text::rule_text(&rule_of_length(length, 8)));
    }
    for length in [4095, 4096] {
        rules.push(text::rule_text(&rule_of_length(length, 2)));
    }
    let most = vec!["31=0"; 2047].join(",");
    rules.push(format!("4:{most}"));
    // Over the longest by a prefix after the list.
    let full = text::rule_text(&rule_of_length(4092, 8));
    rules.push(format!("{full};1:4/8/0A000000"));
    rules.push(format!("{full};1:4/9/0A000000"));
    rules
}

fn random_rules() -> Vec<String> {
    let mut random = Random::new(0xF11);
    let good = (0..150).map(|_| good_rule(&mut random)).collect::<Vec<_>>();
    let any = (0..300).map(|_| any_rule(&mut random));
    let rules = good.into_iter().chain(any);
    rules.map(|rule| text::rule_text(&rule)).collect()
}

/// A least component of this type.
fn component(kind: u8) -> String {
    match kind {
        1 | 2 => format!("{kind}:4/8/0A000000"),
        _ => format!("{kind}:81=6"),
    }
}

//! Requests about whole rules: readings, and what is asked of a rule's components.

use super::readings;
use super::sample::{any_rule, prefix_forms, Random};
use crate::text;

pub fn requests() -> Vec<String> {
    let mut list = readings::requests();
    list.extend(components().map(|one| format!("kind {one}")));
    list.extend(components().map(|one| format!("family {one}")));
    list.extend(families());
    list
}

/// One component of each form and type, lists also empty.
fn components() -> impl Iterator<Item = String> {
    let prefixes = prefix_forms(24).into_iter();
    let lists = (3..=13).flat_map(|kind| [format!("{kind}:"), format!("{kind}:81=6")]);
    prefixes.chain(lists)
}

/// Rules whose prefixes agree and disagree in family, in both orders, and random ones.
fn families() -> Vec<String> {
    let forms = prefix_forms(32);
    let pairs = forms
        .iter()
        .flat_map(|a| forms.iter().map(move |b| format!("{a};{b}")));
    let mut random = Random::new(0xFA);
    let any = (0..100).map(move |_| text::rule_text(&any_rule(&mut random)));
    let rules = ["-".to_string()].into_iter().chain(pairs).chain(any);
    rules.map(|rule| format!("family {rule}")).collect()
}

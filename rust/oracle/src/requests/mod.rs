//! The fixed lists of requests. Their answers are stored and compared with those of the proved code, so
//! a list is the same on every machine and at every time.

mod operators;
mod readings;
mod rules;
mod sample;
mod writings;

use std::collections::HashSet;

/// A list that can be asked for by name.
struct Part {
    name: &'static str,
    /// Whether `replayed`, the list that the crate `replay` reads, has it.
    replayed: bool,
    requests: fn() -> Vec<String>,
}

const PARTS: [Part; 3] = [
    Part {
        name: "operators",
        replayed: true,
        requests: operators::requests,
    },
    Part {
        name: "readings",
        replayed: true,
        requests: rules::requests,
    },
    Part {
        name: "writings",
        replayed: false,
        requests: writings::requests,
    },
];

/// The requests of the part with this name, or of all that are `replayed`, each once.
pub fn part(name: &str) -> Option<Vec<String>> {
    let wanted = |part: &&Part| part.name == name || (name == "replayed" && part.replayed);
    let parts: Vec<&Part> = PARTS.iter().filter(wanted).collect();
    if parts.is_empty() {
        return None;
    }
    Some(once(parts.iter().flat_map(|part| (part.requests)())))
}

/// The rules of the part `writings`, each once.
pub fn written_rules() -> Vec<String> {
    once(writings::rules().into_iter())
}

/// The list without what it has already had.
fn once(list: impl Iterator<Item = String>) -> Vec<String> {
    let mut seen = HashSet::new();
    list.filter(|one| seen.insert(one.clone())).collect()
}

/// The names that `part` knows, for messages.
pub fn names() -> String {
    let names = PARTS.iter().map(|part| part.name);
    names.chain(["replayed"]).collect::<Vec<_>>().join(", ")
}

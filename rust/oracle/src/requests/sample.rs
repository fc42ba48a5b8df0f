//! What the lists of readings and writings are made of: a seeded generator, random rules, and rules
//! of a given length.

use crate::flowspec::FlowSpecNlri;
use crate::text;

/// The same numbers from the same seed, everywhere. What is drawn from them stays as it was when the
/// lists were first stored, by remainders.
pub struct Random(inputs::Random);

impl Random {
    pub fn new(seed: u64) -> Self {
        Random(inputs::Random::new(seed))
    }

    pub fn number(&mut self) -> u64 {
        self.0.number()
    }

    /// A number below `bound`, which is small, so that the bias does not matter.
    pub fn below(&mut self, bound: usize) -> usize {
        (self.number() % bound as u64) as usize
    }

    pub fn octet(&mut self) -> u8 {
        self.0.octet()
    }

    /// A value of any magnitude: evenly drawn ones would nearly all need eight octets.
    fn value(&mut self) -> u64 {
        self.number() >> self.below(64)
    }
}

/// A rule that the original accepts: rising types, closed lists, no reserved bits. Values may be
/// too large for their width; writing cuts them.
pub fn good_rule(random: &mut Random) -> FlowSpecNlri {
    let mut components = Vec::new();
    for kind in 1..=13 {
        if random.below(4) == 0 {
            components.push(match kind {
                1 | 2 => format!("{kind}:{}", plain_prefix(random)),
                _ => format!("{kind}:{}", closed_list(random, kind)),
            });
        }
    }
    rule(&components)
}

/// A rule of any shape that the records can hold: any order, repeats, offsets, lists that are
/// empty, unclosed or closed early.
pub fn any_rule(random: &mut Random) -> FlowSpecNlri {
    let count = random.below(6);
    let components: Vec<String> = (0..count)
        .map(|_| match 1 + random.below(13) {
            kind @ (1 | 2) if random.below(2) == 0 => format!("{kind}:{}", plain_prefix(random)),
            kind @ (1 | 2) => format!("{kind}:{}", offset_prefix(random)),
            kind => format!("{kind}:{}", any_list(random)),
        })
        .collect();
    rule(&components)
}

/// A rule whose body has exactly `length` octets, at least 3: one port list of values up to
/// `widest` octets, the last one wider if it only comes out so. The values are small, since their
/// text is long beside their octets.
pub fn rule_of_length(length: usize, widest: usize) -> FlowSpecNlri {
    let mut operators = Vec::new();
    let mut left = length - 1;
    while left != 0 {
        let fits = |code: &u8| {
            let taken = 1 + (1 << code);
            taken == left || (1 << code <= widest && taken + 2 <= left)
        };
        let code = (0..4).rev().find(fits).expect("a body of 3 octets or more");
        left -= 1 + (1 << code);
        let end = if left == 0 { 0x80 } else { 0 };
        let value = operators.len() % 10;
        operators.push(format!("{:02X}={value}", end | code << 4 | 0x01));
    }
    rule(&[format!("4:{}", operators.join(","))])
}

/// The eight forms of a prefix component, of this length and with every address bit set.
pub fn prefix_forms(length: u8) -> Vec<String> {
    let (short, long) = ("F".repeat(8), "F".repeat(32));
    let contents = [
        format!("4/{length}/{short}"),
        format!("6/{length}/{long}"),
        format!("4o/8/{length}/{short}"),
        format!("6o/8/{length}/{long}"),
    ];
    let forms = [1, 2].map(|kind| contents.clone().map(|content| format!("{kind}:{content}")));
    forms.concat()
}

/// The rule with these components, which are texts because a text can say everything shortly.
fn rule(components: &[String]) -> FlowSpecNlri {
    let components = components.iter().map(|one| text::component(one));
    let components = components.collect::<Result<_, _>>();
    FlowSpecNlri::new(components.expect("the generator writes components"))
}

fn plain_prefix(random: &mut Random) -> String {
    let (family, length, address) = address(random);
    format!("{family}/{length}/{address}")
}

fn offset_prefix(random: &mut Random) -> String {
    let offset = random.octet();
    let (family, length, address) = address(random);
    format!("{family}o/{offset}/{length}/{address}")
}

fn address(random: &mut Random) -> (u8, usize, String) {
    if random.below(2) == 0 {
        let address = random.number() as u32;
        (4, random.below(33), format!("{address:08X}"))
    } else {
        let (high, low) = (random.number(), random.number());
        (6, random.below(129), format!("{high:016X}{low:016X}"))
    }
}

fn closed_list(random: &mut Random, kind: u8) -> String {
    let allowed = if matches!(kind, 9 | 12) { 0x73 } else { 0x77 };
    let last = random.below(4);
    let operators: Vec<String> = (0..=last)
        .map(|place| {
            let end = if place == last { 0x80 } else { 0 };
            format!("{:02X}={}", end | random.octet() & allowed, random.value())
        })
        .collect();
    operators.join(",")
}

fn any_list(random: &mut Random) -> String {
    let count = random.below(5);
    let operators: Vec<String> = (0..count)
        .map(|_| format!("{:02X}={}", random.octet(), random.value()))
        .collect();
    operators.join(",")
}

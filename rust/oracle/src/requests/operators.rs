//! Requests about single operators: every octet, and values on both sides of each width.

/// The least and the greatest value of each width.
const EDGES: [u64; 8] = [
    0,
    0xFF,
    0x100,
    0xFFFF,
    0x1_0000,
    0xFFFF_FFFF,
    0x1_0000_0000,
    u64::MAX,
];

/// More values for the constructors, which choose a width.
const NEAR: [u64; 7] = [
    1,
    0x80,
    0xFE,
    0x101,
    0x7FFF_FFFF,
    0xFFFF_FFFE,
    0x8000_0000_0000_0000,
];

const CONSTRUCTORS: [&str; 4] = [
    "equal_to",
    "greater_than_or_equal",
    "exact_match",
    "partial_match",
];

const WIDTHS: [u8; 4] = [1, 2, 4, 8];

pub fn requests() -> Vec<String> {
    let mut list = Vec::new();
    for call in ["numeric", "bitmask"] {
        for octet in 0..=0xFFu8 {
            list.extend(EDGES.map(|value| format!("{call} {octet:X} {value:X}")));
        }
    }
    for call in CONSTRUCTORS {
        let values = EDGES.iter().chain(&NEAR);
        list.extend(values.map(|value| format!("{call} {value:X}")));
    }
    records("numeric_record", 3, &mut list);
    records("bitmask_record", 2, &mut list);
    list
}

/// Every record of a kind that has so many flags after its width.
fn records(call: &str, flags: u32, list: &mut Vec<String>) {
    for before in 0..4 {
        for width in WIDTHS {
            for after in 0..1 << flags {
                let (before, after) = (flag_fields(before, 2), flag_fields(after, flags));
                let values = [0, u64::MAX];
                list.extend(
                    values.map(|value| format!("{call}{before} {width:X}{after} {value:X}")),
                );
            }
        }
    }
}

/// So many flags as fields, the highest bit first.
fn flag_fields(bits: u32, count: u32) -> String {
    let fields = (0..count)
        .rev()
        .map(|place| format!(" {}", bits >> place & 1));
    fields.collect()
}

//! Records for the writings: those made by rule, which every run has, and random ones. Many are
//! outside what a writing takes; the peers know which.

use crate::stored::{Stored, COUNT, DISTINGUISHED, FAMILY, FIRST, UNUSED, WORDS};
use crate::stored::{IPV4, IPV4_OFFSET, IPV6, IPV6_OFFSET};
use crate::{Form, LONGEST_BODY, MOST_COMPONENTS, MOST_OPERATORS};
use inputs::{list_of, most_code, Random, DISTINGUISHERS, LONG_LISTS};
use standard::DISTINGUISHER_OCTETS;

/// Whoever is handed the records, one after another.
pub type Take<'a> = &'a mut dyn FnMut(&Stored);

/// The least and the greatest value of each width, and one whose octets all differ.
const VALUES: [u64; 10] = [
    0,
    1,
    0xFF,
    0x100,
    0xFFFF,
    0x1_0000,
    0xFFFF_FFFF,
    0x1_0000_0000,
    0x0123_4567_89AB_CDEF,
    u64::MAX,
];

/// Numbers at which a sum passes a list's end, a maximum or a machine word.
const PLACES: [u64; 13] = [
    0,
    1,
    2,
    4,
    5,
    6,
    2047,
    2048,
    1 << 32,
    1 << 63,
    u64::MAX - 5,
    u64::MAX - 1,
    u64::MAX,
];

/// All records that are made by rule.
pub fn by_rule(form: Form, take: Take) {
    take(&empty(form));
    // The forms of a prefix are many, and have nothing to do with a distinguisher.
    if !matches!(form, Form::WithDistinguisher(_)) {
        prefixes(form, take);
    }
    operators(form, take);
    orders(form, take);
    long_bodies(form, take);
    maximums(form, take);
    spans(form, take);
    words(form, take);
    distinguishers(form, take);
}

/// A random record: one that the form's writing takes, as it is or damaged, one whose values may be
/// too wide for it, or one of any shape. Of the plain form, whose writing does not look at it, one
/// in four has a distinguisher.
pub fn random(form: Form, random: &mut Random, record: &mut Stored) {
    clear(form, record);
    match (form, random.below(8)) {
        (Form::Plain, 0..=3) | (_, 0) => any_record(random, record),
        (_, way) => {
            let widths = if way == 1 { Form::Plain } else { form };
            good_record(form, widths, random, record);
            if random.once_in(2) {
                damage(random, record);
            }
        }
    }
    match form {
        Form::Standard(_) => {}
        Form::Plain if !random.once_in(4) => {}
        _ => distinguish(random, record),
    }
}

/// Gives a record a distinguisher, one time in eight with a fault, or a change that may be none.
fn distinguish(random: &mut Random, record: &mut Stored) {
    record.put_distinguisher(Some(inputs::distinguisher(random)));
    if random.once_in(8) {
        damage_distinguisher(random, &mut record.words);
    }
}

/// Changes the words that hold a rule's distinguisher, or one behind them.
pub fn damage_distinguisher(random: &mut Random, words: &mut [u64]) {
    match random.below(6) {
        0 => words[DISTINGUISHED] ^= 1,
        1 => words[DISTINGUISHED] = random.pick(&[2, 3, 256, 257, 1 << 32, 1 << 63, u64::MAX]),
        2 => words[DISTINGUISHED + 1] ^= 1 << random.below(64),
        3 => words[DISTINGUISHED + 1] = 0,
        4 => words[DISTINGUISHED..UNUSED].fill(0),
        _ => words[UNUSED + random.below(WORDS - UNUSED)] = random.value(),
    }
}

/// A rule of this form with no components.
fn empty(form: Form) -> Stored {
    let mut record = Stored::new(0);
    clear(form, &mut record);
    record
}

fn clear(form: Form, record: &mut Stored) {
    record.clear(form.family().unwrap_or(0).into());
    if let Form::WithDistinguisher(_) = form {
        record.put_distinguisher(Some(DISTINGUISHERS[1]));
    }
}

/// Every form, length and offset of a prefix: all address bits set, those of the prefix alone, and
/// those with a bit beside them.
fn prefixes(form: Form, take: Take) {
    let mut record = empty(form);
    for kind in [1, 2] {
        for prefix_form in [IPV4, IPV6, IPV4_OFFSET, IPV6_OFFSET] {
            let last_offset = if prefix_form < IPV4_OFFSET { 1 } else { 255 };
            for offset in (0..=last_offset).step_by(kind) {
                for length in 0..=255 {
                    for address in addresses(prefix_form, length, offset) {
                        clear(form, &mut record);
                        record.push_prefix(kind as u8, prefix_form, length, offset, address);
                        take(&record);
                    }
                }
            }
        }
    }
}

/// Addresses for a prefix: all bits set, those of the prefix alone, some of them, and with a bit beside
/// it on each side.
pub fn addresses(prefix_form: u64, length: u8, offset: u8) -> [u128; 5] {
    let size = address_size(prefix_form);
    let bit = |place: u32| {
        if place < size {
            1 << (size - 1 - place)
        } else {
            0
        }
    };
    let (length, offset) = (u32::from(length), u32::from(offset));
    let clean = between(prefix_form, length as usize, offset as usize);
    let every = between(prefix_form, size as usize, 0);
    [
        every,
        clean,
        clean & 0x5A5A_5A5A_C3C3_C3C3_9696_9696_0FF0_0FF1,
        clean | bit(length),
        clean | bit(offset.wrapping_sub(1)),
    ]
}

fn address_size(prefix_form: u64) -> u32 {
    match prefix_form {
        IPV4 | IPV4_OFFSET => 32,
        _ => 128,
    }
}

/// The address whose bits from the offset up to the length are set.
fn between(prefix_form: u64, length: usize, offset: usize) -> u128 {
    let size = address_size(prefix_form) as usize;
    let bits = offset..length.min(size);
    bits.fold(0, |address, place| address | 1 << (size - 1 - place))
}

/// Every operator octet in every list type with values at each width's edges: alone, before another
/// operator and after one.
fn operators(form: Form, take: Take) {
    let mut record = empty(form);
    for kind in 3..=13 {
        for octet in 0..=255 {
            for value in VALUES {
                let own = (octet, value);
                for list in [&[own][..], &[own, (0x81, 7)], &[(0x01, 5), own]] {
                    clear(form, &mut record);
                    record.push_list(kind, list.iter().copied());
                    take(&record);
                }
            }
        }
    }
}

/// Types in every order, unknown ones too, empty lists, and as many components as a rule may have
/// and one more: rising, falling, all alike.
fn orders(form: Form, take: Take) {
    let mut record = empty(form);
    let mut made = |kinds: &[u8]| {
        clear(form, &mut record);
        for &kind in kinds {
            push_least(form, &mut record, kind);
        }
        take(&record);
    };
    for first in 0..=16 {
        made(&[first]);
        for second in 0..=16 {
            made(&[first, second]);
            made(&[first, second, 13]);
            made(&[1, first, second]);
        }
    }
    for last in 1..=MOST_COMPONENTS as u8 {
        made(&(1..=last).collect::<Vec<_>>());
        made(&(1..=last).rev().collect::<Vec<_>>());
    }
    for kind in 1..=13 {
        made(&[kind; MOST_COMPONENTS]);
        made(&[kind; MOST_COMPONENTS + 1]);
    }
    for kind in 3..=13 {
        let mut record = empty(form);
        record.push_list(kind, [].into_iter());
        take(&record);
        push_least(form, &mut record, 13);
        take(&record);
    }
}

/// A least component of this type.
fn push_least(form: Form, record: &mut Stored, kind: u8) {
    match (kind, form.family()) {
        (1 | 2, Some(6)) => record.push_prefix(kind, IPV6_OFFSET, 8, 0, 0x0A << 120),
        (1 | 2, _) => record.push_prefix(kind, IPV4, 8, 0, 0x0A00_0000),
        _ => record.push_list(kind, [(0x81, 6)].into_iter()),
    }
}

/// Bodies where the length takes a second octet, where its high part begins, at the longest that
/// may be written and past it.
fn long_bodies(form: Form, take: Take) {
    let edges = (236..=243).chain(253..=259).chain([1024, 2303]);
    for length in edges
        .chain(LONGEST_BODY - 9..=LONGEST_BODY + 9)
        .chain([8191, 8192])
    {
        for (kind, code) in LONG_LISTS {
            let mut record = empty(form);
            push_body(&mut record, &list_of(kind, length, code));
            take(&record);
            // The same length again, by a prefix in front.
            let mut record = empty(form);
            push_least(form, &mut record, 2);
            let taken = if form.family() == Some(6) { 4 } else { 3 };
            push_body(&mut record, &list_of(kind, length - taken, code));
            take(&record);
        }
    }
}

/// Adds the list that octets spell.
pub fn push_body(record: &mut Stored, body: &[u8]) {
    let mut rest = &body[1..];
    let mut operators = Vec::new();
    while let [octet, behind @ ..] = rest {
        let (value, after) = behind.split_at(1 << (octet >> 4 & 3));
        let value = value
            .iter()
            .fold(0, |sum, &next| sum << 8 | u64::from(next));
        // The first AND would make the record a bad one by the RFCs.
        let and = if operators.is_empty() { 0x40 } else { 0 };
        operators.push((octet & !and, value));
        rest = after;
    }
    record.push_list(body[0], operators.into_iter());
}

/// As many operators as a rule may have and one more, of each width, in one list, in two, and with
/// two components that name the same.
fn maximums(form: Form, take: Take) {
    for code in 0..4u8 {
        for count in [MOST_OPERATORS - 1, MOST_OPERATORS, MOST_OPERATORS + 1] {
            let octet = |left| {
                if left == 0 {
                    0x81 | code << 4
                } else {
                    0x01 | code << 4
                }
            };
            let list = |count: usize| (0..count).rev().map(move |left| (octet(left), 7));
            let mut record = empty(form);
            record.push_list(4, list(count));
            take(&record);
            let mut record = empty(form);
            record.push_list(4, list(1000));
            record.push_list(5, list(count - 1000));
            take(&record);
            let mut record = empty(form);
            record.push_list(4, list(1024));
            record.push([5, 1024 + 1024 - count as u64, count as u64 - 1024, 0]);
            take(&record);
        }
    }
}

/// Lists that start and end in, at and past the end of the lent lists, from every first place, the
/// lists equally long or not; and sums that a word does not hold.
fn spans(form: Form, take: Take) {
    for (values, octets) in [(5, 5), (5, 8), (9, 5), (0, 0), (0, 5), (2048, 2048)] {
        let mut record = empty(form);
        record.values = (0..values).map(|place| place % 200).collect();
        record.octets = vec![0x01; octets];
        if let Some(octet) = record.octets.get_mut(4) {
            *octet = 0x81;
        }
        for first in PLACES {
            for start in PLACES {
                for count in PLACES {
                    record.words[..4].copy_from_slice(&[4, start, count, 0]);
                    record.words[COUNT] = 1;
                    record.words[FIRST] = first;
                    take(&record);
                }
            }
        }
    }
}

/// Each word of some records changed in each bit, and to numbers that may mean something there; then
/// too few words. The stored family, any octet, has no part in a writing: the one asked for decides.
fn words(form: Form, take: Take) {
    let mut random = Random::new(0xF12);
    let mut record = empty(form);
    for _ in 0..24 {
        clear(form, &mut record);
        good_record(form, form, &mut random, &mut record);
        for word in 0..WORDS {
            let held = record.words[word];
            let flips = (0..64).map(|bit| held ^ 1 << bit);
            let near = [
                held.wrapping_add(1),
                held.wrapping_sub(1),
                held.wrapping_add(256),
                !held,
            ];
            for number in flips.chain(near).chain(PLACES) {
                record.words[word] = number;
                take(&record);
            }
            record.words[word] = held;
        }
        for fewer in [63, 56, 52, 4, 0] {
            record.words.truncate(fewer);
            take(&record);
        }
    }
}

/// Some records with each distinguisher, with none, and with words in its place that are neither;
/// and long ones with one, around the lengths where the length field changes and at the longest,
/// counted without it and with it.
fn distinguishers(form: Form, take: Take) {
    let mut random = Random::new(0xF17);
    let mut record = Stored::new(0);
    for _ in 0..24 {
        clear(form, &mut record);
        good_record(form, form, &mut random, &mut record);
        for distinguisher in DISTINGUISHERS {
            record.put_distinguisher(Some(distinguisher));
            take(&record);
        }
        for said in [0, 1, 2, 3, 255, 256, 257, 1 << 32, 1 << 63, u64::MAX] {
            for number in [0, 1, 7, 0xFF, 1 << 32, 1 << 63, u64::MAX] {
                record.words[DISTINGUISHED..UNUSED].copy_from_slice(&[said, number]);
                take(&record);
            }
        }
    }
    let around = |length: usize| length - DISTINGUISHER_OCTETS - 2..=length + 2;
    for length in around(240).chain(around(256)).chain(around(LONGEST_BODY)) {
        for code in 0..4 {
            clear(form, &mut record);
            push_body(&mut record, &list_of(4, length, code));
            for distinguisher in [None, Some(DISTINGUISHERS[0]), Some(DISTINGUISHERS[7])] {
                record.put_distinguisher(distinguisher);
                take(&record);
            }
        }
    }
}

/// A record that the form's writing takes, unless its body comes out too long or its values, which
/// have the widths of a form, are too wide.
fn good_record(form: Form, widths: Form, random: &mut Random, record: &mut Stored) {
    let last = if form.family() == Some(4) { 12 } else { 13 };
    let odds = random.pick(&[2, 4, 4, 6]);
    let most = random.pick(&[1, 2, 4, 4, 8, 40]);
    begin(random, record);
    for kind in 1..=last {
        if random.once_in(odds) {
            match kind {
                1 | 2 => good_prefix(form, random, kind, record),
                _ => good_list(widths, random, kind, most, record),
            }
        }
    }
    if random.once_in(500) {
        clear(form, record);
        let length = 4080 + random.below(24);
        push_body(record, &list_of(4, length, random.below(4) as u8));
    }
}

/// Now and then the rule's operators begin behind some that are another's.
pub fn begin(random: &mut Random, record: &mut Stored) {
    if random.once_in(4) {
        for _ in 0..=random.below(5) {
            record.values.push(random.value());
            record.octets.push(random.octet());
        }
        record.words[FIRST] = record.values.len() as u64;
    }
}

fn good_prefix(form: Form, random: &mut Random, kind: u8, record: &mut Stored) {
    let any = u128::from(random.number()) << 64 | u128::from(random.number());
    let prefix_form = match form.family() {
        None => random.below(4) as u64,
        Some(4) => IPV4,
        Some(_) => IPV6_OFFSET,
    };
    let length = random.below(address_size(prefix_form) as usize + 1);
    let offset = match prefix_form {
        IPV4 | IPV6 => 0,
        _ if form == Form::Plain => random.below(256),
        _ if random.once_in(2) => 0,
        _ => random.below(length.max(1)),
    };
    let kept = match form {
        Form::Plain => between(prefix_form, 128, 0),
        _ => between(prefix_form, length, offset),
    };
    record.push_prefix(kind, prefix_form, length as u8, offset as u8, any & kept);
}

fn good_list(widths: Form, random: &mut Random, kind: u8, most: usize, record: &mut Stored) {
    let count = 1 + random.below(most);
    let codes = most_code(widths, kind) << 4;
    let operator = |place: usize| {
        let and = if place == 0 { 0 } else { 0x40 };
        let end = if place + 1 == count { 0x80 } else { 0 };
        let octet = random.octet() & (0x0F | codes | and) | end;
        let fits = u64::MAX >> (64 - (8u32 << (octet >> 4 & 3)));
        (octet, random.value() & fits)
    };
    record.push_list(kind, (0..count).map(operator));
}

/// Any order, repeats, every form, lists that are empty, unclosed, closed early or shared, values
/// that do not fit.
fn any_record(random: &mut Random, record: &mut Stored) {
    let count = match random.below(16) {
        0 => MOST_COMPONENTS + random.below(2),
        _ => random.below(6),
    };
    let most = random.pick(&[2, 5, 5, 300]);
    begin(random, record);
    for _ in 0..count {
        match 1 + random.below(MOST_COMPONENTS) as u8 {
            kind @ (1 | 2) => good_prefix(Form::Plain, random, kind, record),
            kind if random.once_in(6) => {
                let (start, count) = (random.below(6), random.below(6));
                record.push([u64::from(kind), start as u64, count as u64, 0]);
            }
            kind => {
                let pairs = (0..random.below(most)).map(|_| (random.octet(), random.value()));
                record.push_list(kind, pairs);
            }
        }
    }
    if random.once_in(4) {
        damage(random, record);
    }
}

/// One or two faults, or changes that may be none.
pub fn damage(random: &mut Random, record: &mut Stored) {
    for _ in 0..=random.below(2) {
        let used = 4 * record.count().clamp(1, MOST_COMPONENTS);
        let word = match random.below(8) {
            0 => random.below(WORDS),
            1 => random.pick(&[COUNT, FAMILY, FIRST]),
            _ => random.below(used),
        };
        match random.below(9) {
            0 | 1 => record.words[word] ^= 1 << random.below(64),
            2 => record.words[word] = random.pick(&PLACES),
            3 => record.words[word] = random.below(300) as u64,
            4 => damage_operator(random, record),
            5 => {
                record.values.pop();
            }
            6 => {
                record.octets.pop();
            }
            7 => {
                let (one, other) = (random.below(used / 4), random.below(used / 4));
                (0..4).for_each(|at| record.words.swap(4 * one + at, 4 * other + at));
            }
            _ => record.values.push(random.value()),
        }
    }
}

fn damage_operator(random: &mut Random, record: &mut Stored) {
    if record.values.is_empty() || record.octets.is_empty() {
        return;
    }
    let place = random.below(record.values.len());
    match random.below(3) {
        0 => record.values[place] ^= 1 << random.below(64),
        1 => record.values[place] = random.value(),
        _ => {
            let place = random.below(record.octets.len());
            record.octets[place] ^= 1 << random.below(8);
        }
    }
}

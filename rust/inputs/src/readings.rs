//! Inputs of the readings: those made by rule, which every run has, and random ones.

use crate::form::{Form, LONGEST_BODY, LONGEST_INPUT};
use crate::random::Random;

/// Whoever is handed the inputs, one after another.
pub type Take<'a> = &'a mut dyn FnMut(&[u8]);

/// So many of `FIXED` are document 01's cases and the RFCs' worked examples.
pub const DOCUMENTED: usize = 31;

/// Document 01's cases and the RFCs' worked examples (RFC 8955, 4.3; RFC 8956, 3.8), then rules of
/// several lists, operators and widths, and longer ones; then the widest values that TCP flags, DSCP
/// and fragments have by the RFCs, and wider ones, first and later, there and missing.
pub const FIXED: [&str; 45] = [
    "",
    "F0",
    "EF",
    "00",
    "F0 05 01 18 C0 00 02",
    "05 01 18 C0 00 02",
    "02 03 81 06 05",
    "03 03 89 06",
    "03 03 81 06",
    "02 03 89",
    "01 00",
    "01 0E",
    "06 03 81 06 03 81 11",
    "03 01 04 FF",
    "02 01 81",
    "02 01 21",
    "12 01 80 20 01 0D B8 00 00 00 00 00 00 00 00 00 00 00 01",
    "04 0D 81 00 0E",
    "04 01 41 3F C0",
    "03 01 40 40",
    "03 01 00 00",
    "08 05 03 50 45 5A 91 01 BB",
    "03 09 81 12",
    "03 09 80 12",
    "03 01 08 0A",
    "04 01 10 0A 01",
    "0B 01 18 C0 00 02 03 81 06 04 81 19",
    "12 01 18 C0 00 02 02 18 CB 00 71 04 03 89 45 8B 91 1F 90",
    "09 01 20 C0 00 02 01 0C 80 05",
    "12 01 20 00 20 01 0D B8 02 68 40 12 34 56 78 9A 03 81 06",
    "0F 01 20 00 20 01 0D B8 02 68 41 24 68 AC F1 34",
    "06 03 81 06 05 81 50",
    "0D 05 13 00 50 D5 00 5A 0A A1 00 00 05 DC",
    "15 0A 03 40 D4 02 00 0C 40 01 81 02 0D B1 00 00 00 00 00 0A BC DE",
    "10 0B 01 0A 81 2E 0C 01 01 82 02 0D A1 00 0F FF FF",
    "1A 03 81 06 04 81 19 05 81 50 06 81 51 07 81 08 08 81 00 09 81 02 0A 81 40 0B 81 0A",
    "13 09 11 01 00 41 02 D2 0F 00 0B 01 0A 81 2E 0C 01 02 C0 04",
    "02 0B 91",
    "04 0B 91 00 2E",
    "04 0C 91 00 01",
    "06 09 A1 00 00 00 02",
    "0A 09 B1 00 00 00 00 00 00 01 00",
    "09 09 11 01 00 A1 00 00 00 02",
    "05 0B 01 0A 91 2E",
    "0B 03 81 06 0C 01 01 E2 00 00 00 02",
];

/// Distinguishers: none of whose octets is set; the types 0, 1 and 2; the first bit, the last and
/// every one; one whose octets all differ; some that the readings which expect none take for
/// components, two IPv4 prefixes, an IPv6 prefix and a list of protocols.
pub const DISTINGUISHERS: [[u8; 8]; 11] = [
    [0; 8],
    [0x00, 0x00, 0xFB, 0xF0, 0x00, 0x00, 0x00, 0x07],
    [0x00, 0x01, 0xC0, 0x00, 0x02, 0x01, 0x00, 0x07],
    [0x00, 0x02, 0x00, 0x01, 0x00, 0x0A, 0x00, 0x07],
    [0x80, 0, 0, 0, 0, 0, 0, 0],
    [0, 0, 0, 0, 0, 0, 0, 1],
    [0xFF; 8],
    [0x01, 0x23, 0x45, 0x67, 0x89, 0xAB, 0xCD, 0xEF],
    [0x01, 0x18, 0xC0, 0x00, 0x02, 0x02, 0x08, 0x0A],
    [0x01, 0x28, 0x00, 0x20, 0x01, 0x0D, 0xB8, 0x02],
    [0x03, 0x01, 0x06, 0x01, 0x11, 0x91, 0x00, 0x2F],
];

/// The octets that a text in hex stands for, with blanks between them.
pub fn octets(text: &str) -> Vec<u8> {
    let octets = text
        .split_whitespace()
        .map(|pair| u8::from_str_radix(pair, 16));
    octets
        .collect::<Result<_, _>>()
        .expect("the texts here are hex")
}

/// The greatest code of a value's width, 0 to 3, that a form's reading takes in lists of a type: 0, 1
/// or 3, so that the codes up to it are those without other bits.
pub fn most_code(form: Form, kind: u8) -> u8 {
    match (form, kind) {
        (Form::Plain, _) => 3,
        (_, 9) => 1,
        (_, 11 | 12) => 0,
        _ => 3,
    }
}

/// All inputs that are made by rule.
pub fn by_rule(form: Form, take: Take) {
    short(take);
    match form {
        Form::WithDistinguisher(family) => {
            short_distinguishers(take);
            let mut made = Vec::new();
            let mut next = DISTINGUISHERS.iter().cycle();
            components(Form::Standard(family), &mut |input| {
                let distinguisher = next.next().expect("they come in turn without end");
                put_before_body(distinguisher, input, &mut made);
                take(&made);
            });
            long_bodies(&DISTINGUISHERS[1], take);
        }
        _ => {
            components(form, take);
            long_bodies(&[], take);
        }
    }
    if form == Form::Standard(6) {
        every_offset(take);
    }
    let good = good_inputs(form);
    good.iter().for_each(|input| cuts(input, take));
    good.iter().for_each(|input| restated(input, take));
    long_inputs(take);
}

/// Inputs whose components are made by rule, of each kind, in every order and with each fault.
fn components(form: Form, take: Take) {
    prefixes(form, take);
    operators(take);
    orders(form, take);
    faults(form, take);
}

/// A random input: good, damaged, wrongly stated, or octets with little or no sense. One in ten may
/// have values that are too wide. Where a distinguisher is expected, most have one.
pub fn random(form: Form, random: &mut Random, input: &mut Vec<u8>) {
    match form {
        Form::WithDistinguisher(family) => random_distinguished(family, random, input),
        _ => random_components(form, random, input),
    }
}

/// Made for the reading without a distinguisher, and then most often with one before the body, now
/// and then damaged with it; or so few octets that they are hardly one.
fn random_distinguished(family: u8, random: &mut Random, input: &mut Vec<u8>) {
    let mut without = Vec::new();
    random_components(Form::Standard(family), random, &mut without);
    let distinguisher = distinguisher(random);
    match random.below(10) {
        0 => {
            input.clear();
            input.extend(&without);
        }
        1 => {
            let (stated, there) = (random.below(12), random.below(12));
            let body: Vec<u8> = (0..there).map(|_| telling(random)).collect();
            frame_anew(stated, random.once_in(8), &body, input);
        }
        2 => {
            put_before_body(&distinguisher, &without, input);
            damage(random, input);
        }
        _ => put_before_body(&distinguisher, &without, input),
    }
}

/// One of those that are made by rule, or any octets.
pub fn distinguisher(random: &mut Random) -> [u8; 8] {
    match random.below(2) {
        0 => random.pick(&DISTINGUISHERS),
        _ => random.number().to_be_bytes(),
    }
}

fn random_components(form: Form, random: &mut Random, input: &mut Vec<u8>) {
    input.clear();
    let way = random.below(1000);
    let widths = if way % 10 == 9 { Form::Plain } else { form };
    match way {
        0 => long_input(form, random, input),
        1..=399 => rule(form, widths, random, input),
        400..=749 => {
            rule(form, widths, random, input);
            damage(random, input);
        }
        750..=849 => misstated(form, widths, random, input),
        850..=949 => {
            let body: Vec<u8> = (0..random.below(16)).map(|_| telling(random)).collect();
            frame(body.len(), random.once_in(8), &body, input);
        }
        _ => input.extend((0..random.below(40)).map(|_| random.octet())),
    }
}

/// All inputs of up to two octets, and those of three whose first octet says how the rest is read:
/// no body, one octet of it, all of it, more than there is, and lengths of two octets.
fn short(take: Take) {
    take(&[]);
    for first in 0..=255 {
        take(&[first]);
        for second in 0..=255 {
            take(&[first, second]);
        }
    }
    for first in [0, 1, 2, 3, 0xEF, 0xF0, 0xF1, 0xFF] {
        for second in 0..=255 {
            for third in 0..=255 {
                take(&[first, second, third]);
            }
        }
    }
}

/// Every prefix length with every number of octets behind it, in IPv6 also with some offsets; the
/// stated end right, before the last octet and past it.
fn prefixes(form: Form, take: Take) {
    let offsets: &[Option<u8>] = match form {
        Form::Standard(6) => &[
            None,
            Some(0),
            Some(1),
            Some(7),
            Some(8),
            Some(64),
            Some(127),
        ],
        _ => &[None],
    };
    let mut input = Vec::new();
    for kind in [1, 2] {
        for length in 0..=255 {
            for &offset in offsets {
                for count in 0..=17 {
                    let mut body = vec![kind, length];
                    body.extend(offset);
                    body.extend(ramp(count));
                    let size = body.len();
                    for stated in size - 1..=size + 1 {
                        frame_anew(stated, false, &body, &mut input);
                        take(&input);
                    }
                    body.push(0x03);
                    frame_anew(size, false, &body, &mut input);
                    take(&input);
                }
            }
        }
    }
}

/// In IPv6, every prefix length with every offset and every number of octets behind them.
fn every_offset(take: Take) {
    for length in 0..=255 {
        for offset in 0..=255 {
            for count in 0..=17 {
                let mut body = vec![1 + offset % 2, length, offset];
                body.extend(ramp(count).map(|octet| if length % 2 == 0 { 0xFF } else { octet }));
                take(&framed(&body));
            }
        }
    }
}

/// Every operator octet in every list type with up to ten octets behind it, as the first operator
/// and as a second, the stated end right, before the last octet and past it; then behind another
/// list, and with an operator that ends the list behind it.
fn operators(take: Take) {
    let mut input = Vec::new();
    for kind in 3..=13 {
        for octet in 0..=255 {
            for before in [&[kind][..], &[kind, 0x01, 0x2A]] {
                for count in 0..=10 {
                    let mut body = [before, &[octet]].concat();
                    body.extend(ramp(count));
                    for stated in body.len() - 1..=body.len() + 1 {
                        frame_anew(stated, false, &body, &mut input);
                        take(&input);
                    }
                }
            }
            let value: Vec<u8> = ramp(1 << (octet >> 4 & 3)).collect();
            let operator = [&[kind, octet][..], &value].concat();
            take(&framed(&[&[0x03, 0x81, 0x06], &operator[..]].concat()));
            take(&framed(&[&operator[..], &[0x81, 0x07]].concat()));
            take(&framed(
                &[&operator[..], &[0xC0, 0x07], &[0x0D, 0x81, 0x01]].concat(),
            ));
        }
    }
}

/// Every type alone and after every known one, two known ones before a third, and all of them.
fn orders(form: Form, take: Take) {
    let component = |kind| component(form, kind);
    for kind in 0..=255 {
        take(&framed(&component(kind)));
        for first in 1..=14 {
            take(&framed(&[component(first), component(kind)].concat()));
        }
    }
    for first in 1..=13 {
        for second in first + 1..=13 {
            for third in 0..=15 {
                let body = [component(first), component(second), component(third)].concat();
                take(&framed(&body));
            }
        }
    }
    for last in 1..=15 {
        take(&framed(
            &(1..=last).flat_map(component).collect::<Vec<u8>>(),
        ));
    }
}

/// Each fault behind no component, one and two, the length in one octet and in two, with octets behind
/// the stated end and with none.
fn faults(form: Form, take: Take) {
    let component = |kind| component(form, kind);
    let fronts = [
        Vec::new(),
        component(1),
        [3, 0x01, 0x06, 0x91, 0x00, 0x11].to_vec(),
        [component(1), component(3)].concat(),
    ];
    let wrong: [&[u8]; 28] = [
        // Order and type.
        &[0],
        &[1, 0x20],
        &[14],
        &[255, 0x81, 0x06],
        // A prefix's length, in IPv6 also for its offset.
        &[2, 129],
        &[2, 33, 0],
        &[2, 64, 64],
        &[2, 0, 1, 0],
        // An operator, the first and a second one.
        &[4, 0x89, 0x06],
        &[12, 0x85, 0x01],
        &[4, 0x11, 0x00, 0x50, 0x9F, 0x00, 0x51],
        &[9, 0x01, 0x02, 0x9C, 0x00, 0x10],
        // A width, of the first and a later operator, the value there, missing and there in part.
        &[9, 0xA1, 0x00, 0x00, 0x00, 0x02],
        &[9, 0x11, 0x01, 0x00, 0xA1],
        &[9, 0x01, 0x02, 0xFE, 0x00, 0x00],
        &[11, 0x91, 0x00, 0x2E],
        &[11, 0x99],
        &[11, 0x01, 0x0A, 0x01, 0x0B, 0xE1, 0x00],
        &[12, 0x91],
        &[12, 0x01, 0x01, 0x9D, 0x00, 0x02],
        &[12, 0xB1, 0x00],
        // A missing octet of each kind, and some of several.
        &[2],
        &[2, 32, 0, 0x20],
        &[4],
        &[4, 0x81],
        &[4, 0x01, 0x50],
        &[4, 0xA1, 0x00, 0x01],
        &[10, 0x01, 0x02, 0xB9, 0x00, 0x01],
    ];
    let mut input = Vec::new();
    for front in &fronts {
        for wrong in wrong {
            for behind in [&[][..], &[0x00], &[0x81, 0x00, 0x0E, 0x20]] {
                let body = [front, wrong, behind].concat();
                for two_octets in [false, true] {
                    frame_anew(front.len() + wrong.len(), two_octets, &body, &mut input);
                    take(&input);
                }
            }
        }
    }
}

/// Bodies of up to ten octets under every stated length up to that and beyond it: no octet of a
/// distinguisher, some, all, and more than that. The octets are those of each distinguisher.
fn short_distinguishers(take: Take) {
    let mut input = Vec::new();
    for distinguisher in DISTINGUISHERS {
        for behind in [&[0x00, 0x00][..], &[0x03, 0x81], &[0x0E, 0x03]] {
            let octets = [&distinguisher[..], behind].concat();
            for there in 0..=octets.len() {
                for stated in 0..=octets.len() + 2 {
                    for two_octets in [false, true] {
                        frame_anew(stated, two_octets, &octets[..there], &mut input);
                        take(&input);
                    }
                }
            }
        }
    }
}

/// The fixed inputs, and random ones that are accepted; the same in every run. Where a
/// distinguisher is expected, all with one.
pub fn good_inputs(form: Form) -> Vec<Vec<u8>> {
    let without = match form {
        Form::WithDistinguisher(family) => Form::Standard(family),
        _ => form,
    };
    let mut inputs: Vec<Vec<u8>> = FIXED.iter().map(|text| octets(text)).collect();
    let mut random = Random::new(0xF10);
    for _ in 0..400 {
        let mut input = Vec::new();
        rule(without, without, &mut random, &mut input);
        inputs.push(input);
    }
    if without != form {
        for (input, own) in inputs.iter_mut().zip(DISTINGUISHERS.iter().cycle()) {
            let mut made = Vec::new();
            put_before_body(own, input, &mut made);
            *input = made;
        }
    }
    inputs
}

/// Every truncation, with the length as it was and with the length made right again.
fn cuts(input: &[u8], take: Take) {
    for end in 0..=input.len() {
        take(&input[..end]);
    }
    let body = body_of(input);
    for end in 0..=body.len() {
        take(&framed(&body[..end]));
    }
}

/// Every stated length to beyond the end, in one octet and in two, with more octets behind and with
/// none: the last component then overruns the stated end, or what follows is taken for one.
fn restated(input: &[u8], take: Take) {
    let body = body_of(input);
    let mut made = Vec::new();
    for behind in [&[][..], &[0x00], &[0x0D, 0x81, 0x07]] {
        let longer = [body, behind].concat();
        for stated in 0..=longer.len() + 2 {
            for two_octets in [false, true] {
                frame_anew(stated, two_octets, &longer, &mut made);
                take(&made);
            }
        }
    }
}

/// Types and width codes of long lists: each width, and of some types the widest and a wider one.
pub const LONG_LISTS: [(u8, u8); 11] = [
    (4, 0),
    (4, 1),
    (4, 2),
    (4, 3),
    (9, 1),
    (9, 2),
    (10, 3),
    (11, 0),
    (11, 1),
    (12, 0),
    (13, 3),
];

/// Bodies where the length takes a second octet, where its high part begins and at the longest, of
/// each width, with so many octets in front; some of the longest with every truncation.
fn long_bodies(front: &[u8], take: Take) {
    let behind_front = |kind, length: usize, code| {
        let list = list_of(kind, length - front.len(), code);
        [front, &list].concat()
    };
    let edges = (236..=243).chain(253..=259).chain([1024, 2303]);
    let mut input = Vec::new();
    for length in edges.chain(4086..=LONGEST_BODY) {
        for (kind, code) in LONG_LISTS {
            let body = behind_front(kind, length, code);
            for two_octets in [false, true] {
                frame_anew(length, two_octets, &body, &mut input);
                take(&input);
                take(&input[..input.len() - 1]);
                input.push(0x05);
                take(&input);
            }
            for stated in [239, 240, 241, 255, 256, 257, length - 1, length + 1] {
                frame_anew(stated, false, &body, &mut input);
                take(&input);
                input.push(0x05);
                take(&input);
            }
        }
    }
    for code in 0..4 {
        let input = framed(&behind_front(4, LONGEST_BODY, code));
        (0..input.len()).for_each(|end| take(&input[..end]));
    }
}

/// Inputs of lengths around the longest that the plain reading takes, and far above, with a short
/// rule in front, a long one, none, and no sense.
fn long_inputs(take: Take) {
    let lengths = (4090..=4102).chain([5000, 8194, 65_536, 65_537, 100_000]);
    let mut random = Random::new(0xF11);
    let fronts = [
        octets("06 03 81 06 05 81 50"),
        octets("02 03 81 06 05"),
        octets("01 0E"),
        framed(&list_of(4, 4000, 0)),
        framed(&list_of(10, LONGEST_BODY, 3)),
        vec![0x00],
        vec![0xFF, 0xFF],
        vec![0xF0],
    ];
    for length in lengths {
        for front in &fronts {
            let mut input = front.clone();
            input.resize_with(length.max(front.len()), || random.octet());
            take(&input);
            input.truncate(length);
            take(&input);
            input[front.len().min(length)..].fill(0);
            take(&input);
        }
    }
}

/// A rule that is accepted if its values are not too wide, most often with nothing behind it. They
/// have the widths that a form takes.
fn rule(form: Form, widths: Form, random: &mut Random, input: &mut Vec<u8>) {
    let body = body(form, widths, random);
    frame(body.len(), random.once_in(8), &body, input);
    if random.once_in(4) {
        input.extend((0..=random.below(4)).map(|_| random.octet()));
    }
}

fn body(form: Form, widths: Form, random: &mut Random) -> Vec<u8> {
    let last = if form == Form::Standard(4) { 12 } else { 13 };
    let odds = random.pick(&[2, 4, 4, 6]);
    let most = random.pick(&[1, 2, 4, 4, 8, 40]);
    let mut body = Vec::new();
    for kind in 1..=last {
        if !random.once_in(odds) {
            continue;
        }
        body.push(kind);
        match kind {
            1 | 2 => prefix(form, random, &mut body),
            _ => list(form, widths, random, kind, most, &mut body),
        }
    }
    body
}

fn prefix(form: Form, random: &mut Random, body: &mut Vec<u8>) {
    let bits = match form {
        Form::Standard(6) => {
            let length = random.below(129);
            let offset = match random.below(2) {
                0 => 0,
                _ => random.below(length.max(1)),
            };
            body.extend([length as u8, offset as u8]);
            length - offset
        }
        _ => {
            let longest = if form == Form::Plain && random.once_in(2) {
                128
            } else {
                32
            };
            let length = random.below(longest + 1);
            body.push(length as u8);
            length
        }
    };
    body.extend((0..(bits + 7) / 8).map(|_| random.octet()));
}

/// A list of up to so many operators. The standard reading accepts reserved bits.
fn list(form: Form, widths: Form, random: &mut Random, kind: u8, most: usize, body: &mut Vec<u8>) {
    let allowed = match (form, kind) {
        (Form::Standard(_), _) if random.once_in(2) => 0x7F,
        (_, 9 | 12) => 0x73,
        _ => 0x77,
    };
    let one_width = if random.once_in(3) {
        Some(random.octet() & 0x30)
    } else {
        None
    };
    for left in (0..=random.below(most)).rev() {
        let mut octet = random.octet() & allowed;
        octet = one_width.map_or(octet, |width| octet & !0x30 | width);
        octet &= !0x30 | most_code(widths, kind) << 4;
        if left == 0 {
            octet |= 0x80;
        }
        body.push(octet);
        let value = random.value().to_be_bytes();
        body.extend(&value[8 - (1 << (octet >> 4 & 3))..]);
    }
}

/// One to three faults.
fn damage(random: &mut Random, input: &mut Vec<u8>) {
    for _ in 0..=random.below(3) {
        if input.is_empty() {
            return;
        }
        let place = random.below(input.len());
        match random.below(10) {
            0 => input[place] = random.octet(),
            1 => input[place] = telling(random),
            2 | 3 => input[place] ^= 1 << random.below(8),
            4 => input.insert(place, telling(random)),
            5 => {
                input.remove(place);
            }
            6 => input.truncate(place),
            7 => input.push(telling(random)),
            8 => {
                let other = random.below(input.len());
                input.swap(place, other);
            }
            _ => input[0] = place as u8,
        }
    }
}

/// A good body behind a length that is not its own.
fn misstated(form: Form, widths: Form, random: &mut Random, input: &mut Vec<u8>) {
    let mut body = body(form, widths, random);
    let size = body.len();
    let stated = match random.below(4) {
        0 => random.below(size + 2),
        1 => size + 1 + random.below(3),
        _ => size.saturating_sub(1 + random.below(3)),
    };
    body.extend((0..random.below(5)).map(|_| telling(random)));
    frame(stated, random.once_in(8), &body, input);
}

/// A long one, now and then damaged, near the longest or anywhere below.
fn long_input(form: Form, random: &mut Random, input: &mut Vec<u8>) {
    let length = match random.below(3) {
        0 => 4085 + random.below(11),
        1 => 236 + random.below(24),
        _ => 300 + random.below(3700),
    };
    let kind = random.pick(&[4, 5, 9, 10, 12]);
    let code = random.below(4) as u8 & most_code(form, kind);
    let body = list_of(kind, length, code);
    frame(length, random.once_in(8), &body, input);
    match random.below(4) {
        0 => damage(random, input),
        1 => input.resize(LONGEST_INPUT - 3 + random.below(8), 0x2A),
        _ => {}
    }
}

/// An octet that means something where it is likely to stand.
fn telling(random: &mut Random) -> u8 {
    match random.below(4) {
        0 => random.below(16) as u8,
        1 => random.pick(&[
            0x80, 0x81, 0x01, 0x11, 0x91, 0xA1, 0xB1, 0x41, 0xC1, 0x89, 0x84,
        ]),
        2 => random.pick(&[
            0, 1, 7, 8, 9, 24, 31, 32, 33, 64, 127, 128, 129, 239, 240, 255,
        ]),
        _ => random.octet(),
    }
}

/// A body of exactly so many octets, at least 3: one list, of values with this code as far as it
/// comes out.
pub fn list_of(kind: u8, length: usize, code: u8) -> Vec<u8> {
    let mut body = vec![kind];
    let mut place = 0;
    while body.len() < length {
        let left = length - body.len();
        let fits = |code: &u8| {
            let taken = 1 + (1 << code);
            taken == left || taken + 2 <= left
        };
        let code = (0..=code).rev().find(fits).unwrap_or(1);
        let taken = 1 + (1 << code);
        let end = if taken == left { 0x80 } else { 0 };
        let and = if place % 3 == 1 { 0x40 } else { 0 };
        body.push(end | and | code << 4 | (place % 4) as u8);
        body.extend((1..taken).map(|at| (place * 37 + at * 11) as u8));
        place += 1;
    }
    body
}

/// A least component of this type; of an unknown type, octets that a list could have.
fn component(form: Form, kind: u8) -> Vec<u8> {
    match (kind, form) {
        (1 | 2, Form::Standard(6)) => vec![kind, 0x08, 0x00, 0x0A],
        (1 | 2, _) => vec![kind, 0x08, 0x0A],
        _ => vec![kind, 0x81, 0x06],
    }
}

/// Octets that all differ, highest and lowest bits set: none lost, moved or masked goes unseen.
fn ramp(count: usize) -> impl Iterator<Item = u8> {
    (1..=count).map(|place| (place * 0x22) as u8 | 0x81)
}

/// Makes an input with these octets before the body, which the stated length counts as far as a
/// length goes. One that ends in its length field stays as it is.
fn put_before_body(octets: &[u8], input: &[u8], made: &mut Vec<u8>) {
    let (two_octets, stated) = match *input {
        [first @ 0..=0xEF, ..] => (false, usize::from(first)),
        [first, second, ..] => (true, usize::from(first & 0x0F) << 8 | usize::from(second)),
        _ => {
            made.clear();
            made.extend(input);
            return;
        }
    };
    let stated = LONGEST_BODY.min(stated + octets.len());
    frame_anew(stated, two_octets, &[octets, body_of(input)].concat(), made);
}

/// What stands behind the length field.
fn body_of(input: &[u8]) -> &[u8] {
    match input.first() {
        Some(0xF0..=0xFF) => input.get(2..).unwrap_or_default(),
        _ => input.get(1..).unwrap_or_default(),
    }
}

pub fn framed(body: &[u8]) -> Vec<u8> {
    let mut input = Vec::new();
    frame(body.len(), false, body, &mut input);
    input
}

/// Puts a body behind a stated length, which need not be its own and takes two octets if it must or
/// if that is asked for.
fn frame(stated: usize, two_octets: bool, body: &[u8], input: &mut Vec<u8>) {
    if two_octets || stated >= 240 {
        input.push(0xF0 | (stated >> 8) as u8);
    }
    input.push(stated as u8);
    input.extend(body);
}

fn frame_anew(stated: usize, two_octets: bool, body: &[u8], input: &mut Vec<u8>) {
    input.clear();
    frame(stated, two_octets, body, input);
}

//! A check accepts and refuses what a reading does, with the same refusals, places among them, and the same octets used, and allocates
//! nothing.

// Of thread_local's own making, in Debian 12's compiler.
#![allow(clippy::declare_interior_mutable_const)]

use inputs::{Form, Random, FIXED};
use krubbadin::surface::{self, Answer, OPERATORS, WORDS};
use krubbadin::*;
use std::alloc::{GlobalAlloc, Layout, System};
use std::cell::Cell;

/// The forms of a reading, and what the surface is asked for.
const FORMS: [(Form, u8, u8); 5] = [
    (Form::Plain, 0, 0),
    (Form::Standard(4), 1, 4),
    (Form::Standard(6), 1, 6),
    (Form::WithDistinguisher(4), 2, 4),
    (Form::WithDistinguisher(6), 2, 6),
];

/// Reads with room for all.
fn read_with_room(standard: u8, family: u8, input: &[u8]) -> Answer {
    let (mut words, mut values, mut octets) = ([0; WORDS], [0; OPERATORS], [0; OPERATORS]);
    surface::read(
        standard,
        family,
        input,
        &mut words,
        &mut values,
        &mut octets,
    )
}

/// Compares the checks with the readings: whether the input is accepted.
fn same(form: Form, standard: u8, family: u8, input: &[u8]) -> bool {
    let read = read_with_room(standard, family, input);
    assert_eq!(
        surface::check(standard, family, input),
        read,
        "{form}: {input:02X?}"
    );
    if form == Form::Plain {
        let checked = check_flowspec_nlri(input);
        let parsed = parse_flowspec_nlri(input);
        assert_eq!(checked.clone().err(), parsed.err(), "{form}: {input:02X?}");
        // What is too long for the surface is cut before it comes there.
        if read.status != 8 {
            assert_eq!(
                checked.map_err(Reason::from),
                read.accepted()
                    .map(|(used, _)| used)
                    .map_err(|refusal| refusal.reason())
            );
        }
    } else {
        let family = Family::try_from(family).unwrap();
        let (checked, wanted) = match form {
            Form::WithDistinguisher(_) => {
                let read = read_distinguished(family, input);
                (
                    check_distinguished(family, input),
                    read.map(|(_, used)| used),
                )
            }
            _ => (check(family, input), read_used(family, input)),
        };
        assert_eq!(checked, wanted, "{form}: {input:02X?}");
        assert_eq!(wanted, read.accepted().map(|(used, _)| used));
    }
    read.status == 0
}

fn read_used(family: Family, input: &[u8]) -> Result<usize, Refusal> {
    read(family, input).map(|(_, used)| used)
}

#[test]
fn inputs_made_by_rule_are_checked_as_they_are_read() {
    for (form, standard, family) in FORMS {
        let (mut place, mut accepted, mut refused) = (0u64, 0, 0);
        inputs::by_rule(form, &mut |input| {
            // Over a million; tools/differential takes them all.
            if place % 61 == 0 {
                match same(form, standard, family, input) {
                    true => accepted += 1,
                    false => refused += 1,
                }
            }
            place += 1;
        });
        // Most short inputs that are accepted state no octets, where a distinguisher is expected.
        let most = match form {
            Form::WithDistinguisher(_) => 200,
            _ => 1_000,
        };
        assert!(accepted > most && refused > 10_000, "{accepted} {refused}");
    }
}

#[test]
fn every_truncation_is_checked_as_it_is_read() {
    let mut random = Random::new(8);
    for (form, standard, family) in FORMS {
        let mut all: Vec<Vec<u8>> = FIXED.iter().map(|text| inputs::octets(text)).collect();
        for _ in 0..2_000 {
            let mut input = Vec::new();
            inputs::random(form, &mut random, &mut input);
            input.truncate(300);
            all.push(input);
        }
        for input in all {
            for left in 0..=input.len() {
                same(form, standard, family, &input[..left]);
            }
        }
    }
}

#[test]
fn random_inputs_are_checked_as_they_are_read() {
    let mut random = Random::new(9);
    let mut input = Vec::new();
    for (form, standard, family) in FORMS.into_iter().cycle().take(20_000) {
        inputs::random(form, &mut random, &mut input);
        same(form, standard, family, &input);
    }
    // The family is looked at before the octets, and by the plain reading not at all.
    for family in 0..=255 {
        let plain = surface::check(0, family, &input);
        assert_eq!(plain, surface::check(0, 4, &input));
        for standard in [1, 2] {
            if ![4, 6].contains(&family) {
                let answer = surface::check(standard, family, &input);
                assert_eq!(answer.accepted(), Err(Reason::BadFamily(family).into()));
            }
        }
    }
}

#[test]
fn values_too_wide_are_refused_by_the_standard_checks_alone() {
    let whole = [0x04, 0x0B, 0x91, 0x00, 0x2E];
    let cut = [0x02, 0x0B, 0x91];
    for family in [Family::Ipv4, Family::Ipv6] {
        for input in [&whole[..], &cut] {
            let refused = Refusal::at(Reason::InvalidValueLength(1), 2);
            assert_eq!(check(family, input), Err(refused));
            assert_eq!(read_used(family, input), Err(refused));
        }
    }
    assert_eq!(check_flowspec_nlri(&whole), Ok(5));
    let missing = Err(FlowSpecError::InsufficientData);
    assert_eq!(check_flowspec_nlri(&cut), missing);
}

#[test]
fn what_follows_the_longest_nlri_changes_nothing() {
    let mut random = Random::new(10);
    let mut input = Vec::new();
    for _ in 0..300 {
        inputs::random(Form::Plain, &mut random, &mut input);
        // The octets behind end a list wherever one runs into them.
        input.resize(5000, 0x80);
        assert_eq!(
            check_flowspec_nlri(&input).err(),
            parse_flowspec_nlri(&input).err()
        );
        let answer = surface::check(0, 0, &input);
        assert_eq!(answer.accepted(), Err(Reason::InputTooLong(5000).into()));
    }
}

/// The system's allocator, which counts what a thread asks of it.
struct Counting;

thread_local! {
    static ASKED: Cell<usize> = const { Cell::new(0) };
}

// SAFETY: it is the system's allocator; the count is a number of the thread's own and asks for no memory.
unsafe impl GlobalAlloc for Counting {
    unsafe fn alloc(&self, layout: Layout) -> *mut u8 {
        ASKED.with(|asked| asked.set(asked.get() + 1));
        System.alloc(layout)
    }

    unsafe fn dealloc(&self, place: *mut u8, layout: Layout) {
        System.dealloc(place, layout);
    }
}

#[global_allocator]
static COUNTING: Counting = Counting;

fn asked() -> usize {
    ASKED.with(Cell::get)
}

#[test]
fn nothing_is_allocated() {
    let mut random = Random::new(11);
    let mut all = vec![Vec::new(); 3_000];
    for (input, (form, ..)) in all.iter_mut().zip(FORMS.iter().cycle()) {
        inputs::random(*form, &mut random, input);
    }
    let before = asked();
    let (mut accepted, mut refused) = (0, 0);
    for input in &all {
        for checked in [
            check_flowspec_nlri(input).map_err(Refusal::from),
            check(Family::Ipv4, input),
            check(Family::Ipv6, input),
            check_distinguished(Family::Ipv4, input),
            check_distinguished(Family::Ipv6, input),
        ] {
            match checked {
                Ok(_) => accepted += 1,
                Err(_) => refused += 1,
            }
        }
    }
    assert_eq!(asked(), before);
    assert!(accepted > 1_000 && refused > 1_000, "{accepted} {refused}");
    // The count counts.
    assert!(read(Family::Ipv4, &[0x03, 0x01, 0x08, 0x0A]).is_ok() && asked() > before);
}

//! Code written against the original compiles with another `use` line and answers the same: `drop_in/validator.rs`, taken twice.

use inputs::{Form, Random, LONGEST_INPUT};

mod original {
    use oracle::{error::EncodingError, flowspec::*, NetworkPrefix};
    include!("drop_in/validator.rs");
}

// The original's prefixes are not Copy, so code written against it clones them.
#[allow(clippy::clone_on_copy)]
mod proved {
    use krubbadin::*;
    include!("drop_in/validator.rs");
}

/// The paths below the original's module lead somewhere too.
#[allow(unused_imports)]
mod paths {
    use krubbadin::nlri::{encode_flowspec_nlri, parse_flowspec_nlri};
    use krubbadin::operators::{BitmaskOperator, NumericOperator};
}

fn same(octets: &[u8]) {
    assert_eq!(
        proved::checked(octets),
        original::checked(octets),
        "{octets:02X?}"
    );
    let counts = [proved::count(octets), original::count(octets)];
    let [proved, original] = counts.map(|count| count.map_err(|error| error.to_string()));
    assert_eq!(proved, original, "{octets:02X?}");
}

#[test]
fn inputs_made_by_rule_are_answered_as_the_original_answers_them() {
    let mut place = 0u64;
    let mut asked = 0;
    inputs::by_rule(Form::Plain, &mut |input| {
        // Over a million; tools/differential takes them all.
        if place % 61 == 0 && input.len() <= LONGEST_INPUT {
            same(input);
            asked += 1;
        }
        place += 1;
    });
    assert!(asked > 10_000, "{asked}");
}

#[test]
fn random_inputs_are_answered_as_the_original_answers_them() {
    let mut random = Random::new(6);
    let mut input = Vec::new();
    for _ in 0..20_000 {
        inputs::random(Form::Plain, &mut random, &mut input);
        if input.len() <= LONGEST_INPUT {
            same(&input);
        }
    }
}

#[test]
fn what_follows_the_longest_nlri_changes_nothing() {
    let mut random = Random::new(7);
    let mut input = Vec::new();
    for _ in 0..300 {
        inputs::random(Form::Plain, &mut random, &mut input);
        // The octets behind end a list wherever one runs into them.
        input.resize(5000, 0x80);
        same(&input);
    }
}

#[test]
fn rules_that_are_built_are_written_as_the_original_writes_them() {
    for (rule, same) in proved::built().iter().zip(&original::built()) {
        assert_eq!(proved::logged(rule), original::logged(same));
        assert_eq!(proved::written(rule), original::written(same));
    }
}

#[test]
fn rules_that_are_too_long_have_the_length_that_the_original_gives() {
    let (proved, original) = (proved::too_long(), original::too_long());
    assert!(proved.len() == original.len() && proved.len() > 20);
    for (rule, same) in proved.iter().zip(&original) {
        let said = proved::written(rule);
        assert_eq!(said, original::written(same));
        assert!(said.ends_with(" over 4095"), "{said}");
    }
}

#[test]
fn operators_are_those_of_the_original() {
    for value in [
        0,
        1,
        0xFF,
        0x100,
        0xFFFF,
        0x1_0000,
        0xFFFF_FFFF,
        1 << 32,
        u64::MAX,
    ] {
        assert_eq!(proved::operators(value), original::operators(value));
    }
    assert_eq!(proved::odd_widths(), original::odd_widths());
}

//! A ground is named exactly where a rule is refused, a field exactly where a packet is, and each is the one that is meant.

use inputs::{Form, Random};
use krubbadin::surface::{self, why_packet, why_rule, COUNT, FAMILY, FIRST, OPERATORS, WORDS};
use krubbadin::surface::{DISTINGUISHED, DISTINGUISHER};
use krubbadin::*;

/// The words of a rule with its lists.
#[derive(Clone)]
struct Lent {
    words: Vec<u64>,
    values: Vec<u64>,
    octets: Vec<u8>,
}

impl Lent {
    /// Components of four words in a family, with operators from the lists' front.
    fn new(family: u64, components: &[[u64; 4]], operators: &[(u8, u64)]) -> Self {
        let mut words = vec![0; WORDS];
        for (group, component) in words.chunks_exact_mut(4).zip(components) {
            group.copy_from_slice(component);
        }
        (words[COUNT], words[FAMILY]) = (components.len() as u64, family);
        Lent {
            words,
            values: operators.iter().map(|one| one.1).collect(),
            octets: operators.iter().map(|one| one.0).collect(),
        }
    }

    fn why(&self, standard: u8, family: u8) -> Option<Ground> {
        why_rule(standard, family, &self.words, &self.values, &self.octets)
    }

    fn status(&self, standard: u8, family: u8) -> u64 {
        let mut out = [0; 4097];
        surface::write(
            standard,
            family,
            &self.words,
            &self.values,
            &self.octets,
            &mut out,
        )
        .status
    }

    /// Changes a number or two.
    fn change(&mut self, random: &mut Random) {
        const NUMBERS: [u64; 12] = [0, 1, 2, 3, 13, 14, 33, 129, 255, 256, 1 << 32, u64::MAX];
        for _ in 0..=random.below(2) {
            let number = random.pick(&NUMBERS);
            match random.below(8) {
                0 if !self.values.is_empty() => {
                    let at = random.below(self.values.len());
                    self.values[at] = number;
                }
                1..=2 if !self.octets.is_empty() => {
                    let at = random.below(self.octets.len());
                    self.octets[at] ^= 1 << random.below(8);
                }
                3 => self.words[52 + random.below(11)] = number,
                4 => {
                    let at = random.below(52);
                    self.words[at] = number;
                }
                5 => {
                    let left = random.below(self.values.len() + 1);
                    self.values.truncate(left);
                }
                6 if random.once_in(20) => self.words.truncate(63),
                _ => {
                    // A word of a component that there is.
                    let used = 4 * self.words[COUNT].clamp(1, 13) as usize;
                    let at = random.below(used);
                    self.words[at] = match random.below(3) {
                        0 => number,
                        1 => self.words[at] ^ 1 << random.below(12),
                        _ => self.words[at].wrapping_add(1),
                    };
                }
            }
        }
    }
}

#[test]
fn a_ground_is_named_exactly_where_a_rule_is_refused() {
    let mut random = Random::new(21);
    let mut input = Vec::new();
    let (mut bad, mut good) = (0, 0);
    for turn in 0..60_000 {
        let (form, standard, family) = [
            (Form::Standard(4), 1, 4),
            (Form::Standard(6), 1, 6),
            (Form::WithDistinguisher(4), 2, 4),
            (Form::WithDistinguisher(6), 2, 6),
        ][turn % 4];
        inputs::random(form, &mut random, &mut input);
        let (mut values, mut octets) = (vec![0; OPERATORS], vec![0; OPERATORS]);
        let mut words = vec![0; WORDS];
        let read = surface::read(
            standard,
            family,
            &input,
            &mut words,
            &mut values,
            &mut octets,
        );
        if read.status != 0 {
            continue;
        }
        values.truncate(read.second as usize);
        octets.truncate(read.second as usize);
        let mut lent = Lent {
            words,
            values,
            octets,
        };
        lent.change(&mut random);
        for (standard, family) in [(0, 0), (1, 4), (1, 6), (1, 5), (2, 4)] {
            let (ground, status) = (lent.why(standard, family), lent.status(standard, family));
            assert_eq!(
                ground.is_some(),
                matches!(status, 7 | 10 | 11),
                "{ground:?}"
            );
            assert_eq!(matches!(ground, Some(Ground::Family(_))), status == 11);
            assert_eq!(matches!(ground, Some(Ground::Octets(_))), status == 7);
            if let Some(ground) = ground {
                bad += 1;
                assert!(ground.to_string().len() > 20, "{ground}");
            } else {
                good += 1;
            }
        }
    }
    assert!(bad > 20_000 && good > 5_000, "{bad} {good}");
}

#[test]
fn each_ground_is_the_one_that_is_meant() {
    use Ground::*;
    const SIX: (u8, u64) = (0x81, 6);
    let ten = [1, 8, 0x0A00_0000, 0];
    let list = |kind: u64, start, count| [kind, start, count, 0];
    let component = 0;
    let cases: Vec<(Lent, u8, Ground)> = vec![
        (Lent::new(4, &[ten], &[]), 5, Family(5)),
        (
            Lent::new(4, &[list(1, 33, 0)], &[]),
            4,
            Range {
                component,
                offset: 0,
                length: 33,
            },
        ),
        (
            Lent::new(4, &[list(2, 8, 0x0A00_0001)], &[]),
            4,
            Bits { component },
        ),
        (Lent::new(4, &[list(2, 8, 1 << 32)], &[]), 4, Word(2)),
        (Lent::new(4, &[[1, 8, 0, 1]], &[]), 4, Word(3)),
        (Lent::new(4, &[list(1, 0x108, 0)], &[]), 4, Word(1)),
        (Lent::new(4, &[list(1 + 16 * 4, 0, 0)], &[]), 4, Word(0)),
        (
            Lent::new(4, &[ten], &[]),
            6,
            Form {
                component,
                family: 6,
            },
        ),
        (
            Lent::new(6, &[list(1 + 16, 8, 0)], &[]),
            6,
            Form {
                component,
                family: 6,
            },
        ),
        (
            Lent::new(6, &[list(1 + 48, 8, 0)], &[]),
            4,
            Form {
                component,
                family: 4,
            },
        ),
        (
            Lent::new(6, &[list(1 + 48, 129, 0)], &[]),
            6,
            Range {
                component,
                offset: 0,
                length: 129,
            },
        ),
        (
            Lent::new(6, &[list(1 + 48, 0x808, 0)], &[]),
            6,
            Range {
                component,
                offset: 8,
                length: 8,
            },
        ),
        (
            Lent::new(6, &[list(1 + 48, 8, 1)], &[]),
            6,
            Bits { component },
        ),
        (
            Lent::new(6, &[list(1 + 48, 0x810, 1 << 63)], &[]),
            6,
            Bits { component },
        ),
        (
            Lent::new(4, &[list(3, 0, 0)], &[]),
            4,
            EmptyList { component },
        ),
        (
            Lent::new(4, &[list(3, 0, 2)], &[SIX]),
            4,
            Outside { component },
        ),
        (
            Lent::new(4, &[list(3, 1, 1)], &[SIX]),
            4,
            Outside { component },
        ),
        (
            Lent::new(4, &[list(3, u64::MAX, 1)], &[SIX]),
            4,
            Outside { component },
        ),
        (
            Lent::new(4, &[list(3, 0, 2048)], &[SIX; 2048]),
            4,
            Operators(2048),
        ),
        (Lent::new(4, &[[3, 0, 1, 1]], &[SIX]), 4, Word(3)),
        (Lent::new(4, &[list(3 + 16, 0, 1)], &[SIX]), 4, Word(0)),
        (
            Lent::new(4, &[list(3, 0, 1)], &[(0x01, 6)]),
            4,
            NoEnd { component },
        ),
        (
            Lent::new(4, &[list(3, 0, 2)], &[SIX, SIX]),
            4,
            EarlyEnd {
                component,
                operator: 0,
            },
        ),
        (
            Lent::new(4, &[list(3, 0, 1)], &[(0xC1, 6)]),
            4,
            FirstAnd { component },
        ),
        (
            Lent::new(4, &[list(3, 0, 1)], &[(0x81, 256)]),
            4,
            Value {
                component,
                operator: 0,
                width: 1,
            },
        ),
        (
            Lent::new(4, &[ten, list(9, 0, 2)], &[(0x01, 255), (0x91, 1 << 16)]),
            4,
            Value {
                component: 1,
                operator: 1,
                width: 2,
            },
        ),
        (
            Lent::new(4, &[list(11, 0, 1)], &[(0x91, 6)]),
            4,
            TooWide {
                component,
                operator: 0,
                width: 2,
                most: 1,
            },
        ),
        (
            Lent::new(6, &[list(3, 0, 1), list(12, 0, 2)], &[SIX, (0xB1, 6)]),
            6,
            EarlyEnd {
                component: 1,
                operator: 0,
            },
        ),
        (
            Lent::new(6, &[list(12, 0, 2)], &[(0x01, 6), (0xF1, u64::MAX)]),
            6,
            TooWide {
                component,
                operator: 1,
                width: 8,
                most: 1,
            },
        ),
        // Before the same value is found too large.
        (
            Lent::new(4, &[ten, list(9, 0, 2)], &[(0x11, 6), (0xA1, 1 << 40)]),
            4,
            TooWide {
                component: 1,
                operator: 1,
                width: 4,
                most: 2,
            },
        ),
        (
            Lent::new(4, &[list(13, 0, 1)], &[SIX]),
            4,
            Type {
                component,
                found: 13,
            },
        ),
        (
            Lent::new(4, &[list(14, 0, 1)], &[SIX]),
            6,
            Type {
                component,
                found: 14,
            },
        ),
        (
            Lent::new(4, &[list(0, 0, 0)], &[]),
            4,
            Type {
                component,
                found: 0,
            },
        ),
        (
            Lent::new(4, &[ten, list(3, 0, 1), list(3, 0, 1)], &[SIX]),
            4,
            Order {
                component: 2,
                before: 3,
                found: 3,
            },
        ),
        (
            Lent::new(4, &[list(5, 0, 1), list(4, 0, 1)], &[SIX]),
            4,
            Order {
                component: 1,
                before: 5,
                found: 4,
            },
        ),
    ];
    for (lent, family, ground) in cases {
        assert_eq!(lent.why(1, family), Some(ground));
        assert_eq!(lent.status(1, family) == 11, ground == Family(5));
    }

    let mut long: Vec<(u8, u64)> = vec![(0x31, 6); 600];
    long[599].0 = 0xB1;
    let mut whole = Lent::new(4, &[list(3, 0, 600)], &long);
    assert_eq!(whole.why(1, 4), Some(Octets(5401)));
    assert_eq!(whole.why(0, 0), Some(Octets(5401)));
    // A distinguisher counts, but for the plain writing.
    whole.words[DISTINGUISHED] = 1;
    assert_eq!(whole.why(1, 4), Some(Octets(5409)));
    assert_eq!(whole.why(2, 4), Some(Octets(5409)));
    assert_eq!(whole.why(0, 0), Some(Octets(5401)));
    // The plain writing takes lists as they are, also one list twice.
    let many = Lent::new(0, &[list(3, 0, 1024), list(4, 0, 1024)], &[SIX; 1024]);
    assert_eq!(many.why(0, 0), Some(Operators(2048)));
    assert_eq!(many.status(0, 0), 10);
    let mut few = Lent::new(4, &[ten], &[]);
    few.words.pop();
    assert_eq!(few.why(1, 4), Some(Words(63)));
    for (at, number, ground) in [
        (COUNT, 14, Components(14)),
        (COUNT, u64::MAX, Components(u64::MAX)),
        (FAMILY, 256, Word(FAMILY)),
        (DISTINGUISHED, 2, Distinguisher(55)),
        (DISTINGUISHED, u64::MAX, Distinguisher(55)),
        (DISTINGUISHER, 1, Distinguisher(56)),
        (57, 1, Word(57)),
        (63, 1, Word(63)),
        (7, 1, Word(7)),
    ] {
        let mut lent = Lent::new(4, &[ten], &[]);
        lent.words[at] = number;
        assert_eq!(lent.why(1, 4), Some(ground));
        assert_eq!(lent.why(0, 0), Some(ground));
        // The first word that is wrong, and a component's before it.
        if at > FIRST {
            lent.words[63] = 1;
            let first = if at == 63 { Word(63) } else { ground };
            assert_eq!(lent.why(1, 4), Some(first));
            lent.words[51] = 1;
            assert_eq!(lent.why(1, 4), Some(Word(51)));
            lent.words[1] = 33;
            let ground = lent.why(1, 4).unwrap();
            assert!(matches!(ground, Range { .. }), "{ground}");
        }
    }
    // Bits are any, where there is a distinguisher; both words wrong are told by the first.
    let mut lent = Lent::new(4, &[ten], &[]);
    (lent.words[DISTINGUISHED], lent.words[DISTINGUISHER]) = (1, u64::MAX);
    assert_eq!((lent.why(1, 4), lent.why(0, 0)), (None, None));
    lent.words[DISTINGUISHED] = 2;
    assert_eq!(lent.why(1, 4), Some(Distinguisher(55)));
    assert_eq!(
        Distinguisher(55).to_string(),
        "word 55 says whether it has a distinguisher, and is neither 0 nor 1"
    );
    assert_eq!(
        Distinguisher(56).to_string(),
        "word 56 has bits of a distinguisher, and there is none"
    );
    let mut lent = Lent::new(4, &[list(3, 0, 1)], &[SIX]);
    lent.words[FIRST] = 1;
    assert_eq!(lent.why(1, 4), Some(Outside { component }));
}

#[test]
fn owned_rules_have_their_grounds() {
    let list = |value_length| {
        let one = NumericOperator {
            value_length,
            ..NumericOperator::equal_to(6)
        };
        FlowSpecComponent::IpProtocol(vec![one])
    };
    let rule = FlowSpecNlri::new(vec![list(3)]);
    let odd = Ground::Width {
        component: 0,
        width: 3,
    };
    assert_eq!(why(Family::Ipv4, &rule), Some(odd));
    let rule = FlowSpecNlri::new(vec![list(1); 14]);
    assert_eq!(why(Family::Ipv6, &rule), Some(Ground::Components(14)));
    // The least width of a mask may be wider than fragment bits are.
    let mask = vec![BitmaskOperator::partial_match(0x100)];
    let flags = FlowSpecNlri::new(vec![FlowSpecComponent::TcpFlags(mask.clone())]);
    assert_eq!(why(Family::Ipv4, &flags), None);
    let rule = FlowSpecNlri::new(vec![list(1), FlowSpecComponent::Fragment(mask)]);
    let ground = why(Family::Ipv4, &rule).unwrap();
    assert_eq!(
        ground.to_string(),
        "component 1 has a value of 2 octets at operator 0, and 1 is the most in its type"
    );
    for (family, prefix) in [(Family::Ipv4, "::/0"), (Family::Ipv6, "0.0.0.0/0")] {
        let component = FlowSpecComponent::SourcePrefix(prefix.parse().unwrap());
        let rule = FlowSpecNlri::new(vec![component]);
        let ground = why(family, &rule).unwrap();
        assert!(ground.to_string().contains("no prefix of IPv"), "{ground}");
        assert_eq!(write(family, &rule), Err(Reason::BadRecord.into()));
    }
}

#[test]
fn each_field_of_a_packet_is_named() {
    let four = Packet::new([10, 1, 2, 3], [192, 0, 2, 1]).words();
    let six = Packet::new([1; 16], [2; 16]).words();
    assert_eq!((why_packet(&four), why_packet(&six)), (None, None));
    type Words = [(usize, u64)];
    // Whether it is out of range in IPv6 too.
    let cases: [(&Words, Field, bool); 19] = [
        (&[(0, 5)], Field::Family, true),
        (&[(1, 1)], Field::Destination, false),
        (&[(2, 1 << 32)], Field::Destination, false),
        (&[(3, 1)], Field::Source, false),
        (&[(4, u64::MAX)], Field::Source, false),
        (&[(5, 256)], Field::Protocol, true),
        (&[(6, 65_576)], Field::Length, true),
        (&[(7, 64)], Field::Dscp, true),
        (&[(8, 16)], Field::Fragment, true),
        (&[(9, 2)], Field::Presence(9), true),
        (&[(9, 1), (10, 65_536)], Field::Ports, true),
        (&[(9, 1), (11, 65_536)], Field::Ports, true),
        (&[(12, 2)], Field::Presence(12), true),
        (&[(12, 1), (13, 256)], Field::Icmp, true),
        (&[(12, 1), (14, 256)], Field::Icmp, true),
        (&[(15, 2)], Field::Presence(15), true),
        (&[(15, 1), (16, 4096)], Field::TcpFlags, true),
        (&[(17, 2)], Field::Presence(17), true),
        (&[(19, 1)], Field::Unused, true),
    ];
    for (changes, field, in_six) in cases {
        for (mut words, named) in [(four, true), (six, in_six)] {
            for &(at, number) in changes {
                words[at] = number;
            }
            let wanted = Some(field).filter(|_| named);
            assert_eq!(why_packet(&words), wanted, "{changes:?}");
            let status = surface::choose(&[], &[], &[], &words).status;
            assert_eq!(status, if named { 13 } else { 0 });
        }
    }
    let (mut four, mut six) = (four, six);
    (four[17], six[17], six[18]) = (1, 1, 1 << 20);
    assert_eq!(why_packet(&four), Some(Field::LabelInIpv4));
    assert_eq!(why_packet(&six), Some(Field::FlowLabel));
    assert_eq!(why_packet(&six[..19]), Some(Field::Words(19)));
    let two = Packet::new([1; 16], [10, 1, 2, 3]);
    assert_eq!(two.why(), Some(Field::Family));
}

#[test]
fn packets_are_out_of_range_exactly_where_a_field_is_named() {
    let mut random = Random::new(22);
    let mut bad = 0;
    for turn in 0..50_000 {
        let mut words = match turn % 2 {
            0 => Packet::new([10, 1, 2, 3], [192, 0, 2, 1]).words(),
            _ => Packet::new([1; 16], [2; 16]).words(),
        };
        for _ in 0..=random.below(3) {
            words[random.below(20)] = (random.number() & 1) << random.below(40);
        }
        let refused = surface::choose(&[], &[], &[], &words).status == 13;
        assert_eq!(why_packet(&words).is_some(), refused, "{words:?}");
        bad += u64::from(refused);
    }
    assert!(bad > 10_000 && bad < 45_000, "{bad}");
}

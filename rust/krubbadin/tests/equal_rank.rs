//! Two rules of a family rank equal exactly if they are written alike: of rules that differ in little, and of the same rule lent in other
//! words and lists.

use inputs::{framed, octets};
use krubbadin::surface::{self, FIRST, OPERATORS, STANDARD, WORDS};
use krubbadin::*;
use std::cmp::Ordering;

const OWN: [u8; 8] = [0x00, 0x00, 0xFB, 0xF0, 0x00, 0x00, 0x00, 0x07];

/// Bodies, each of which precedes all that come after it.
const IN_ORDER: [(Family, &[&str]); 2] = [
    (
        Family::Ipv4,
        &[
            "01 10 0A 00", // 10.0.0.0/16, whose length is above that of 11.0.0.0/8
            "01 10 0A 01",
            "01 08 0A 03 81 06",
            "01 08 0A",
            "01 08 0B",
            "02 08 0A",
            "03 01 05 81 06",
            "03 01 05 91 00 06",
            "03 01 05 C1 06",
            "03 81 05",
            "03 81 06 0C 81 00",
            "03 81 06",
            "03 82 06",
            "03 91 00 06",
            "03 A1 00 00 00 06",
            "03 B1 00 00 00 00 00 00 00 06",
            "09 81 02",
            "09 91 00 02",
            "",
        ],
    ),
    (
        Family::Ipv6,
        &[
            "01 10 00 00 00",
            "01 0F 00 00 00",
            "01 08 00 00",
            "01 00 00",
            "01 10 08 00",
            "01 10 08 01",
            "01 0F 08 00",
            "01 10 09 00",
            "0D 81 06",
            "0D 91 00 06",
            "",
        ],
    ),
];

fn rules(family: Family, bodies: &[&str], own: Option<[u8; 8]>) -> Vec<FlowSpecNlri> {
    let rule = |body: &&str| {
        let mut rule = read(family, &framed(&octets(body))).unwrap().0;
        rule.distinguisher = own;
        rule
    };
    bodies.iter().map(rule).collect()
}

#[test]
fn rules_that_differ_in_little_rank_by_place_and_equal_as_they_are_written() {
    for (family, bodies) in IN_ORDER {
        for own in [None, Some(OWN), Some([0; 8])] {
            let rules = rules(family, bodies, own);
            for (place, one) in rules.iter().enumerate() {
                for (other_place, other) in rules.iter().enumerate() {
                    let ranked = rank(family, one, other).unwrap();
                    let (body, other_body) = (bodies[place], bodies[other_place]);
                    assert_eq!(ranked, place.cmp(&other_place), "{body} | {other_body}");
                    let written = [one, other].map(|rule| write(family, rule).unwrap());
                    assert_eq!(ranked == Ordering::Equal, written[0] == written[1]);
                }
            }
        }
    }
}

#[test]
fn path_ids_play_no_part() {
    let prefix = "10.0.0.0/8".parse().unwrap();
    let [none, one] = [None, Some(1)].map(|path_id| {
        let prefix = NetworkPrefix { prefix, path_id };
        FlowSpecNlri::new(vec![FlowSpecComponent::DestinationPrefix(prefix)])
    });
    assert_ne!(none, one);
    assert_eq!(rank(Family::Ipv4, &none, &one), Ok(Ordering::Equal));
    assert_eq!(write(Family::Ipv4, &none), write(Family::Ipv4, &one));
}

/// A rule as it is lent.
#[derive(Clone, PartialEq)]
struct Lent {
    words: [u64; WORDS],
    values: Vec<u64>,
    octets: Vec<u8>,
}

impl Lent {
    fn read(body: &str) -> Self {
        let (mut words, mut values, mut operators) = ([0; WORDS], [0; OPERATORS], [0; OPERATORS]);
        let input = framed(&octets(body));
        let answer = surface::read(STANDARD, 4, &input, &mut words, &mut values, &mut operators);
        let (_, count) = answer.accepted().unwrap();
        Lent {
            words,
            values: values[..count].to_vec(),
            octets: operators[..count].to_vec(),
        }
    }

    /// The same rule, its operators behind so many others.
    fn behind(&self, others: usize) -> Self {
        let mut lent = self.clone();
        lent.words[FIRST] += others as u64;
        lent.values.splice(0..0, vec![u64::MAX; others]);
        lent.octets.splice(0..0, vec![0xFF; others]);
        lent
    }

    /// The same rule, the operators of its two lists of one operator each in the other order.
    fn turned(&self) -> Self {
        let mut lent = self.clone();
        lent.words.swap(1, 5);
        lent.values.swap(0, 1);
        lent.octets.swap(0, 1);
        lent
    }

    fn written(&self) -> Vec<u8> {
        let mut out = [0; 32];
        let answer = surface::write(
            STANDARD,
            4,
            &self.words,
            &self.values,
            &self.octets,
            &mut out,
        );
        out[..answer.accepted().unwrap().0].to_vec()
    }

    fn rank(&self, other: &Lent) -> usize {
        let answer = surface::rank(
            (&self.words, &self.values, &self.octets),
            (&other.words, &other.values, &other.octets),
        );
        answer.accepted().unwrap().0
    }
}

#[test]
fn reserved_bits_and_places_play_no_part() {
    // A number and a mask, each in a list of its own: as they are, and with reserved bits.
    let rule = Lent::read("03 81 06 09 81 02");
    let mut reserved = rule.clone();
    reserved.octets = vec![0x89, 0x8D];
    let alike = [
        rule.clone(),
        rule.behind(1),
        rule.turned(),
        rule.turned().behind(3),
        reserved.clone(),
        reserved.turned().behind(2),
    ];
    let unlike = [
        Lent::read("03 81 06 09 81 03"),
        Lent::read("03 81 06 09 82 02"),
        Lent::read("03 81 06 09 91 00 02"),
        Lent::read("03 81 06 0A 81 02"),
    ];
    for (place, one) in alike.iter().enumerate() {
        for other in &alike[place + 1..] {
            assert!(one != other, "{place} is lent twice");
            assert_eq!(one.rank(other), 0);
            assert_eq!(one.written(), other.written());
        }
        for other in &unlike {
            assert_eq!((one.rank(other), other.rank(one)), (1, 2));
            assert_ne!(one.written(), other.written());
        }
    }
}

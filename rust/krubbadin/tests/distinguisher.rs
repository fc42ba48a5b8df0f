//! Rules of virtual networks: the eight octets before the components (RFC 8955, 8), read, written, counted, and kept out of matching and
//! rank.

use inputs::{Form, Random, LONGEST_BODY};
use krubbadin::surface::{self, why_rule, Answer, COUNT, FAMILY, NOWHERE, OPERATORS, WORDS};
use krubbadin::surface::{DISTINGUISHED, DISTINGUISHER, PLAIN, STANDARD, WITH_DISTINGUISHER};
use krubbadin::*;
use std::cmp::Ordering;

const FAMILIES: [Family; 2] = [Family::Ipv4, Family::Ipv6];
/// 0:64496:7, and the same with another number.
const OWN: [u8; 8] = [0x00, 0x00, 0xFB, 0xF0, 0x00, 0x00, 0x00, 0x07];
const OTHER: [u8; 8] = [0x00, 0x00, 0xFB, 0xF0, 0x00, 0x00, 0x00, 0x08];

/// How many octets the length has, and the body's stated length, where all of the length is there.
fn stated(input: &[u8]) -> Option<(usize, usize)> {
    match *input {
        [first @ 0..=239, ..] => Some((1, first.into())),
        [first, second, ..] => Some((2, usize::from(first % 16) * 256 + usize::from(second))),
        _ => None,
    }
}

/// The octets behind another length, of so many octets.
fn restated(width: usize, length: usize, octets: &[u8]) -> Vec<u8> {
    let [high, low] = (length as u16).to_be_bytes();
    match width {
        1 => [&[low], octets].concat(),
        _ => [&[0xF0 | high, low], octets].concat(),
    }
}

/// What a reading gives, with room for all: its answer, the words, values and octets.
type Lent = (Answer, [u64; WORDS], Vec<u64>, Vec<u8>);

fn read_by(standard: u8, family: u8, input: &[u8]) -> Lent {
    let (mut words, mut values, mut octets) = ([7; WORDS], [7; OPERATORS], [7; OPERATORS]);
    let answer = surface::read(
        standard,
        family,
        input,
        &mut words,
        &mut values,
        &mut octets,
    );
    assert_eq!(surface::check(standard, family, input), answer);
    let operators = match answer.status {
        0 => answer.second as usize,
        _ => 0,
    };
    assert!(values[operators..].iter().all(|&value| value == 7));
    (
        answer,
        words,
        values[..operators].to_vec(),
        octets[..operators].to_vec(),
    )
}

/// The same input with a distinguisher before its body, which its length counts: how far the body moves, and the octets.
fn distinguished(input: &[u8], distinguisher: [u8; 8]) -> Option<(usize, Vec<u8>)> {
    let (width, length) = stated(input)?;
    if length + 8 > LONGEST_BODY {
        return None;
    }
    let wider = if length + 8 > 239 { 2 } else { width };
    let behind = [&distinguisher[..], &input[width..]].concat();
    Some((wider + 8 - width, restated(wider, length + 8, &behind)))
}

/// A reading with a distinguisher answers what one without answers of the components alone, its places and the octets used further back.
fn moved(family: u8, input: &[u8], distinguisher: [u8; 8]) -> Option<u64> {
    let (by, with) = distinguished(input, distinguisher)?;
    let (answer, words, values, octets) = read_by(STANDARD, family, input);
    let (moved, mut moved_words, moved_values, moved_octets) =
        read_by(WITH_DISTINGUISHER, family, &with);
    let mut wanted = answer;
    match answer.status {
        0 => {
            wanted.first += by as u64;
            let bits = u64::from_be_bytes(distinguisher);
            assert_eq!(moved_words[DISTINGUISHED..=DISTINGUISHER], [1, bits]);
            moved_words[DISTINGUISHED..=DISTINGUISHER].fill(0);
        }
        _ => wanted.place += by as u64,
    }
    assert_eq!(moved, wanted, "{input:02X?}");
    assert_eq!(moved_words, words);
    assert_eq!((moved_values, moved_octets), (values, octets));
    Some(answer.status)
}

#[test]
fn it_moves_the_components_and_their_places() {
    let mut random = Random::new(41);
    for family in [4, 6] {
        let mut met = [0; 7];
        let mut count = 0u64;
        inputs::by_rule(Form::Standard(family), &mut |input| {
            // Over a million.
            if count % 37 == 0 {
                if let Some(status) = moved(family, input, random.number().to_be_bytes()) {
                    met[status as usize] += 1;
                }
            }
            count += 1;
        });
        let mut input = Vec::new();
        for _ in 0..20_000 {
            inputs::random(Form::Standard(family), &mut random, &mut input);
            if let Some(status) = moved(family, &input, random.number().to_be_bytes()) {
                met[status as usize] += 1;
            }
        }
        let often = |&status: &usize| met[status] > 100;
        assert!([0, 1, 2, 3, 4, 6].iter().all(often), "{met:?}");
    }
}

/// Every stated length up to ten with up to twelve octets there, in a length of one octet and of two.
#[test]
fn a_short_one_is_refused_at_the_stated_end() {
    // The ninth and the tenth octet are no component.
    let octets = [
        0x03, 0x81, 0x06, 0x0E, 0x00, 0x01, 0x21, 0x0B, 0x0E, 0x0E, 0x00, 0x00,
    ];
    for family in [4, 6] {
        for width in [1, 2] {
            for there in 0..=octets.len() {
                for length in 0..=10 {
                    let input = restated(width, length, &octets[..there]);
                    let (answer, words, ..) = read_by(WITH_DISTINGUISHER, family, &input);
                    let (status, first, place) = match length {
                        _ if length > there => (1, 0, (width + there) as u64),
                        0..=7 => (19, 0, (width + length) as u64),
                        8 => (0, (width + 8) as u64, NOWHERE),
                        _ => (3, 14, (width + 8) as u64),
                    };
                    let wanted = Answer {
                        status,
                        first,
                        second: 0,
                        place,
                    };
                    assert_eq!(answer, wanted, "{input:02X?}");
                    match status {
                        0 => assert_eq!((words[COUNT], words[DISTINGUISHED]), (0, 1)),
                        _ => assert_eq!(words, [7; WORDS]),
                    }
                }
            }
        }
    }
    // In the length field itself, and before it the family.
    let missing = |place| Err(Refusal::at(Reason::InsufficientData, place));
    assert_eq!(check_distinguished(Family::Ipv4, &[]), missing(0));
    assert_eq!(check_distinguished(Family::Ipv6, &[0xF0]), missing(1));
    for input in [&[][..], &[0x00], &[0x03, 0x03, 0x81, 0x06]] {
        let answer = surface::check(WITH_DISTINGUISHER, 5, input).accepted();
        assert_eq!(answer, Err(Reason::BadFamily(5).into()));
    }
    // Room comes last.
    let no_room = surface::read(WITH_DISTINGUISHER, 4, &[0], &mut [], &mut [], &mut []);
    assert_eq!(no_room.status, 19);
    let input = restated(1, 8, &OWN);
    let no_room = surface::read(WITH_DISTINGUISHER, 4, &input, &mut [], &mut [], &mut []);
    assert_eq!(no_room.accepted(), Err(Reason::NoRoom(1).into()));
}

/// Each number that `standard` can be.
#[test]
fn only_2_expects_one() {
    let with = inputs::framed(&[&OWN[..], &[0x03, 0x81, 0x06]].concat());
    let without = inputs::framed(&[0x03, 0x81, 0x06]);
    for family in [4, 6] {
        let (answer, words, ..) = read_by(WITH_DISTINGUISHER, family, &with);
        assert_eq!(answer.accepted(), Ok((12, 1)));
        for standard in 0..=255 {
            let mut out = [0; 12];
            let written = surface::write(standard, family, &words, &[6], &[0x81], &mut out);
            match standard {
                PLAIN => assert_eq!((written.first, &out[..4]), (4, &without[..])),
                _ => assert_eq!((written.first, &out[..]), (12, &with[..])),
            }
            if standard == WITH_DISTINGUISHER {
                continue;
            }
            // Its first octet is no type.
            let (answer, ..) = read_by(standard, family, &with);
            assert_eq!((answer.status, answer.place), (2, 1));
            let (answer, words, ..) = read_by(standard, family, &without);
            assert_eq!(answer.accepted(), Ok((4, 1)));
            assert_eq!(words[DISTINGUISHED..], [0; 9]);
        }
    }
}

fn for_each_rule(
    seed: u64,
    turns: usize,
    mut take: impl FnMut(Family, &[u8], FlowSpecNlri, usize),
) {
    let mut random = Random::new(seed);
    let mut input = Vec::new();
    let mut taken = 0;
    for turn in 0..turns {
        let family = FAMILIES[turn % 2];
        let form = Form::WithDistinguisher(family.number());
        inputs::random(form, &mut random, &mut input);
        if let Ok((rule, used)) = read_distinguished(family, &input) {
            taken += 1;
            take(family, &input, rule, used);
        }
    }
    assert!(taken > turns / 4, "{taken} of {turns}");
}

#[test]
fn what_is_read_is_written_again() {
    for_each_rule(42, 20_000, |family, input, rule, used| {
        let (width, length) = stated(input).unwrap();
        let own: [u8; 8] = input[width..width + 8].try_into().unwrap();
        assert_eq!((rule.distinguisher, used), (Some(own), width + length));
        let written = write(family, &rule).unwrap();
        // The canonical length, the distinguisher, and no octet more than the body has.
        let (width, length) = stated(&written).unwrap();
        assert_eq!((width == 1, width + length), (length < 240, written.len()));
        assert_eq!(written[width..width + 8], own);
        assert_eq!(
            read_distinguished(family, &written),
            Ok((rule.clone(), written.len()))
        );
        assert_eq!(check_distinguished(family, &written), Ok(written.len()));
        // As the surface has it, to a room that is exact.
        let (_, words, values, octets) = read_by(WITH_DISTINGUISHER, family.number(), input);
        let mut out = vec![0; written.len()];
        let mut write_to = |standard, room: usize| {
            let number = family.number();
            surface::write(standard, number, &words, &values, &octets, &mut out[..room])
        };
        let no_room = Err(Reason::NoRoom(written.len()).into());
        assert_eq!(write_to(STANDARD, written.len() - 1).accepted(), no_room);
        assert_eq!(
            write_to(STANDARD, written.len()).first,
            written.len() as u64
        );
        assert_eq!(out, written);

        // Without it the components are the same.
        let without = FlowSpecNlri {
            distinguisher: None,
            ..rule.clone()
        };
        let components = write(family, &without).unwrap();
        let (width_alone, alone) = stated(&components).unwrap();
        assert_eq!(alone + 8, length);
        assert_eq!(components[width_alone..], written[width + 8..]);
        assert_eq!(
            read(family, &components),
            Ok((without.clone(), components.len()))
        );
        assert_eq!(without.with_distinguisher(own), rule);
    });
}

/// The plain reading knows none, and the plain writing writes the components alone.
#[test]
fn the_plain_calls_have_none() {
    let mut random = Random::new(43);
    let mut input = Vec::new();
    for _ in 0..5_000 {
        inputs::random(Form::Plain, &mut random, &mut input);
        if let Ok(rule) = parse_flowspec_nlri(&input) {
            assert_eq!(rule.distinguisher, None);
            let written = encode_flowspec_nlri(&rule);
            assert_eq!(encode_flowspec_nlri(&rule.with_distinguisher(OWN)), written);
        }
    }
    let port = vec![NumericOperator::equal_to(1 << 32); 500];
    let long = FlowSpecNlri::new(vec![FlowSpecComponent::Port(port)]).with_distinguisher(OWN);
    let error = encode_flowspec_nlri(&long).unwrap_err();
    let too_large = matches!(error, EncodingError::ValueTooLarge { actual: 4501, .. });
    assert!(too_large, "{error}");
}

/// A rule whose components take so many octets: 4,087 is the most beside a distinguisher.
fn long_rule(octets: usize) -> FlowSpecNlri {
    let body = inputs::list_of(4, octets, 3);
    let (rule, _) = read(Family::Ipv4, &inputs::framed(&body)).unwrap();
    rule
}

#[test]
fn it_counts_in_the_longest_body() {
    let packet = Packet::new([10, 1, 2, 3], [192, 0, 2, 1]);
    let every = FlowSpecNlri::new(vec![]);
    for components in 4_080..=LONGEST_BODY {
        let rule = long_rule(components);
        assert_eq!(write(Family::Ipv4, &rule).unwrap().len(), 2 + components);
        assert_eq!(matches(Family::Ipv4, &rule, &packet), Ok(false));
        let without = encode_flowspec_nlri(&rule);
        let (rule, every) = (
            rule.with_distinguisher(OWN),
            every.clone().with_distinguisher(OWN),
        );
        assert_eq!(encode_flowspec_nlri(&rule), without);
        let mut table = Table::new();
        if components + 8 <= LONGEST_BODY {
            let written = write(Family::Ipv4, &rule).unwrap();
            assert_eq!(written.len(), 2 + 8 + components);
            assert_eq!(
                read_distinguished(Family::Ipv4, &written),
                Ok((rule.clone(), written.len()))
            );
            assert_eq!(matches(Family::Ipv4, &rule, &packet), Ok(false));
            assert_eq!(rank(Family::Ipv4, &rule, &every), Ok(Ordering::Less));
            assert_eq!(table.push(Family::Ipv4, &rule), Ok(()));
            assert_eq!(choose(&table, &packet), Ok(None));
            assert_eq!(why(Family::Ipv4, &rule), None);
            continue;
        }
        let too_large = Err(Reason::ValueTooLarge(8 + components).into());
        let bad = Refusal::from(Reason::BadRecord);
        assert_eq!(write(Family::Ipv4, &rule).map(|_| ()), too_large);
        assert_eq!(table.push(Family::Ipv4, &rule), too_large);
        assert!(table.is_empty());
        assert_eq!(matches(Family::Ipv4, &rule, &packet), Err(bad));
        assert_eq!(rank(Family::Ipv4, &rule, &every), Err(bad));
        assert_eq!(precedes(Family::Ipv4, &every, &rule), Err(bad));
        assert_eq!(
            why(Family::Ipv4, &rule),
            Some(Ground::Octets(8 + components))
        );
        let said = format!(
            "its body has {} octets, and 4095 is the most",
            8 + components
        );
        assert_eq!(why(Family::Ipv4, &rule).unwrap().to_string(), said);
        // So to the chooser, whose rules come as words.
        let (_, mut words, values, octets) = {
            let body = inputs::list_of(4, components, 3);
            read_by(STANDARD, 4, &inputs::framed(&body))
        };
        let choose = |words: &[u64]| surface::choose(words, &values, &octets, &packet.words());
        assert_eq!(choose(&words).status, 0);
        words[DISTINGUISHED] = 1;
        assert_eq!(choose(&words).status, 10);
    }
}

#[test]
fn it_plays_no_part_in_matching_or_rank() {
    let mut rules: Vec<(Family, FlowSpecNlri)> = Vec::new();
    for_each_rule(44, 1_200, |family, _, rule, _| rules.push((family, rule)));
    let packet = |family| match family {
        Family::Ipv4 => Packet::new([10, 1, 2, 3], [192, 0, 2, 1]),
        Family::Ipv6 => Packet::new([0x20; 16], [0xFF; 16]),
    };
    let without = |rule: &FlowSpecNlri| FlowSpecNlri::new(rule.components.clone());
    let with = |rule: &FlowSpecNlri, own| without(rule).with_distinguisher(own);
    let mut met = [0; 3];
    for (at, (family, one)) in rules.iter().enumerate() {
        let packet = packet(*family);
        let matched = matches(*family, &without(one), &packet);
        assert!(matched.is_ok());
        for own in [OWN, OTHER, [0; 8], [0xFF; 8]] {
            assert_eq!(matches(*family, &with(one, own), &packet), matched);
        }
        let later = rules[at..].iter().filter(|(of, _)| of == family);
        for (_, two) in later.take(15) {
            let ranked = rank(*family, &without(one), &without(two));
            met[(ranked.unwrap() as i8 + 1) as usize] += 1;
            for own in [OWN, [0; 8]] {
                let (one, two) = (with(one, own), with(two, own));
                assert_eq!(rank(*family, &one, &two), ranked);
                let before = ranked.map(|order| order == Ordering::Less);
                assert_eq!(precedes(*family, &one, &two), before);
            }
            // Of two distinguishers they are not compared, be they the same rule otherwise.
            let mixed = Refusal::from(Reason::MixedDistinguisher(1));
            for (one, two) in [
                (with(one, OWN), with(two, OTHER)),
                (with(one, OWN), without(two)),
                (without(one), with(two, OWN)),
                (without(one), with(two, [0; 8])),
                (with(one, [0; 8]), without(two)),
            ] {
                assert_eq!(rank(*family, &one, &two), Err(mixed));
                assert_eq!(precedes(*family, &two, &one), Err(mixed));
            }
        }
    }
    assert!(met.iter().all(|&count| count > 100), "{met:?}");
}

#[test]
fn a_table_chooses_by_rules_of_one_distinguisher() {
    let read_in = |own: Option<[u8; 8]>, body: &[u8]| {
        let rule = read(Family::Ipv4, &inputs::framed(body)).unwrap().0;
        FlowSpecNlri {
            distinguisher: own,
            ..rule
        }
    };
    let wide = |own| read_in(own, &[0x01, 0x08, 0x0A]);
    let narrow = |own| read_in(own, &[0x01, 0x10, 0x0A, 0x01]);
    let table_of = |rules: &[FlowSpecNlri]| {
        let (mut table, mut read) = (Table::new(), Table::new());
        for rule in rules {
            table.push(Family::Ipv4, rule).unwrap();
            let octets = write(Family::Ipv4, rule).unwrap();
            let used = match rule.distinguisher {
                None => read.read(Family::Ipv4, &octets),
                Some(_) => read.read_distinguished(Family::Ipv4, &octets),
            };
            assert_eq!(used, Ok(octets.len()));
        }
        assert_eq!(table, read);
        let kept: Vec<FlowSpecNlri> = table.iter().map(|(_, rule)| rule).collect();
        assert_eq!(kept, rules);
        assert!((0..rules.len()).all(|place| table.rule(place).as_ref() == Some(&rules[place])));
        table
    };
    let to = |destination| Packet::new([192, 0, 2, 1], destination);
    for own in [None, Some(OWN), Some([0; 8])] {
        let table = table_of(&[wide(own), narrow(own)]);
        assert_eq!(choose(&table, &to([10, 1, 2, 3])), Ok(Some(1)));
        assert_eq!(choose(&table, &to([10, 2, 0, 1])), Ok(Some(0)));
        assert_eq!(choose(&table, &to([11, 0, 0, 1])), Ok(None));
    }
    // Every mixture of three in a table of four: the first that is not as the first.
    let all = [None, Some(OWN), Some([0; 8])];
    for choice in 0..81 {
        let owns = [1, 3, 9, 27].map(|power| all[choice / power % 3]);
        let table = table_of(&owns.map(wide));
        let other = owns.iter().position(|own| *own != owns[0]);
        let chosen = other.map_or(Ok(Some(0)), |place| {
            Err(Refusal::from(Reason::MixedDistinguisher(place)))
        });
        assert_eq!(choose(&table, &to([10, 1, 2, 3])), chosen, "{owns:?}");
        // Whether a rule matches or not.
        let none = chosen.map(|_| None);
        assert_eq!(choose(&table, &to([11, 0, 0, 1])), none, "{owns:?}");
    }
    // The packet, and then the family, come before it.
    let mut table = table_of(&[wide(Some(OWN)), wide(None), wide(None)]);
    let mut packet = to([10, 1, 2, 3]);
    let mixed = |place| Err(Reason::MixedDistinguisher(place).into());
    assert_eq!(choose(&table, &packet), mixed(1));
    table.read(Family::Ipv6, &[0x00]).unwrap();
    assert_eq!(choose(&table, &packet), Err(Reason::MixedFamily(3).into()));
    packet.dscp = 64;
    assert_eq!(choose(&table, &packet), Err(Reason::BadPacket.into()));
}

/// Of two rules in words, which may be of two families: the record and then the family come before the distinguisher.
#[test]
fn the_family_comes_before_it_in_rank() {
    let words_of = |family, distinguisher: [u8; 8]| {
        let (_, words, ..) = read_by(WITH_DISTINGUISHER, family, &restated(1, 8, &distinguisher));
        words
    };
    let rank = |one: &[u64; WORDS], two: &[u64; WORDS]| {
        surface::rank((one, &[], &[]), (two, &[], &[])).accepted()
    };
    let (four, six, other) = (words_of(4, OWN), words_of(6, OTHER), words_of(4, OTHER));
    assert_eq!(rank(&four, &four), Ok((0, 0)));
    let mixed = Err(Reason::MixedDistinguisher(1).into());
    assert_eq!((rank(&four, &other), rank(&other, &four)), (mixed, mixed));
    let mixed = Err(Reason::MixedFamily(1).into());
    assert_eq!((rank(&four, &six), rank(&six, &four)), (mixed, mixed));
    let mut none = six;
    none[63] = 1;
    let bad = Err(Reason::BadRecord.into());
    assert_eq!((rank(&four, &none), rank(&none, &four)), (bad, bad));
}

/// Words 55 to 63 that no rule has, to every call that takes a rule.
#[test]
fn words_that_are_no_distinguisher_are_no_rule() {
    let packet = Packet::new([192, 0, 2, 1], [10, 1, 2, 3]).words();
    let (_, good, ..) = read_by(STANDARD, 4, &[0x03, 0x01, 0x08, 0x0A]);
    let all_calls = |words: &[u64; WORDS]| {
        let one: (&[u64], &[u64], &[u8]) = (words, &[], &[]);
        let two: (&[u64], &[u64], &[u8]) = (&good, &[], &[]);
        let table = [&good[..], words].concat();
        let mut said = vec![
            surface::matches(words, &[], &[], &packet),
            surface::rank(one, two),
            surface::rank(two, one),
            surface::choose(words, &[], &[], &packet),
            surface::choose(&table, &[], &[], &packet),
        ];
        for standard in [PLAIN, STANDARD, WITH_DISTINGUISHER] {
            let mut out = [0; 16];
            said.push(surface::write(standard, 4, words, &[], &[], &mut out));
        }
        said
    };
    let status = |words: &[u64; WORDS]| -> Vec<u64> {
        all_calls(words)
            .iter()
            .map(|answer| answer.status)
            .collect()
    };
    assert_eq!(status(&good), [0; 8]);
    // One that is there, of any bits: it is another than the other rule's.
    for bits in [0, 1, u64::MAX] {
        let mut words = good;
        (words[DISTINGUISHED], words[DISTINGUISHER]) = (1, bits);
        assert_eq!(status(&words), [0, 20, 20, 0, 20, 0, 0, 0]);
    }
    let wrong = [
        (DISTINGUISHED, 2, Ground::Distinguisher(DISTINGUISHED)),
        (DISTINGUISHED, 1 << 32, Ground::Distinguisher(DISTINGUISHED)),
        (
            DISTINGUISHED,
            u64::MAX,
            Ground::Distinguisher(DISTINGUISHED),
        ),
        (DISTINGUISHER, 1, Ground::Distinguisher(DISTINGUISHER)),
        (
            DISTINGUISHER,
            u64::MAX,
            Ground::Distinguisher(DISTINGUISHER),
        ),
        (57, 1, Ground::Word(57)),
        (60, 1 << 63, Ground::Word(60)),
        (63, 1, Ground::Word(63)),
    ];
    for (at, number, ground) in wrong {
        let mut words = good;
        words[at] = number;
        assert_eq!(status(&words), [10; 8], "{at} {number}");
        for standard in [PLAIN, STANDARD, WITH_DISTINGUISHER] {
            assert_eq!(why_rule(standard, 4, &words, &[], &[]), Some(ground));
        }
    }
    // A rule without a family is none to match, with one or not, and is written all the same.
    let mut words = good;
    (words[FAMILY], words[DISTINGUISHED]) = (0, 1);
    assert_eq!(status(&words), [10, 10, 10, 10, 10, 0, 0, 0]);
}

#[test]
fn it_prints_in_the_usual_forms() {
    let text = |octets: [u8; 8]| RouteDistinguisher::from(octets).to_string();
    for (octets, wanted) in [
        (OWN, "0:64496:7"),
        ([0; 8], "0:0:0"),
        (
            [0, 0, 0xFF, 0xFF, 0xFF, 0xFF, 0xFF, 0xFF],
            "0:65535:4294967295",
        ),
        ([0, 0, 0x01, 0x02, 0x03, 0x04, 0x05, 0x06], "0:258:50595078"),
        ([0, 1, 192, 0, 2, 1, 0, 7], "1:192.0.2.1:7"),
        (
            [0, 1, 255, 255, 255, 255, 255, 255],
            "1:255.255.255.255:65535",
        ),
        ([0, 1, 1, 2, 3, 4, 5, 6], "1:1.2.3.4:1286"),
        ([0, 2, 0, 1, 0, 0, 0, 7], "2:65536:7"),
        (
            [0, 2, 0xFF, 0xFF, 0xFF, 0xFF, 0xFF, 0xFF],
            "2:4294967295:65535",
        ),
        ([0, 2, 1, 2, 3, 4, 5, 6], "2:16909060:1286"),
        ([0, 3, 0, 0, 0, 0, 0x0A, 0xFF], "3:000000000AFF"),
        ([0x01, 0x00, 1, 2, 3, 4, 5, 6], "256:010203040506"),
        ([0xFF; 8], "65535:FFFFFFFFFFFF"),
    ] {
        assert_eq!(text(octets), wanted);
        let rule = FlowSpecNlri::new(vec![]).with_distinguisher(octets);
        assert_eq!(
            rule.to_string(),
            format!("distinguisher {wanted}; every packet")
        );
    }
    let input = inputs::framed(&[&OWN[..], &[0x03, 0x81, 0x06, 0x05, 0x81, 0x50]].concat());
    let (rule, _) = read_distinguished(Family::Ipv4, &input).unwrap();
    assert_eq!(
        rule.to_string(),
        "distinguisher 0:64496:7; protocol =6; destination port =80"
    );
}

#[test]
fn its_refusals_say_what_is_wrong() {
    let refusal = read_distinguished(Family::Ipv6, &[0x03, 0x03, 0x81, 0x06]).unwrap_err();
    assert_eq!((refusal.number(), refusal.carried().count()), (19, 0));
    assert_eq!(
        refusal.to_string(),
        "octet 4: the rule ends before the eight octets of its distinguisher"
    );
    let every = FlowSpecNlri::new(vec![]);
    let own = every.clone().with_distinguisher(OWN);
    let refusal = rank(Family::Ipv4, &every, &own).unwrap_err();
    assert_eq!((refusal.number(), refusal.place()), (20, None));
    assert_eq!(refusal.carried().collect::<Vec<_>>(), [1]);
    assert_eq!(
        refusal.to_string(),
        "the rule at place 1 has another distinguisher"
    );
    // They are none of the original's.
    for reason in [Reason::ShortDistinguisher, Reason::MixedDistinguisher(3)] {
        assert_eq!(FlowSpecError::try_from(reason), Err(reason));
    }
}

/// What code made for the original's rules goes on with, and what a struct literal needs.
#[test]
fn a_rule_is_made_as_before() {
    let components = vec![FlowSpecComponent::IpProtocol(vec![
        NumericOperator::equal_to(6),
    ])];
    let rule = FlowSpecNlri::new(components.clone());
    let literal = FlowSpecNlri {
        components,
        distinguisher: None,
    };
    assert_eq!(rule, literal);
    assert_ne!(rule, rule.clone().with_distinguisher([0; 8]));
    let FlowSpecNlri { components, .. } = rule;
    assert_eq!(components, literal.components());
}

//! The standard calls on owned rules say what the surface says on words: readings, writings, and every refusal through the safe types.

use inputs::{Form, Random, LONGEST_INPUT};
use krubbadin::surface::{self, COUNT, FAMILY, OPERATORS, WORDS};
use krubbadin::*;
use std::cmp::Ordering;
use std::error::Error;

const FAMILIES: [Family; 2] = [Family::Ipv4, Family::Ipv6];

fn for_each_input(seed: u64, turns: usize, mut take: impl FnMut(Family, &[u8])) {
    let mut random = Random::new(seed);
    let mut input = Vec::new();
    for turn in 0..turns {
        let family = FAMILIES[turn % 2];
        inputs::random(Form::Standard(family.number()), &mut random, &mut input);
        take(family, &input);
    }
}

#[test]
fn a_rule_that_is_read_is_written_as_the_surface_writes_its_words() {
    let (mut accepted, mut refused) = (0, 0);
    for_each_input(1, 20_000, |family, input| {
        let number = family.number();
        let (mut words, mut values, mut octets) = ([0; WORDS], [0; OPERATORS], [0; OPERATORS]);
        let answer = surface::read(1, number, input, &mut words, &mut values, &mut octets);
        match read(family, input) {
            Ok((rule, used)) => {
                accepted += 1;
                let lists: usize = rule.components.iter().map(operators).sum();
                assert_eq!(answer.accepted(), Ok((used, lists)));
                assert_eq!(words[COUNT], rule.components.len() as u64);
                assert_eq!(words[FAMILY], u64::from(number));
                let mut out = vec![0; LONGEST_INPUT];
                let written = surface::write(1, number, &words, &values, &octets, &mut out);
                let (written, _) = written.accepted().unwrap();
                assert_eq!(write(family, &rule).unwrap(), out[..written]);
                let again = read(family, &out[..written]).unwrap();
                assert_eq!(again, (rule, written));
            }
            Err(refusal) => {
                refused += 1;
                assert_eq!(answer.accepted(), Err(refusal));
                assert_eq!(answer.status, u64::from(refusal.number()));
                let carried: Vec<u64> = refusal.carried().collect();
                assert_eq!(carried, [answer.first, answer.second][..carried.len()]);
                assert_eq!(refusal.place(), Some(answer.place as usize));
            }
        }
    });
    assert!(accepted > 5_000 && refused > 5_000, "{accepted} {refused}");
}

fn operators(component: &FlowSpecComponent) -> usize {
    use FlowSpecComponent::*;
    match component {
        IpProtocol(list)
        | Port(list)
        | DestinationPort(list)
        | SourcePort(list)
        | IcmpType(list)
        | IcmpCode(list)
        | PacketLength(list)
        | Dscp(list)
        | FlowLabel(list) => list.len(),
        TcpFlags(list) | Fragment(list) => list.len(),
        _ => 0,
    }
}

/// Whatever octets 13 and 14 of a TCP header are, they make flags that a packet may have: without the data offset.
#[test]
fn tcp_flags_of_every_two_octets() {
    let masks = [
        (read(Family::Ipv4, &[0x04, 0x09, 0x91, 0x01, 0x00]), 0x100),
        (read(Family::Ipv4, &[0x04, 0x09, 0x91, 0x08, 0x12]), 0x812),
        (read(Family::Ipv4, &[0x03, 0x09, 0x81, 0x12]), 0x012),
    ];
    let masks = masks.map(|(rule, mask)| (rule.unwrap().0, mask));
    let mut packet = Packet::new([10, 1, 2, 3], [192, 0, 2, 1]);
    for octets in (0..=u16::MAX).map(u16::to_be_bytes) {
        let flags = Packet::tcp_flags_of(octets);
        assert_eq!(
            flags,
            u16::from(octets[0] % 16) * 256 + u16::from(octets[1])
        );
        packet.tcp_flags = Some(flags);
        for (rule, mask) in &masks {
            let wanted = Ok(flags & mask == *mask);
            assert_eq!(matches(Family::Ipv4, rule, &packet), wanted, "{octets:?}");
        }
    }
    // The octets as they are, with a data offset of 5.
    packet.tcp_flags = Some(0x5112);
    let (rule, _) = &masks[0];
    assert_eq!(
        matches(Family::Ipv4, rule, &packet),
        Err(Reason::BadPacket.into())
    );
    assert_eq!(packet.why(), Some(Field::TcpFlags));
}

#[test]
fn owned_rules_match_rank_and_choose_as_tables_of_words_do() {
    let mut rules = [Vec::new(), Vec::new()];
    for_each_input(2, 1_000, |family, input| {
        if let Ok((rule, _)) = read(family, input) {
            rules[usize::from(family == Family::Ipv6)].push((rule, input.to_vec()));
        }
    });
    let packets = [
        Packet::new([10, 1, 2, 3], [192, 0, 2, 1]),
        Packet::new(
            [0x20, 0x01, 0x0D, 0xB8, 0, 0, 0, 0, 0, 0, 0, 0, 0, 0, 0, 1],
            [0xFF; 16],
        ),
    ];
    for ((family, rules), mut packet) in FAMILIES.into_iter().zip(&rules).zip(packets) {
        packet.protocol = 6;
        packet.ports = Some((25, 443));
        packet.tcp_flags = Some(0x12);
        let (mut owned, mut words) = (Table::new(), Table::new());
        for (rule, input) in rules.iter().take(Table::MOST) {
            owned.push(family, rule).unwrap();
            words.read(family, input).unwrap();
        }
        for (place, (rule, _)) in rules.iter().take(Table::MOST).enumerate() {
            assert_eq!(owned.rule(place).as_ref(), Some(rule));
            assert_eq!(words.rule(place).as_ref(), Some(rule));
        }
        assert_eq!(
            (owned.rule(owned.len()), owned.rule(usize::MAX)),
            (None, None)
        );
        let given: Vec<_> = owned.iter().map(|(of, rule)| (of, Some(rule))).collect();
        let wanted = (0..owned.len()).map(|place| (family, words.rule(place)));
        assert_eq!(given, wanted.collect::<Vec<_>>());
        assert_eq!(owned, words);
        let first = rules.first().unwrap();
        assert_eq!(
            owned.push(family, &first.0),
            Err(Reason::TooManyRules(65).into())
        );
        assert_eq!(
            words.read(family, &first.1),
            Err(Reason::TooManyRules(65).into())
        );

        let chosen = choose(&owned, &packet).unwrap();
        let mut matching = Vec::new();
        for (place, (rule, _)) in rules.iter().take(Table::MOST).enumerate() {
            if matches(family, rule, &packet).unwrap() {
                matching.push(place);
            }
        }
        let by_rank =
            |&one: &usize, &two: &usize| rank(family, &rules[one].0, &rules[two].0).unwrap();
        assert_eq!(chosen, matching.iter().copied().min_by(by_rank));
    }
}

#[test]
fn ranking_is_an_order() {
    for_each_input(3, 400, |family, one| {
        for_each_input(4, 20, |other, two| {
            if let (true, Ok((one, _)), Ok((two, _))) =
                (family == other, read(family, one), read(family, two))
            {
                let ranked = rank(family, &one, &two).unwrap();
                assert_eq!(rank(family, &two, &one), Ok(ranked.reverse()));
                assert_eq!(precedes(family, &one, &two), Ok(ranked == Ordering::Less));
            }
        });
    });
}

#[test]
fn each_refusal_is_met_where_it_belongs() {
    let ten = FlowSpecComponent::DestinationPrefix("10.0.0.0/8".parse().unwrap());
    let rule = FlowSpecNlri::new(vec![ten.clone()]);
    let four = Packet::new([10, 1, 2, 3], [10, 0, 0, 1]);
    let six = Packet::new([0; 16], [0; 16]);
    let mut odd = NumericOperator::equal_to(6);
    odd.value_length = 3;
    let odd = FlowSpecNlri::new(vec![FlowSpecComponent::IpProtocol(vec![odd])]);
    let long = vec![
        NumericOperator {
            end_of_list: false,
            ..NumericOperator::equal_to(1 << 40)
        };
        455
    ];
    let mut long = [long, vec![NumericOperator::equal_to(1 << 40)]].concat();

    assert_eq!(Family::try_from(0), Err(Reason::BadFamily(0).into()));
    assert_eq!(write(Family::Ipv6, &rule), Err(Reason::BadRecord.into()));
    assert_eq!(write(Family::Ipv4, &odd), Err(Reason::BadRecord.into()));
    assert_eq!(
        matches(Family::Ipv4, &rule, &six),
        Err(Reason::MixedFamily(0).into())
    );
    assert_eq!(
        matches(Family::Ipv4, &odd, &four),
        Err(Reason::BadRecord.into())
    );
    assert_eq!(
        rank(Family::Ipv4, &odd, &rule),
        Err(Reason::BadRecord.into())
    );
    let mixed = Packet::new([10, 1, 2, 3], [0; 16]);
    assert_eq!(
        matches(Family::Ipv4, &rule, &mixed),
        Err(Reason::BadPacket.into())
    );
    // The packet is looked at before the rule.
    assert_eq!(
        matches(Family::Ipv4, &odd, &mixed),
        Err(Reason::BadPacket.into())
    );
    for bad in [
        Packet {
            length: 65_576,
            ..four
        },
        Packet { dscp: 64, ..four },
        Packet {
            fragment: 16,
            ..four
        },
        Packet {
            tcp_flags: Some(4096),
            ..four
        },
        Packet {
            flow_label: Some(0),
            ..four
        },
        Packet {
            flow_label: Some(1 << 20),
            ..six
        },
    ] {
        assert_eq!(
            choose(&Table::new(), &bad),
            Err(Reason::BadPacket.into()),
            "{bad:?}"
        );
    }

    assert_eq!(
        write(
            Family::Ipv4,
            &FlowSpecNlri::new(vec![FlowSpecComponent::Port(long.clone())])
        ),
        Err(Reason::ValueTooLarge(4105).into())
    );
    long.remove(0);
    long.remove(0);
    assert_eq!(
        write(
            Family::Ipv4,
            &FlowSpecNlri::new(vec![FlowSpecComponent::Port(long)])
        )
        .unwrap()
        .len(),
        4089
    );
    let many = FlowSpecNlri::new(vec![ten; 14]);
    assert_eq!(write(Family::Ipv4, &many), Err(Reason::BadRecord.into()));
    let error = encode_flowspec_nlri(&many).unwrap_err();
    assert!(error.to_string().contains("14 components"), "{error}");
    let error = encode_flowspec_nlri(&odd).unwrap_err();
    assert!(error.to_string().contains("3 octets"), "{error}");
    let many = FlowSpecNlri::new(vec![FlowSpecComponent::Port(vec![
        NumericOperator::equal_to(
            6
        );
        2048
    ])]);
    // No record, and over the longest body, which is what the original says.
    assert_eq!(write(Family::Ipv4, &many), Err(Reason::BadRecord.into()));
    assert_eq!(why(Family::Ipv4, &many), Some(Ground::Operators(2048)));
    let error = encode_flowspec_nlri(&many).unwrap_err();
    assert!(
        matches!(error, EncodingError::ValueTooLarge { actual: 4097, .. }),
        "{error}"
    );

    let mut table = Table::new();
    table.push(Family::Ipv4, &rule).unwrap();
    assert_eq!(
        table.push(Family::Ipv4, &odd),
        Err(Reason::BadRecord.into())
    );
    assert_eq!(
        table.push(Family::Ipv6, &rule),
        Err(Reason::BadRecord.into())
    );
    assert_eq!(table.len(), 1);
    table.read(Family::Ipv6, &[0x03, 0x03, 0x81, 0x06]).unwrap();
    assert_eq!(choose(&table, &four), Err(Reason::MixedFamily(1).into()));
    assert_eq!(choose(&table, &six), Err(Reason::MixedFamily(0).into()));
    table.clear();
    assert_eq!(choose(&table, &six), Ok(None));
}

/// Every list with a first and with a second value of each width: what is too wide for its type is refused by all standard calls, and
/// by nothing else.
#[test]
fn a_type_has_its_widths() {
    let packet_of = |family| match family {
        Family::Ipv4 => Packet::new([10, 1, 2, 3], [192, 0, 2, 1]),
        Family::Ipv6 => Packet::new([1; 16], [2; 16]),
    };
    for family in FAMILIES {
        let packet = packet_of(family);
        let every = FlowSpecNlri::new(vec![]);
        for kind in (3..=13).filter(|&kind| (kind, family) != (13, Family::Ipv4)) {
            for code in 0..4u8 {
                let value = vec![0; 1 << code];
                let operators = [
                    [&[0x80 | code << 4][..], &value].concat(),
                    [&[0x01, 0x05, 0x80 | code << 4][..], &value].concat(),
                ];
                for (before, operators) in [0, 2].into_iter().zip(operators) {
                    let input = inputs::framed(&[&[kind], &operators[..]].concat());
                    let rule = parse_flowspec_nlri(&input).unwrap();
                    assert_eq!(encode_flowspec_nlri(&rule).unwrap(), input);
                    assert_eq!(check_flowspec_nlri(&input), Ok(input.len()));
                    let mut table = Table::new();
                    let most = match kind {
                        9 => 1,
                        11 | 12 => 0,
                        _ => 3,
                    };
                    if code <= most {
                        assert_eq!(read(family, &input), Ok((rule.clone(), input.len())));
                        assert_eq!(write(family, &rule).unwrap(), input);
                        assert_eq!(table.push(family, &rule), Ok(()));
                        assert!(matches(family, &rule, &packet).is_ok());
                        assert!(rank(family, &rule, &every).is_ok());
                        assert_eq!(why(family, &rule), None);
                        continue;
                    }
                    let refused = Refusal::at(Reason::InvalidValueLength(code), 2 + before);
                    assert_eq!(read(family, &input), Err(refused));
                    assert_eq!(check(family, &input), Err(refused));
                    assert_eq!(table.read(family, &input), Err(refused));
                    let error = FlowSpecError::InvalidValueLength(code);
                    assert_eq!(FlowSpecError::try_from(refused), Ok(error));
                    let bad = Refusal::from(Reason::BadRecord);
                    assert_eq!(write(family, &rule), Err(bad));
                    assert_eq!(table.push(family, &rule), Err(bad));
                    assert_eq!(matches(family, &rule, &packet), Err(bad));
                    assert_eq!(rank(family, &rule, &every), Err(bad));
                    assert_eq!(precedes(family, &every, &rule), Err(bad));
                    let ground = Ground::TooWide {
                        component: 0,
                        operator: before / 2,
                        width: 1 << code,
                        most: 1 << most,
                    };
                    assert_eq!(why(family, &rule), Some(ground));
                    assert!(table.is_empty());
                }
            }
        }
    }
}

#[test]
fn errors_of_a_first_type_and_of_a_family_say_so() {
    let text = |family, input: &[u8]| read(family, input).unwrap_err().to_string();
    let first = "octet 1: the first component has type 0, and types are 1 to 13";
    assert_eq!(text(Family::Ipv4, &[0x01, 0x00]), first);
    assert_eq!(text(Family::Ipv6, &[0x01, 0x00]), first);
    assert_eq!(
        text(Family::Ipv6, &[0x04, 0x03, 0x81, 0x06, 0x00]),
        "octet 4: a component of type 0 follows type 3, and types must rise"
    );
    assert_eq!(
        text(Family::Ipv4, &[0x01, 0x0D]),
        "octet 1: type 13, the flow label, is not in IPv4 (RFC 8956)"
    );
    for family in FAMILIES {
        let other = "octet 1: no component has type 14: types are 1 to 13";
        assert_eq!(text(family, &[0x01, 0x0E]), other);
    }
    for (code, octets) in [(1, 2), (2, 4), (3, 8)] {
        let wide = [0x02, 0x0C, 0x81 | code << 4];
        let said = format!(
            "octet 2: a value of {octets} octets (width code {code}) is too wide for its type"
        );
        assert_eq!(text(Family::Ipv4, &wide), said);
        assert_eq!(text(Family::Ipv6, &wide), said);
    }
    // The original's error has the original's text, and no place.
    let error = parse_flowspec_nlri(&[0x01, 0x0E]).unwrap_err();
    assert_eq!(error.to_string(), "Invalid component type: 14");
}

#[test]
fn a_rule_prints_in_one_line() {
    let list = |kind: u8, operators: &[u8]| {
        let input = [&[operators.len() as u8 + 1, kind], operators].concat();
        read(Family::Ipv6, &input).unwrap().0.to_string()
    };
    let numbers = [
        0x00, 0, 0x01, 1, 0x02, 2, 0x43, 3, 0x04, 4, 0x45, 5, 0x06, 6, 0x87, 7,
    ];
    assert_eq!(
        list(4, &numbers),
        "port false or =1 or >2 and >=3 or <4 and <=5 or !=6 or true"
    );
    assert_eq!(
        list(9, &[0x00, 1, 0x41, 2, 0x02, 4, 0x93, 0x12, 0x34]),
        "TCP flags any 0x01 and all 0x02 or not any 0x04 or not all 0x1234"
    );
    let names = [
        "protocol",
        "port",
        "destination port",
        "source port",
        "ICMP type",
        "ICMP code",
        "TCP flags",
        "packet length",
        "DSCP",
        "fragment",
        "flow label",
    ];
    for (kind, name) in (3..).zip(names) {
        let asked = if matches!(kind, 9 | 12) {
            "all 0x2A"
        } else {
            "=42"
        };
        assert_eq!(list(kind, &[0x81, 42]), format!("{name} {asked}"));
    }
    // RFC 8956, 3.8.2, and an offset of 0.
    let input = [
        0x0F, 0x01, 0x20, 0x00, 0x20, 0x01, 0x0D, 0xB8, 0x02, 0x68, 0x41, 0x24, 0x68, 0xAC, 0xF1,
        0x34,
    ];
    let (rule, _) = read(Family::Ipv6, &input).unwrap();
    assert_eq!(
        rule.to_string(),
        "destination 2001:db8::/32; source ::1234:5678:9a00:0/65-104"
    );
    let odd = FlowSpecNlri::new(vec![
        FlowSpecComponent::SourcePrefix("10.0.0.1/8".parse().unwrap()),
        FlowSpecComponent::Port(vec![]),
    ]);
    assert_eq!(odd.to_string(), "source 10.0.0.1/8; port nothing");
    assert_eq!(FlowSpecNlri::new(vec![]).to_string(), "every packet");
}

#[test]
fn an_error_says_what_it_carries() {
    let all = [
        (Reason::InsufficientData, vec![]),
        (
            Reason::InvalidComponentOrder {
                expected_greater_than: 101,
                found: 102,
            },
            vec!["101", "102"],
        ),
        (Reason::InvalidComponentType(103), vec!["103"]),
        (Reason::InvalidPrefix, vec![]),
        (Reason::InvalidOperator(0xAB), vec!["0xAB"]),
        (Reason::InvalidValueLength(3), vec!["3", "8 octets"]),
        (Reason::ValueTooLarge(5105), vec!["5105", "4095"]),
        (Reason::InputTooLong(5106), vec!["5106", "4097"]),
        (Reason::NoRoom(107), vec!["107"]),
        (Reason::BadRecord, vec![]),
        (Reason::BadFamily(108), vec!["108"]),
        (Reason::TooManyRules(109), vec!["109", "64"]),
        (Reason::BadPacket, vec![]),
        (Reason::MixedFamily(110), vec!["110"]),
        (Reason::ShortDistinguisher, vec!["distinguisher"]),
        (
            Reason::MixedDistinguisher(111),
            vec!["111", "distinguisher"],
        ),
    ];
    for (number, (reason, words)) in (1..=14).chain([19, 20]).zip(all) {
        assert_eq!(reason.number(), number);
        let error: Box<dyn Error> = Box::new(reason);
        let text = error.to_string();
        assert!(
            text.len() > 10 && words.iter().all(|word| text.contains(word)),
            "{text}"
        );
        for (refusal, said) in [
            (Refusal::from(reason), text.clone()),
            (Refusal::at(reason, 200), format!("octet 200: {text}")),
        ] {
            assert_eq!((refusal.reason(), refusal.number()), (reason, number));
            assert!(refusal.carried().eq(reason.carried()));
            let error: Box<dyn Error> = Box::new(refusal);
            assert_eq!(error.to_string(), said);
            match FlowSpecError::try_from(refusal) {
                Ok(error) => {
                    assert!(number <= 6);
                    assert_eq!(Refusal::from(error.clone()), Refusal::from(reason));
                    assert_eq!(
                        (Reason::from(error.clone()), Ok(error)),
                        (reason, reason.try_into())
                    );
                }
                Err(other) => assert!(number > 6 && other == refusal),
            }
        }
    }
}

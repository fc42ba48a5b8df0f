//! Document 01's "Matching and ranking", its cases, and the RFCs' examples, as rules match packets.

mod common;

use common::{flow, ipv4, list, packet, packet_to, packet_with_ports, rule};
use standard::{matches, Component, Flow, Packet, Refusal};

/// Whether the rule that octets read as, in the packet's family, matches.
fn is_match(text: &str, packet: &Packet) -> bool {
    let family = packet.family as u8;
    matches(&flow(family, text), packet).expect("rule and packet are good")
}

/// Whether a rule of this one component matches.
fn component_matches(component: Component, packet: &Packet) -> bool {
    let flow = Flow {
        family: packet.family as u8,
        rule: rule(&[component]),
    };
    matches(&flow, packet).expect("rule and packet are good")
}

/// A packet of each family with every field that it can have.
fn full_packets() -> [Packet; 2] {
    let full = |family| Packet {
        ports: Some((1, 2)),
        icmp: Some((3, 4)),
        flags: Some(5),
        ..packet(family)
    };
    let label = Some(6);
    [full(4), Packet { label, ..full(6) }]
}

#[test]
fn a_rule_without_components_matches_every_packet() {
    for family in [4, 6] {
        assert!(is_match("00", &packet(family)));
    }
    for full in full_packets() {
        assert!(is_match("00", &full));
    }
}

#[test]
fn destination_ports_80_to_90_or_443() {
    let rule = "08 05 03 50 45 5A 91 01 BB";
    for family in [4, 6] {
        for port in 0..=65_535 {
            let wanted = [443].contains(&port) || (80..=90).contains(&port);
            let met = is_match(rule, &packet_with_ports(family, 80, port));
            assert_eq!(met, wanted, "{port}");
        }
        assert!(!is_match(rule, &packet(family)));
    }
}

/// RFC 8955, 4.2.1.2: with the match bit all bits of the mask, without it one of them.
#[test]
fn tcp_flags() {
    let with = |flags| Packet {
        flags: Some(flags),
        ..packet(4)
    };
    assert!(is_match("03 09 81 12", &with(0x12)));
    assert!(is_match("03 09 81 12", &with(0x13)));
    assert!(!is_match("03 09 81 12", &with(0x02)));
    assert!(is_match("03 09 80 12", &with(0x12)));
    assert!(is_match("03 09 80 12", &with(0x02)));
    assert!(!is_match("03 09 80 12", &with(0x01)));
    // NOT turns either around.
    assert!(!is_match("03 09 83 12", &with(0x12)));
    assert!(is_match("03 09 83 12", &with(0x02)));
    assert!(!is_match("03 09 82 12", &with(0x02)));
    assert!(is_match("03 09 82 12", &with(0x01)));
    assert!(!is_match("03 09 82 12", &packet(4)));
    // SYN without ACK.
    assert!(is_match("05 09 01 02 C2 10", &with(0x02)));
    assert!(!is_match("05 09 01 02 C2 10", &with(0x12)));
    // A mask of 0.
    assert!(is_match("03 09 81 00", &with(0)));
    assert!(!is_match("03 09 80 00", &with(0xFF)));
}

/// RFC 8955, 4.2.2.9: one octet of a mask is header octet 14, two are octets 13 and 14 with the data
/// offset as 0.
#[test]
fn tcp_flags_of_two_octets() {
    let with = |flags| Packet {
        flags: Some(flags),
        ..packet(4)
    };
    // The ninth bit.
    assert!(is_match("04 09 91 01 00", &with(0x100)));
    assert!(!is_match("04 09 91 01 00", &with(0x0FF)));
    assert!(is_match("04 09 90 01 02", &with(0x002)));
    assert!(!is_match("04 09 91 01 02", &with(0x002)));
    for flags in 0..=0xFFF {
        let octet_14 = with(flags & 0xFF);
        for low in 0..4 {
            // Whatever octet 13 holds.
            let one = component_matches(list(9, &[(0x80 | low, 0x12)]), &with(flags));
            let alone = component_matches(list(9, &[(0x80 | low, 0x12)]), &octet_14);
            assert_eq!(one, alone, "{low} {flags:#X}");
            for mask in [0x0000, 0x0012, 0x0100, 0x0912, 0x1000, 0x8912, 0xFFFF] {
                let found = flags & mask;
                let wanted = match low {
                    0 => found != 0,
                    1 => found == mask,
                    2 => found == 0,
                    _ => found != mask,
                };
                let met = component_matches(list(9, &[(0x90 | low, mask)]), &with(flags));
                assert_eq!(met, wanted, "{low} {mask:#X} {flags:#X}");
            }
        }
    }
}

#[test]
fn the_eight_numeric_meanings() {
    for bits in 0..8 {
        for number in [4, 5, 6] {
            let wanted = match bits {
                0 => false,
                1 => number == 5,
                2 => number > 5,
                3 => number >= 5,
                4 => number < 5,
                5 => number <= 5,
                6 => number != 5,
                _ => true,
            };
            let length = number;
            let met = component_matches(
                list(10, &[(0x80 | bits, 5)]),
                &Packet {
                    length,
                    ..packet(4)
                },
            );
            assert_eq!(met, wanted, "{bits} {number}");
        }
    }
    // Nothing is below 0 or above the greatest value.
    let zero = packet(4);
    assert!(!component_matches(list(10, &[(0x84, 0)]), &zero));
    assert!(!component_matches(list(10, &[(0xB2, u64::MAX)]), &zero));
    assert!(component_matches(list(10, &[(0xB4, u64::MAX)]), &zero));
    assert!(component_matches(list(10, &[(0x87, 0)]), &zero));
}

/// A list's operators, true (7) or false (0), the later ones joined or not, in every way: OR of the
/// ANDs of runs that begin with an operator which is not joined.
#[test]
fn and_joins_to_the_previous_and_binds_tighter() {
    for count in 1..=5u32 {
        for truths in 0..1u32 << count {
            for joins in (0..1u32 << count).filter(|joins| joins & 1 == 0) {
                let bit = |of: u32, place: u32| of >> place & 1 == 1;
                let octet = |place| {
                    let end = if place + 1 == count { 0x80 } else { 0 };
                    let and = if bit(joins, place) { 0x40 } else { 0 };
                    end | and | if bit(truths, place) { 7 } else { 0 }
                };
                let pairs: Vec<(u8, u64)> = (0..count).map(|place| (octet(place), 9)).collect();
                let starts = (0..count).filter(|&place| !bit(joins, place));
                let run_of = |start| {
                    let joined = (start + 1..count).take_while(|&place| bit(joins, place));
                    std::iter::once(start).chain(joined)
                };
                let wanted = starts
                    .map(run_of)
                    .any(|mut run| run.all(|place| bit(truths, place)));
                let met = component_matches(list(3, &pairs), &packet(4));
                assert_eq!(met, wanted, "{pairs:?}");
            }
        }
    }
    // Below 5, or 6 and above 9. Were AND joined to the next operator, which there is none, 6 would do.
    let lengths = list(10, &[(0x04, 5), (0x01, 6), (0xC2, 9)]);
    let of = |length| Packet {
        length,
        ..packet(4)
    };
    assert!(component_matches(lengths.clone(), &of(4)));
    assert!(!component_matches(lengths.clone(), &of(6)));
    assert!(!component_matches(lengths, &of(10)));
}

#[test]
fn each_type_looks_at_its_own_field() {
    let unlike = Packet {
        destination: 0x0A00_0001,
        source: 0x0B00_0001,
        protocol: 103,
        length: 110,
        dscp: 11,
        fragment: 12,
        ports: Some((106, 105)),
        icmp: Some((107, 108)),
        flags: Some(109),
        ..packet(4)
    };
    let labelled = Packet {
        family: 6,
        label: Some(113),
        ..unlike
    };
    for number in 0..=255 {
        let met = |kind: u8, packet: &Packet| {
            let octet = if [9, 12].contains(&kind) { 0xC1 } else { 0x81 };
            let pairs = match octet {
                // All the bits, and no others.
                0xC1 => vec![(0x01, number), (0xC2, !number & 0xFF)],
                _ => vec![(0x81, number)],
            };
            component_matches(list(kind, &pairs), packet)
        };
        for packet in [&unlike, &labelled] {
            assert_eq!(met(3, packet), number == 103);
            assert_eq!(met(4, packet), [105, 106].contains(&number));
            assert_eq!(met(5, packet), number == 105);
            assert_eq!(met(6, packet), number == 106);
            assert_eq!(met(7, packet), number == 107);
            assert_eq!(met(8, packet), number == 108);
            assert_eq!(met(9, packet), number == 109);
            assert_eq!(met(10, packet), number == 110);
        }
        assert_eq!(met(11, &unlike), number & 63 == 11);
        assert_eq!(met(12, &unlike), number & 15 == 12);
        assert_eq!(met(13, &labelled), number == 113);
    }
    assert!(component_matches(ipv4(1, 0x0A00_0000, 8), &unlike));
    assert!(!component_matches(ipv4(2, 0x0A00_0000, 8), &unlike));
    assert!(component_matches(ipv4(2, 0x0B00_0000, 8), &unlike));
}

/// Type 4: one of the two ports satisfies the whole list by itself.
#[test]
fn either_port() {
    let between = list(4, &[(0x03, 80), (0xC5, 90)]);
    let met = |source, destination| {
        component_matches(between.clone(), &packet_with_ports(4, source, destination))
    };
    assert!(met(85, 1));
    assert!(met(1, 85));
    // 100 is at least 80 and 1 at most 90, but neither is both.
    assert!(!met(100, 1));
    assert!(!met(1, 100));
}

#[test]
fn what_is_absent_never_matches() {
    for family in [4, 6] {
        for kind in [4, 5, 6, 7, 8, 13] {
            if kind == 13 && family == 4 {
                continue;
            }
            for octet in [0x80, 0x81, 0x86, 0x87] {
                assert!(!component_matches(
                    list(kind, &[(octet, 0)]),
                    &packet(family)
                ));
            }
        }
        for octet in 0x80..=0x83 {
            assert!(!component_matches(list(9, &[(octet, 0)]), &packet(family)));
        }
    }
    // Presence alone decides: the protocol is not looked at.
    for protocol in [0, 1, 6, 17] {
        let with = |packet| Packet { protocol, ..packet };
        for full in full_packets() {
            let kinds = if full.family == 6 { 4..=13 } else { 4..=12 };
            for kind in kinds.filter(|kind| ![9, 12].contains(kind)) {
                assert!(component_matches(
                    list(kind, &[(0x87, 0)]),
                    &with(full.clone())
                ));
            }
        }
    }
}

/// A DSCP value counts by its six bits, also where it is compared as less or greater.
#[test]
fn dscp_is_cut_to_six_bits() {
    for dscp in 0..64 {
        let packet = Packet { dscp, ..packet(4) };
        for value in 0..=255 {
            let met = |bits: u8| component_matches(list(11, &[(0x80 | bits, value)]), &packet);
            assert_eq!(met(1), dscp == value % 64);
            assert_eq!(met(4), dscp < value % 64);
            assert_eq!(met(2), dscp > value % 64);
        }
    }
}

/// RFC 8955, 4.2.2.12 and RFC 8956, 3.6: DF 1, IsF 2, FF 4, LF 8; in IPv6 there is no DF.
#[test]
fn fragment_bits() {
    for family in [4, 6] {
        let counted = if family == 6 { 14 } else { 15 };
        for fragment in 0..16 {
            let packet = Packet {
                fragment,
                ..packet(family)
            };
            for value in 0..=255 {
                let met = |bits: u8| component_matches(list(12, &[(0x80 | bits, value)]), &packet);
                let mask = value & counted;
                assert_eq!(met(0), fragment & mask != 0);
                assert_eq!(met(1), fragment & mask == mask);
                assert_eq!(met(2), fragment & mask == 0);
                assert_eq!(met(3), fragment & mask != mask);
            }
        }
    }
    // A mask of DF alone is cut to 0 in family 6: match set is true and unset false, DF or not.
    for fragment in [0, 1] {
        let packet = Packet {
            fragment,
            ..packet(6)
        };
        assert!(is_match("03 0C 81 01", &packet));
        assert!(!is_match("03 0C 80 01", &packet));
        assert!(is_match("03 0C 82 01", &packet));
        assert!(!is_match("03 0C 83 01", &packet));
    }
}

#[test]
fn reserved_bits_in_a_record_are_ignored() {
    for octet in [0x81, 0x89] {
        let six = Packet {
            protocol: 6,
            ..packet(4)
        };
        assert!(component_matches(list(3, &[(octet, 6)]), &six));
        assert!(!component_matches(list(3, &[(octet, 7)]), &six));
    }
    for octet in [0x81, 0x85, 0x89, 0x8D] {
        let with = |flags| Packet {
            flags: Some(flags),
            ..packet(4)
        };
        assert!(component_matches(list(9, &[(octet, 0x12)]), &with(0x12)));
        assert!(!component_matches(list(9, &[(octet, 0x12)]), &with(0x02)));
    }
}

/// The bits of the prefix decide, those beside it do not.
#[test]
fn every_prefix_length_and_offset() {
    for length in 0..=32u8 {
        let kept = u32::MAX.checked_shl(32 - u32::from(length)).unwrap_or(0);
        let address = 0x5A3C_96F1 & kept;
        for bit in 0..32 {
            let destination = u128::from(0x5A3C_96F1 ^ 1u32 << (31 - bit));
            let packet = Packet {
                destination,
                ..packet(4)
            };
            let met = component_matches(ipv4(1, address, length), &packet);
            assert_eq!(met, bit >= length, "{length} {bit}");
        }
    }
    let whole = 0x5A3C_96F1_0FF0_1234_8001_7FFE_C3C3_A55Au128;
    for length in 0..=128u8 {
        for offset in (0..length).chain([0]) {
            let bits = (offset..length).fold(0, |bits, bit| bits | 1u128 << (127 - bit));
            let prefix = common::ipv6(2, whole & bits, length, offset);
            for bit in [
                offset.wrapping_sub(1),
                offset,
                length.wrapping_sub(1),
                length,
            ] {
                let flip = 1u128
                    .checked_shl(127 - u32::from(bit.min(127)))
                    .unwrap_or(0);
                let packet = Packet {
                    source: whole ^ flip,
                    ..packet(6)
                };
                let met = component_matches(prefix.clone(), &packet);
                assert_eq!(met, bits & flip == 0, "{length} {offset} {bit}");
            }
        }
    }
}

#[test]
fn three_addresses() {
    let met = |text, address| is_match(text, &packet_to(address));
    assert!(met("03 01 08 0A", [10, 1, 2, 3]) && met("04 01 10 0A 01", [10, 1, 2, 3]));
    assert!(met("03 01 08 0A", [10, 2, 0, 1]) && !met("04 01 10 0A 01", [10, 2, 0, 1]));
    assert!(!met("03 01 08 0A", [11, 0, 0, 1]) && !met("04 01 10 0A 01", [11, 0, 0, 1]));
}

#[test]
fn worked_examples_of_rfc_8955() {
    let tcp = |source, destination| Packet {
        protocol: 6,
        destination: 0xC000_0207,
        ports: Some((source, destination)),
        ..packet(4)
    };
    let first = "0B 01 18 C0 00 02 03 81 06 04 81 19";
    assert!(is_match(first, &tcp(25, 1024)));
    assert!(is_match(first, &tcp(1024, 25)));
    assert!(!is_match(first, &tcp(1024, 26)));
    let udp = Packet {
        protocol: 17,
        ..tcp(25, 25)
    };
    assert!(!is_match(first, &udp));
    let elsewhere = Packet {
        destination: 0xC000_0307,
        ..tcp(25, 25)
    };
    assert!(!is_match(first, &elsewhere));

    let second = "12 01 18 C0 00 02 02 18 CB 00 71 04 03 89 45 8B 91 1F 90";
    for (port, wanted) in [
        (136, false),
        (137, true),
        (139, true),
        (140, false),
        (8080, true),
    ] {
        let from = Packet {
            source: 0xCB00_7101,
            ..tcp(1, port)
        };
        assert_eq!(is_match(second, &from), wanted, "{port}");
        assert!(!is_match(second, &tcp(1, port)));
    }

    let third = "09 01 20 C0 00 02 01 0C 80 05";
    for fragment in 0..16 {
        let packet = Packet {
            fragment,
            ..packet_to([192, 0, 2, 1])
        };
        assert_eq!(is_match(third, &packet), fragment & 5 != 0);
    }
}

#[test]
fn worked_examples_of_rfc_8956() {
    let from = |source: u128, protocol| Packet {
        destination: 0x2001_0DB8 << 96 | 0x77,
        source,
        protocol,
        ..packet(6)
    };
    let bits = 0x12_3456_789A_u128 << 24;
    let front = 0xFEDC_u128 << 112;
    let first = "12 01 20 00 20 01 0D B8 02 68 40 12 34 56 78 9A 03 81 06";
    assert!(is_match(first, &from(front | bits | 5, 6)));
    assert!(!is_match(first, &from(front | bits | 5, 17)));
    assert!(!is_match(first, &from(front | bits ^ 1 << 24, 6)));
    assert!(!is_match(first, &from(front | bits ^ 1 << 63, 6)));
    let second = "0F 01 20 00 20 01 0D B8 02 68 41 24 68 AC F1 34";
    assert!(is_match(second, &from(front | bits | 5, 6)));
    // Bit 64 is before the offset.
    assert!(is_match(second, &from(front | bits ^ 1 << 63, 6)));
    assert!(!is_match(second, &from(front | bits ^ 1 << 62, 6)));
}

#[test]
fn packets_out_of_range() {
    let every = flow(4, "00");
    let refusal = |flow: &Flow, packet: &Packet| matches(flow, packet).err();
    let bad = |packet: &Packet| {
        let six = flow(6, "00");
        let own = if packet.family == 6 { &six } else { &every };
        assert_eq!(refusal(own, packet), Some(Refusal::BadPacket), "{packet:?}");
    };
    for full in full_packets() {
        let at_most = Packet {
            protocol: 255,
            length: 65_575,
            dscp: 63,
            fragment: 15,
            ports: Some((65_535, 65_535)),
            icmp: Some((255, 255)),
            flags: Some(4095),
            label: full.label.map(|_| 1_048_575),
            ..full.clone()
        };
        assert!(is_match("00", &at_most));
        let spoils: [&dyn Fn(&mut Packet); 12] = [
            &|packet| packet.protocol = 256,
            &|packet| packet.length = 65_576,
            &|packet| packet.dscp = 64,
            &|packet| packet.fragment = 16,
            &|packet| packet.ports = Some((65_536, 0)),
            &|packet| packet.ports = Some((0, 65_536)),
            &|packet| packet.icmp = Some((256, 0)),
            &|packet| packet.icmp = Some((0, 256)),
            &|packet| packet.flags = Some(4096),
            &|packet| packet.label = Some(1_048_576),
            &|packet| packet.family = 5,
            &|packet| packet.protocol = u64::MAX,
        ];
        for spoil in spoils {
            let mut packet = at_most.clone();
            spoil(&mut packet);
            bad(&packet);
        }
    }
    bad(&Packet {
        label: Some(0),
        ..packet(4)
    });
    bad(&Packet {
        destination: 1 << 32,
        ..packet(4)
    });
    bad(&Packet {
        source: 1 << 127,
        ..packet(4)
    });
    assert!(is_match(
        "00",
        &Packet {
            source: u32::MAX.into(),
            ..packet(4)
        }
    ));
}

/// A packet out of range, then a bad rule, then another family.
#[test]
fn refusals_in_order() {
    let bad_rule = Flow {
        family: 4,
        rule: rule(&[list(3, &[])]),
    };
    let no_family = Flow {
        family: 5,
        rule: rule(&[]),
    };
    let bad_packet = Packet {
        dscp: 64,
        ..packet(6)
    };
    assert_eq!(matches(&bad_rule, &bad_packet), Err(Refusal::BadPacket));
    assert_eq!(matches(&bad_rule, &packet(6)), Err(Refusal::BadRecord));
    assert_eq!(matches(&no_family, &packet(6)), Err(Refusal::BadRecord));
    let good = flow(4, "00");
    assert_eq!(matches(&good, &bad_packet), Err(Refusal::BadPacket));
    assert_eq!(matches(&good, &packet(6)), Err(Refusal::MixedFamily(0)));
    // A body over 4,095 octets can't be written either.
    let many: Vec<(u8, u64)> = (0..2047)
        .map(|place| (if place == 2046 { 0x81 } else { 0x01 }, 7))
        .collect();
    let too_long = Flow {
        family: 4,
        rule: rule(&[ipv4(1, 0, 0), list(4, &many)]),
    };
    assert_eq!(matches(&too_long, &packet(4)), Err(Refusal::BadRecord));
}

//! The text: what is read is printed again, and nothing else is read; words are those of the surface.

use protocol::{
    components, distinguisher, hex_number, number, octet_number, octets, operators, pair,
    put_distinguisher, put_octets, put_operators, put_placed_refusal, put_refusal, put_rule,
    put_span, put_values, span, text, values, words, Bad, Component, Operator, Packet, Read, Span,
};

type Rule<L> = Vec<Component<L>>;

fn rule(text: &str) -> Read<Rule<Vec<Operator>>> {
    let list = |content| operators(content).collect::<Read<_>>();
    let components = components(text.as_bytes());
    components.map(|one| one?.try_with_list(list)).collect()
}

fn rule_to_write(text: &str) -> Read<Rule<Span>> {
    let components = components(text.as_bytes());
    components.map(|one| one?.try_with_list(span)).collect()
}

#[test]
fn numbers_have_one_text() {
    assert_eq!(number(b"18446744073709551615"), Ok(u64::MAX));
    assert_eq!(hex_number(b"FFFFFFFFFFFFFFFF"), Ok(u64::MAX));
    assert_eq!((number(b"0"), hex_number(b"0")), (Ok(0), Ok(0)));
    assert_eq!((number(b"10"), hex_number(b"10")), (Ok(10), Ok(16)));
    assert_eq!(octet_number(b"255"), Ok(255));
    assert!(octet_number(b"256").is_err());
    for text in [
        "", "00", "01", "+1", "-1", "a", "G", "0x1", " 1", "1 ", "/", ":",
    ] {
        assert!(number(text.as_bytes()).is_err(), "{text:?}");
        assert!(hex_number(text.as_bytes()).is_err(), "{text:?}");
    }
    assert!(number(b"A").is_err() && number(b"18446744073709551616").is_err());
    assert!(hex_number(b"10000000000000000").is_err());
    assert_eq!(pair(b"1,2"), Ok((1, 2)));
    for text in ["", "1", "1,", ",1", "1,2,3"] {
        assert!(pair(text.as_bytes()).is_err(), "{text:?}");
    }
}

#[test]
fn lists_take_the_place_of_what_was_there() {
    let (mut some, mut numbers) = (vec![9], vec![9]);
    assert_eq!(octets(b"00FF", &mut some), Ok(()));
    assert_eq!(values(b"0,256", &mut numbers), Ok(()));
    assert_eq!((&some[..], &numbers[..]), (&[0, 0xFF][..], &[0, 256][..]));
    assert_eq!(text(|out| put_octets(&some, out)), "00FF");
    assert_eq!(text(|out| put_values(&numbers, out)), "0,256");
    assert_eq!(octets(b"-", &mut some), Ok(()));
    assert_eq!(values(b"-", &mut numbers), Ok(()));
    assert!(some.is_empty() && numbers.is_empty());
    assert_eq!(text(|out| put_octets(&[], out)), "-");
    assert_eq!(text(|out| put_values(&[], out)), "-");
    for text in ["", "0", "0A1", "0a", "0 1", "--", "+1"] {
        assert!(octets(text.as_bytes(), &mut some).is_err(), "{text:?}");
    }
    for text in ["", ",", "1,", "1,,2", "1,A"] {
        assert!(values(text.as_bytes(), &mut numbers).is_err(), "{text:?}");
    }
}

#[test]
fn distinguishers_come_back_as_they_went_in() {
    assert_eq!(distinguisher(b"-"), Ok(None));
    assert_eq!(distinguisher(b"0000000000000000"), Ok(Some([0; 8])));
    assert_eq!(
        distinguisher(b"0000FBF000000A07"),
        Ok(Some([0, 0, 0xFB, 0xF0, 0, 0, 0x0A, 7]))
    );
    for asked in [
        "-",
        "0000000000000000",
        "0000FBF000000A07",
        "FFFFFFFFFFFFFFFF",
    ] {
        let own = distinguisher(asked.as_bytes()).unwrap();
        assert_eq!(text(|out| put_distinguisher(own, out)), asked);
    }
    for text in [
        "",
        "--",
        "rd",
        "0",
        "00",
        "00000000000000",
        "000000000000000",
        "00000000000000000",
        "000000000000000000",
        "0000FBF000000a07",
        "0000FBF00000000G",
        "0000FBF0 0000000",
        "+000FBF000000007",
        "0:64496:7",
    ] {
        assert!(distinguisher(text.as_bytes()).is_err(), "{text:?}");
    }
}

#[test]
fn rules_come_back_as_they_went_in() {
    for asked in [
        "-",
        "1:4/24/C0000200",
        "2:6/128/20010DB8000000000000000000000001",
        "1:4o/255/32/C0000201;2:6o/64/104/0000000000000000123456789A000000",
        "3:81=6;4:03=137,45=139,91=8080",
        "13:B1=18446744073709551615;13:;9:FF=0",
        // No rule has these, and whoever is asked says so.
        "3:4/200/C0000200",
        "255:81=6;0:",
    ] {
        let rule = rule(asked).unwrap();
        assert_eq!(text(|out| put_rule(rule, put_operators, out)), asked);
    }
    for asked in [
        "-",
        "3:@0+1;4:@18446744073709551615+0",
        "1:6/0/00000000000000000000000000000000",
    ] {
        let rule = rule_to_write(asked).unwrap();
        assert_eq!(text(|out| put_rule(rule, put_span, out)), asked);
    }
}

#[test]
fn what_is_no_rule_is_refused() {
    for text in [
        "",
        ";",
        "3:81=6;",
        "03:81=6",
        "256:81=6",
        "3:81",
        "3:81=",
        "3:8=6",
        "3:8g=6",
        "3:81=06",
        "3:81=6,",
        "3:81=18446744073709551616",
        "3:@0+1",
        "1:4/256/C0000200",
        "1:4/24/C00002",
        "1:4/24/20010DB8000000000000000000000001",
        "1:6/24/C0000200",
        "1:4o/24/C0000200",
        "1:6o/256/64/20010DB8000000000000000000000001",
        "1:4/24/C000020g",
        "1:4/24/",
        "1:4/24/C0000200/",
        "1:4oo/1/24/C0000200",
        "1:5/24/C0000200",
    ] {
        assert!(rule(text).is_err(), "{text:?}");
    }
    for text in ["3:", "3:81=6", "3:@", "3:@0", "3:@0+", "3:@+1", "3:@0+1,"] {
        assert!(rule_to_write(text).is_err(), "{text:?}");
    }
}

#[test]
fn components_have_their_words() {
    for (asked, four) in [
        ("1:4/24/C0000200", [1, 24, 0xC000_0200, 0]),
        ("2:4o/8/24/C0000200", [2 + 32, 24 + 256 * 8, 0xC000_0200, 0]),
        (
            "1:6/128/20010DB8000000000000000000000001",
            [17, 128, 0x2001_0DB8_0000_0000, 1],
        ),
        (
            "2:6o/64/104/0000000000000000123456789A000000",
            [50, 104 + 256 * 64, 0, 0x1234_5678_9A00_0000],
        ),
        ("3:@0+1", [3, 0, 1, 0]),
        ("13:@7+18446744073709551615", [13, 7, u64::MAX, 0]),
    ] {
        let component = &rule_to_write(asked).unwrap()[0];
        assert_eq!(words::of(component), four, "{asked}");
        assert_eq!(&words::component(&four), component);
    }
    // No rule has these; the words are no component's.
    for asked in [
        "3:4/24/C0000200",
        "0:4/24/C0000200",
        "17:4/24/C0000200",
        "1:@0+1",
        "0:@0+0",
        "14:@0+1",
        "19:@0+1",
    ] {
        let component = &rule_to_write(asked).unwrap()[0];
        assert_eq!(words::of(component)[0] / 16, 15, "{asked}");
    }
}

#[test]
fn packets_come_back_as_they_went_in() {
    for asked in [
        "4|0A000001|0A000002|6|40|0|0|-|-|-|-",
        "6|20010DB8000000000000000000000001|00000000000000000000000000000002|300|5|6|7|8,9|10,11|12|13",
    ] {
        let packet = Packet::read(asked.as_bytes()).unwrap();
        assert_eq!(text(|out| packet.put(out)), asked);
    }
    let packet = Packet::read(b"6|0102|000304|5|6|7|8|9,10|11,12|13|14").unwrap();
    let wanted = [
        6, 0, 0x304, 0, 0x102, 5, 6, 7, 8, 1, 9, 10, 1, 11, 12, 1, 13, 1, 14, 0,
    ];
    assert_eq!(packet.words(), wanted);
    let packet = Packet::read(b"4|01|02|3|4|5|6|-|-|-|-").unwrap();
    assert_eq!(packet.words()[..9], [4, 0, 2, 0, 1, 3, 4, 5, 6]);
    assert_eq!(packet.words()[9..], [0; 11]);
    // An address that no packet of its family has is not cut.
    let wide = Packet {
        source: 1 << 32,
        ..packet
    };
    assert_eq!(Packet::read(text(|out| wide.put(out)).as_bytes()), Ok(wide));
    for text in [
        "",
        "4|0A000001|0A000002|6|40|0|0|-|-|-",
        "4|0A000001|0A000002|6|40|0|0|-|-|-|-|-",
        "4|0A00000|0A000002|6|40|0|0|-|-|-|-",
        "4||0A000002|6|40|0|0|-|-|-|-",
        "4|0A000001|0A000002|6|40|0|0|1|-|-|-",
        "4|0A000001|0A000002|6|40|0|0|1,-|-|-|-",
        "4|0A000001|0A000002|-|40|0|0|-|-|-|-",
    ] {
        assert!(Packet::read(text.as_bytes()).is_err(), "{text:?}");
    }
}

#[test]
fn refusals_carry_numbers() {
    assert_eq!(text(|out| put_refusal(1, [], out)), "err 1");
    assert_eq!(text(|out| put_refusal(9, [3], out)), "err 9 3");
    assert_eq!(text(|out| put_refusal(2, [5, 4], out)), "err 2 5,4");
    let placed = |number, carried: &[u64], place| {
        text(|out| put_placed_refusal(number, carried, place, out))
    };
    assert_eq!(placed(1, &[], Some(0)), "err 1 - @0");
    assert_eq!(placed(2, &[5, 4], Some(12)), "err 2 5,4 @12");
    assert_eq!(placed(9, &[3], None), "err 9 3 @-");
    assert_eq!(
        number(b"x").map_err(|Bad(reason)| reason.len() > 10),
        Err(true)
    );
}

//! The text: what is read is printed again, and nothing else is read.

use oracle::flowspec::FlowSpecComponent;
use oracle::text::{component, flag, number, octets, octets_text, rule, rule_text};

#[test]
fn rules_come_back_as_they_went_in() {
    for text in [
        "-",
        "1:4/24/C0000200",
        "2:6/128/20010DB8000000000000000000000001",
        "1:4o/255/32/C0000201;2:6o/64/104/0000000000000000123456789A000000",
        "3:81=6;4:03=137,45=139,91=8080",
        "13:B1=18446744073709551615;13:;9:F3=0",
    ] {
        assert_eq!(rule_text(&rule(text).unwrap()), text);
    }
}

#[test]
fn reserved_bits_are_not_part_of_a_record() {
    assert_eq!(rule_text(&rule("5:8F=1").unwrap()), "5:87=1");
    assert_eq!(rule_text(&rule("12:8F=1").unwrap()), "12:83=1");
}

#[test]
fn every_operator_octet_makes_a_record() {
    for octet in 0..=0xFFu8 {
        let numeric = format!("4:{:02X}=7", octet & 0xF7);
        let bitmask = format!("9:{:02X}=7", octet & 0xF3);
        assert_eq!(
            rule_text(&rule(&format!("4:{octet:02X}=7")).unwrap()),
            numeric
        );
        assert_eq!(
            rule_text(&rule(&format!("9:{octet:02X}=7")).unwrap()),
            bitmask
        );
    }
}

#[test]
fn the_type_picks_the_component() {
    assert!(matches!(component("9:"), Ok(FlowSpecComponent::TcpFlags(list)) if list.is_empty()));
    assert!(matches!(
        component("2:4o/8/24/C0000200"),
        Ok(FlowSpecComponent::SourceIpv6Prefix { offset: 8, .. })
    ));
}

#[test]
fn numbers_have_one_text() {
    assert_eq!(number("FFFFFFFFFFFFFFFF"), Ok(u64::MAX));
    assert_eq!(number("0"), Ok(0u8));
    for text in ["", "00", "01", "+1", "a", "100", "0x1", " 1"] {
        assert!(number::<u8>(text).is_err(), "{text:?}");
    }
    assert!(number::<u64>("10000000000000000").is_err());
    assert_eq!((flag("0"), flag("1")), (Ok(false), Ok(true)));
    assert!(flag("2").is_err());
}

#[test]
fn octets_have_one_text() {
    assert_eq!(octets("-"), Ok(vec![]));
    assert_eq!(octets("00FF"), Ok(vec![0x00, 0xFF]));
    assert_eq!(octets_text(&[0x0A, 0xB0]), "0AB0");
    assert_eq!(octets_text(&[]), "-");
    for text in ["", "0", "0A1", "0a", "0 1", "--", "+1"] {
        assert!(octets(text).is_err(), "{text:?}");
    }
}

#[test]
fn what_is_no_rule_is_refused() {
    for text in [
        "",
        ";",
        "3:81=6;",
        "0:81=6",
        "14:81=6",
        "03:81=6",
        "3:81",
        "3:81=",
        "3:8=6",
        "3:81=06",
        "3:81=18446744073709551616",
        "3:4/24/C0000200",
        "1:81=6",
        "1:4/33/C0000200",
        "1:4/24/C00002",
        "1:6/129/20010DB8000000000000000000000001",
        "1:4o/24/C0000200",
        "1:6o/256/64/20010DB8000000000000000000000001",
        "1:4/24/C000020g",
        "1:4/24/",
    ] {
        assert!(rule(text).is_err(), "{text:?}");
    }
}

//! The writings as requests of `tools/answer`.

use oracle::plain::{answers, line};
use oracle::requests::part;

#[test]
fn a_rule_is_asked_for_by_its_places() {
    for (rule, wanted) in [
        ("-", "plain_write\t-\t-\t-\t1 = ok 00"),
        (
            "1:4/24/C0000200;3:81=6;4:03=25,91=443",
            "plain_write\t1:4/24/C0000200;3:@0+1;4:@1+2\t6,25,443\t810391\t15 = \
             ok 0E0118C000020381060403199101BB",
        ),
        ("3:;9:", "plain_write\t3:@0+0;9:@0+0\t-\t-\t3 = ok 020309"),
    ] {
        assert_eq!(line(rule).unwrap(), wanted);
    }
}

#[test]
fn a_body_that_is_too_long_is_refused_with_its_length() {
    let rule = format!("4:{}", vec!["31=0"; 2_047].join(","));
    let line = line(&rule).unwrap();
    assert!(line.starts_with("plain_write\t4:@0+2047\t0,0,"));
    assert!(line.ends_with("3131\t5000 = err 7 18424"));
}

#[test]
fn every_writing_has_a_line() {
    let (lines, writings) = (answers(), part("writings").unwrap());
    assert_eq!(lines.len(), writings.len());
    for (line, request) in lines.iter().zip(writings) {
        let rule = request.strip_prefix("encode ").unwrap();
        assert_eq!(line, &oracle::plain::line(rule).unwrap());
    }
}

#[test]
fn what_is_no_rule_has_none() {
    assert!(line("").is_err() && line("1:81=6").is_err() && line("3:81").is_err());
}

//! The program: its lines, and its answers to the scope document's cases.

use std::io::Write;
use std::process::{Command, Output, Stdio};

fn oracle(arguments: &[&str], input: &[u8]) -> Output {
    let mut child = Command::new(env!("CARGO_BIN_EXE_oracle"))
        .args(arguments)
        .stdin(Stdio::piped())
        .stdout(Stdio::piped())
        .stderr(Stdio::piped())
        .spawn()
        .unwrap();
    child.stdin.take().unwrap().write_all(input).unwrap();
    child.wait_with_output().unwrap()
}

#[test]
fn each_call_answers_on_a_line() {
    let lines = [
        "numeric 45 5A = 0 0 1 1 1 0 1 5A 45",
        "numeric B9 0 = 5 B9",
        "bitmask F3 FFFFFFFFFFFFFFFF = 0 1 1 8 1 1 FFFFFFFFFFFFFFFF F3",
        "bitmask 4 0 = 5 4",
        "numeric_record 1 0 2 0 1 1 0 = 0 93",
        "numeric_record 0 0 3 0 0 0 0 = 0 0",
        "bitmask_record 0 1 4 1 0 FF = 0 62",
        "equal_to 1BB = 0 1 0 2 0 0 1 1BB 91",
        "greater_than_or_equal FFFFFFFF = 0 1 0 4 0 1 1 FFFFFFFF A3",
        "exact_match 12 = 0 1 0 1 0 0 12 80",
        "partial_match 100000000 = 0 1 0 8 0 1 100000000 B1",
        "parse - = 1",
        "parse 00 = 0 -",
        "parse F0050118C00002 = 0 1:4/24/C0000200",
        "parse 0203810605 = 0 3:81=6",
        "parse 03038906 = 5 89",
        "parse 020389 = 1",
        "parse 0100 = 2 0 0",
        "parse 010E = 3 E",
        "parse 06038106038111 = 2 3 3",
        "parse 030104FF = 0 1:4/4/FF000000",
        "parse 020181 = 4",
        "parse 08050350455A9101BB = 0 5:03=80,45=90,91=443",
        "encode 1:4/24/C0000200 = 0 050118C00002",
        "encode 2:6o/7/12/ABCD0000000000000000000000000000 = 0 05020C07ABCD",
        "encode 2:4o/8/24/C0000200 = 0 03021808",
        "encode 5:9F=65537;3: = 0 050597000103",
        "encode - = 0 00",
        "kind 12:81=1 = 0 C 0 1",
        "kind 1:4/0/00000000 = 0 1 0 0",
        "family 1:4/0/00000000;13: = 0 1 1",
        "family 3:81=6 = 0 0 0",
    ];
    let requests = lines.map(|line| line.split(" = ").next().unwrap());
    let output = oracle(&["answer"], (requests.join("\n") + "\n").as_bytes());
    let answers = String::from_utf8(output.stdout).unwrap();
    assert_eq!(answers.lines().collect::<Vec<_>>(), lines);
    assert!(output.status.success());
}

#[test]
fn what_cannot_be_read_is_answered_bad_and_the_next_line_is_read() {
    let input = b"\nnumeric 1\nnumeric  1 0\nnumeric 100 0\nparse 0\n\xFF\nparse 00\r\nparse 00";
    let output = oracle(&["answer"], input).stdout;
    let answers: Vec<&[u8]> = output.split(|&byte| byte == b'\n').collect();
    assert_eq!(answers.len(), 9);
    for (answer, request) in answers[..7].iter().zip(input.split(|&byte| byte == b'\n')) {
        assert!(answer.starts_with(&[request, b" = bad "].concat()));
    }
    assert_eq!(answers[7..], [&b"parse 00 = 0 -"[..], b""]);
}

#[test]
fn plain_answers_are_one_a_line() {
    let output = oracle(&["plain-answers"], b"");
    let lines = String::from_utf8(output.stdout).unwrap();
    assert_eq!(lines.lines().collect::<Vec<_>>(), oracle::plain::answers());
    assert!(output.status.success());
}

#[test]
fn the_command_line_is_checked() {
    let help = oracle(&["--help"], b"");
    let text = String::from_utf8(help.stdout).unwrap();
    assert!(help.status.success() && text.contains("operators, readings, writings, replayed"));
    for arguments in [&[][..], &["requests"], &["requests", "none"], &["other"]] {
        let output = oracle(arguments, b"");
        assert_eq!(output.status.code(), Some(2), "{arguments:?}");
        assert!(output.stdout.is_empty() && !output.stderr.is_empty());
    }
}

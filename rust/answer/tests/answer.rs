//! The program answer: its lines. tests/answer, at the root of the repository, has what it answers to the documents' cases.

use std::ffi::OsStr;
use std::io::{Read, Write};
use std::os::unix::ffi::OsStrExt;
use std::process::{Command, Output, Stdio};

/// The program, behind an emulator where KRUBBADIN_RUNNER names one.
fn command() -> Command {
    let program = env!("CARGO_BIN_EXE_answer");
    let mut command = match std::env::var_os("KRUBBADIN_RUNNER") {
        None => Command::new(program),
        Some(runner) => {
            let mut command = Command::new(runner);
            command.arg(program);
            command
        }
    };
    command
        .stdin(Stdio::piped())
        .stdout(Stdio::piped())
        .stderr(Stdio::piped());
    command
}

fn answer(arguments: &[&str], input: &[u8]) -> Output {
    let mut child = command().args(arguments).spawn().unwrap();
    let mut stdin = child.stdin.take().unwrap();
    let input = input.to_vec();
    let writer = std::thread::spawn(move || stdin.write_all(&input));
    let output = child.wait_with_output().unwrap();
    // A program that reads nothing may have ended before.
    let _ = writer.join().unwrap();
    output
}

const PACKET: &str = "4|0A000001|0A000002|6|40|0|0|-|-|-|-";

#[test]
fn what_cannot_be_read_is_answered_bad_and_the_next_line_is_read() {
    let wrong = [
        "".to_string(),
        " ".to_string(),
        "plain_read".to_string(),
        "plain_read\t00".to_string(),
        "plain_read\t00\t0,0\t".to_string(),
        "plain_read 00 0,0".to_string(),
        "PLAIN_READ\t00\t0,0".to_string(),
        "plain_read\t\t0,0".to_string(),
        "plain_read\t0\t0,0".to_string(),
        "plain_read\t0g\t0,0".to_string(),
        "plain_read\tf0\t0,0".to_string(),
        "plain_read\t0 0\t0,0".to_string(),
        "plain_read\t00\t0".to_string(),
        "plain_read\t00\t0,0,0".to_string(),
        "plain_read\t00\t-1,0".to_string(),
        "plain_read\t00\t00,0".to_string(),
        "plain_read\t00\t1048577,0".to_string(),
        "plain_read\t00\t18446744073709551616,0".to_string(),
        "plain_read\t00\t0,0\r".to_string(),
        "std_read5\t00\t0,0".to_string(),
        "std_read\t4\t00\t0".to_string(),
        "std_read\t4\t-\t00\t0,0".to_string(),
        "std_read\t4\t-\t00\t1048577".to_string(),
        "std_read\t4\t-\t0\t0".to_string(),
        "std_read\t256\t-\t00\t0".to_string(),
        "std_read\t4\tRD\t00\t0".to_string(),
        "std_read\t4\trd \t00\t0".to_string(),
        "std_read\t4\t0000000000000007\t00\t0".to_string(),
        "std_read\t4\t\t00\t0".to_string(),
        "std_read\t4\t-\t00\t0\t".to_string(),
        "std_read\t4\trd\t00".to_string(),
        "std_read\t4\trd\t0\t0".to_string(),
        "std_read\t256\trd\t00\t0".to_string(),
        "std_read4\trd\t00\t0,0".to_string(),
        "plain_place".to_string(),
        "plain_place\t".to_string(),
        "plain_place\t0".to_string(),
        "plain_place\tf0".to_string(),
        "plain_place\t00\t0,0".to_string(),
        "check".to_string(),
        "check\t4".to_string(),
        "check\t4\t00\t0,0".to_string(),
        "check 4 00".to_string(),
        "CHECK\t4\t00".to_string(),
        "check\t\t00".to_string(),
        "check\tPlain\t00".to_string(),
        "check\tplain_read\t00".to_string(),
        "check\t04\t00".to_string(),
        "check\t256\t00".to_string(),
        "check\t4\t".to_string(),
        "check\t4\t0".to_string(),
        "check\t5\t0g".to_string(),
        "check\tplain\tf0".to_string(),
        "plain_write\t\t-\t-\t1".to_string(),
        "plain_write\t-\t\t-\t1".to_string(),
        "plain_write\t-\t1,\t-\t1".to_string(),
        "plain_write\t-\t-\t-\t".to_string(),
        "plain_write\t3:81=6\t-\t-\t1".to_string(),
        "plain_write\t3:@0\t-\t-\t1".to_string(),
        "plain_write\t3\t-\t-\t1".to_string(),
        "plain_write\t3:@0+0;\t-\t-\t1".to_string(),
        "plain_write\t256:@0+0\t-\t-\t1".to_string(),
        "plain_write\t1:4/24/C00002\t-\t-\t1".to_string(),
        "plain_write\t1:4/256/C0000200\t-\t-\t1".to_string(),
        "plain_write\t1:4o/24/C0000200\t-\t-\t1".to_string(),
        "plain_write\t1:6/24/C0000200\t-\t-\t1".to_string(),
        "plain_write\t1:5/24/C0000200\t-\t-\t1".to_string(),
        "std_write\t256\t-\t-\t-\t1".to_string(),
        "std_write\t\t-\t-\t-\t1".to_string(),
        "match\t4\t00\t".to_string(),
        format!("match\t4\t00\t{PACKET}|-"),
        "match\t4\t00\t4|0A000001|0A000002|6|40|0|0|-|-|-".to_string(),
        "match\t4\t00\t4|0A00000|0A000002|6|40|0|0|-|-|-|-".to_string(),
        "match\t4\t00\t4||0A000002|6|40|0|0|-|-|-|-".to_string(),
        "match\t4\t00\t4|0A000001|0A000002|6|40|0|0|1|-|-|-".to_string(),
        "match\t4\t00\t4|0A000001|0A000002|6|40|0|0|1,-|-|-|-".to_string(),
        format!("match\tfour\t00\t{PACKET}"),
        "rank\t4\t00".to_string(),
        "rank\t4\tEF\t0".to_string(),
        format!("choose\t{PACKET}\t"),
        format!("choose\t{PACKET}\t4"),
        format!("choose\t{PACKET}\t=-"),
        format!("choose\t{PACKET}\t4=-&"),
        format!("choose\t{PACKET}\t4=3:@0+1"),
        format!("choose\t{PACKET}\t4=3:81"),
        format!("choose\t{PACKET}\t4=3:8=6"),
        format!("choose\t{PACKET}\t4=3:81=6,"),
        format!("choose\t{PACKET}\t4!-!-"),
        format!("choose\tp:{PACKET}\t4=-"),
        "decide".to_string(),
        format!("decide\tp:{PACKET}"),
        format!("decide\tp:{PACKET}\t"),
        format!("decide\t{PACKET}\t."),
        format!("decide\tP:{PACKET}\t."),
        "decide\tp:\t.".to_string(),
        "decide\th:45000014000000004006000001020304C0000201\t.".to_string(),
        format!("decide\tp:{PACKET}|-\t."),
        format!("decide\tp:{PACKET}\t.\t."),
        format!("decide\tp:{PACKET}\t4=-"),
        format!("decide\tp:{PACKET}\t4!-"),
        format!("decide\tp:{PACKET}\t!-!-"),
        format!("decide\tp:{PACKET}\tfour!-!-"),
        format!("decide\tp:{PACKET}\t4!!-"),
        format!("decide\tp:{PACKET}\t4!rd!-"),
        format!("decide\tp:{PACKET}\t4!000000000000007!-"),
        format!("decide\tp:{PACKET}\t4!00000000000000007!-"),
        format!("decide\tp:{PACKET}\t4!000000000000000007!-"),
        format!("decide\tp:{PACKET}\t4!000000000000000a!-"),
        format!("decide\tp:{PACKET}\t4!-!"),
        format!("decide\tp:{PACKET}\t4!-!-!-"),
        format!("decide\tp:{PACKET}\t4!-!-&"),
        format!("decide\tp:{PACKET}\t4!-!3:@0+1"),
        format!("decide\tp:{PACKET}\t4!-!3:81=6,"),
    ];
    let output = answer(&[], (wrong.join("\n") + "\nplain_read\t00\t0,0").as_bytes());
    let text = String::from_utf8(output.stdout).unwrap();
    let answers: Vec<&str> = text.split('\n').collect();
    assert_eq!(answers.len(), wrong.len() + 2);
    for (answer, request) in answers.iter().zip(&wrong) {
        let reason = answer.strip_prefix(&format!("bad {request} "));
        assert!(reason.map_or(false, |reason| reason.len() > 10), "{answer}");
    }
    assert_eq!(answers[wrong.len()..], ["ok 1 0 -", ""]);
    assert!(output.status.success() && output.stderr.is_empty());
}

#[test]
fn a_line_need_not_be_text() {
    let answers = answer(
        &[],
        b"\xFF\0\xFE\nplain_read\t\xC3\t0,0\nplain_read\t-\t0,0\n",
    )
    .stdout;
    let answers: Vec<&[u8]> = answers.split(|&byte| byte == b'\n').collect();
    assert!(answers[0].starts_with(b"bad \xFF\0\xFE "));
    assert!(answers[1].starts_with(b"bad plain_read\t\xC3\t0,0 "));
    assert_eq!(answers[2..], [&b"err 1"[..], b""]);
}

#[test]
fn long_lines_and_many_lines_are_answered_each_by_one() {
    let too_long = format!("plain_read\t{}\t0,0\n", "00".repeat(4098));
    let far_too_long = format!("plain_read\t{}\t0,0\n", "00".repeat(100_000));
    let most = format!("std_read4\tFFFF04{}8119\t2047,2047\n", "0119".repeat(2046));
    let checked = most.replace("std_read4", "check\tplain");
    let checked = checked.replace("\t2047,2047", "") + &"check\t4\t08050350455A9101BB\n".repeat(2);
    let mut input = too_long + &far_too_long + &most + &checked;
    input += &"std_read4\t08050350455A9101BB\t3,3\n".repeat(20_000);
    let text = String::from_utf8(answer(&[], input.as_bytes()).stdout).unwrap();
    let answers: Vec<&str> = text.lines().collect();
    assert_eq!(answers.len(), 20_006);
    assert_eq!(answers[..2], ["err 8 4098", "err 8 100000"]);
    assert_eq!(
        answers[2],
        format!("ok 4097 2047 4:{}81=25", "01=25,".repeat(2046))
    );
    assert_eq!(answers[3..6], ["ok 4097 2047", "ok 9 3", "ok 9 3"]);
    let expected = "ok 9 3 5:03=80,45=90,91=443";
    assert!(answers[6..].iter().all(|&answer| answer == expected));
}

#[test]
fn two_calls_say_where_the_octets_broke() {
    let lines = [
        ("plain_place\t03038106", "ok 4"),
        ("plain_place\t0203810605", "ok 3"),
        ("plain_place\t-", "err 1 - @0"),
        ("plain_place\t06038106038111", "err 2 3,3 @4"),
        ("plain_place\t03038906", "err 5 137 @2"),
        ("plain_place\t020B91", "err 1 - @3"),
        ("plain_place\t040B91002E", "ok 5"),
        ("std_read\t4\t-\t020B91\t9", "err 6 1 @2"),
        ("std_read\t6\t-\t0509110100A1\t9", "err 6 2 @5"),
        (
            "std_read\t4\t-\t08050350455A9101BB\t3",
            "ok 9 3 - 5:03=80,45=90,91=443",
        ),
        ("std_read\t4\t-\t08050350455A9101BB\t2", "err 9 3 @-"),
        ("std_read\t4\t-\t0203810605\t9", "err 1 - @3"),
        ("std_read\t6\t-\t03014040\t0", "err 4 - @2"),
        ("std_read\t5\t-\t03014040\t0", "err 11 5 @-"),
    ];
    let too_long = format!("plain_place\t{}", "00".repeat(4098));
    let requests = lines.map(|(request, _)| request).join("\n") + "\n" + &too_long;
    let text = String::from_utf8(answer(&[], requests.as_bytes()).stdout).unwrap();
    let wanted: Vec<&str> = lines.iter().map(|(_, answer)| *answer).collect();
    assert_eq!(
        text.lines().collect::<Vec<_>>(),
        [wanted, vec!["err 8 4098 @-"]].concat()
    );
}

#[test]
fn a_distinguisher_is_read_and_decided_by() {
    let decide = |rules: &str| format!("decide\tp:{PACKET}\t{rules}");
    let lines = [
        (
            "std_read\t4\trd\t0B0000FBF000000007038106\t1".to_string(),
            "ok 12 1 0000FBF000000007 3:81=6",
        ),
        (
            "std_read\t6\trd\t080000000000000000\t0".to_string(),
            "ok 9 0 0000000000000000 -",
        ),
        ("std_read\t4\trd\t03038106\t9".to_string(), "err 19 - @4"),
        (
            "std_read\t4\trd\t0B0000FBF000000007038106\t0".to_string(),
            "err 9 1 @-",
        ),
        // What one request leaves is not the next one's.
        ("std_read\t4\t-\t03038106\t1".to_string(), "ok 4 1 - 3:81=6"),
        ("plain_read\t03038106\t1,1".to_string(), "ok 4 1 3:81=6"),
        (decide("."), "ok none"),
        (decide("4!-!3:81=17&4!-!-"), "ok 1"),
        (
            decide("4!00000000000000FF!-&4!00000000000000FF!3:81=6"),
            "ok 1",
        ),
        (decide("4!-!-&4!-!-&4!0000000000000000!-"), "err 20 2 @-"),
        (decide("6!0000000000000001!-&4!-!-"), "err 14 0 @-"),
        (decide("4!0000000000000001!3:81=256"), "err 10 - @-"),
        // Those without a distinguisher are lent as they were.
        (format!("choose\t{PACKET}\t4=3:81=6&4=-"), "ok 0"),
    ];
    let requests: Vec<&str> = lines.iter().map(|(request, _)| &request[..]).collect();
    let text = String::from_utf8(answer(&[], requests.join("\n").as_bytes()).stdout).unwrap();
    let wanted: Vec<&str> = lines.iter().map(|(_, answer)| *answer).collect();
    assert_eq!(text.lines().collect::<Vec<_>>(), wanted);
}

#[test]
fn an_answer_comes_before_the_next_request_is_asked_for() {
    let mut child = command().spawn().unwrap();
    let (mut stdin, mut stdout) = (child.stdin.take().unwrap(), child.stdout.take().unwrap());
    for _ in 0..3 {
        stdin.write_all(b"plain_read\t00\t0,0\nplain_rea").unwrap();
        let mut answer = [0; 9];
        stdout.read_exact(&mut answer).unwrap();
        assert_eq!(&answer, b"ok 1 0 -\n");
        stdin.write_all(b"d\t-\t0,0\n").unwrap();
        let mut answer = [0; 6];
        stdout.read_exact(&mut answer).unwrap();
        assert_eq!(&answer, b"err 1\n");
    }
    drop(stdin);
    assert!(child.wait().unwrap().success());
}

#[test]
fn the_command_line_is_checked() {
    let help = answer(&["--help"], b"");
    let text = String::from_utf8(help.stdout).unwrap();
    assert!(help.status.success());
    for word in [
        "plain_read",
        "std_read4",
        "std_read6",
        "std_read ",
        "check",
        "plain_place",
        "plain_write",
        "std_write",
        "match",
        "rank",
        "choose",
        "decide",
        "FAMILY!RD!RULE",
        "ShortDistinguisher",
        "MixedDistinguisher",
        "TAB",
    ] {
        assert!(text.contains(word), "{word}");
    }
    // The last is no text.
    let other = [b"other", &b"--HELP"[..], b"", b"\n", b"\xFF"];
    for argument in other.map(OsStr::from_bytes) {
        let output = command().arg(argument).output().unwrap();
        assert_eq!(output.status.code(), Some(2), "{argument:?}");
        let said = String::from_utf8(output.stderr).unwrap();
        assert!(output.stdout.is_empty() && said.starts_with("answer: no argument "));
        assert_eq!(said.lines().count(), 1, "{said}");
    }
    assert_eq!(answer(&["--help", "--help"], b"").status.code(), Some(2));
}

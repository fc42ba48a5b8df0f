//! Answers requests, one a line, through the surface of the proved code. `help.txt` says what there is.

#![forbid(unsafe_code)]

mod calls;

use calls::Desk;
use std::ffi::OsString;
use std::io::{self, ErrorKind, Read, Write};
use std::process::ExitCode;

/// How much is read at once, and how much is written at once.
const CHUNK: usize = 1 << 16;

fn main() -> ExitCode {
    // An argument need not be text.
    let arguments: Vec<OsString> = std::env::args_os().skip(1).collect();
    let done = match arguments.first() {
        None => answer_all(io::stdin().lock(), io::stdout().lock()),
        Some(help) if help == "--help" && arguments.len() == 1 => {
            io::stdout().write_all(include_bytes!("help.txt"))
        }
        Some(other) => {
            eprintln!("answer: no argument {other:?}: requests come on standard input, and --help says what they are");
            return ExitCode::from(2);
        }
    };
    match done {
        Ok(()) => ExitCode::SUCCESS,
        // Whoever read the answers has seen enough.
        Err(error) if error.kind() == ErrorKind::BrokenPipe => ExitCode::SUCCESS,
        Err(error) => {
            eprintln!("answer: {error}");
            ExitCode::FAILURE
        }
    }
}

/// Answers each line of the input in turn. What is answered is written before more is waited for, so that a program at the other end
/// may go on by what it reads.
fn answer_all(mut input: impl Read, mut output: impl Write) -> io::Result<()> {
    let mut desk = Desk::new();
    let mut answers = Vec::with_capacity(2 * CHUNK);
    let mut held = vec![0; CHUNK];
    let mut filled = 0;
    loop {
        let got = match input.read(&mut held[filled..]) {
            Ok(0) => break,
            Ok(got) => got,
            Err(error) if error.kind() == ErrorKind::Interrupted => continue,
            Err(error) => return Err(error),
        };
        // No line ends in what was held before.
        let (mut start, mut from) = (0, filled);
        filled += got;
        while let Some(length) = held[from..filled].iter().position(|&byte| byte == b'\n') {
            desk.answer(&held[start..from + length], &mut answers);
            (start, from) = (from + length + 1, from + length + 1);
            if answers.len() >= CHUNK {
                output.write_all(&answers)?;
                answers.clear();
            }
        }
        output.write_all(&answers)?;
        output.flush()?;
        answers.clear();
        held.copy_within(start..filled, 0);
        filled -= start;
        if filled == held.len() {
            held.resize(2 * filled, 0);
        }
    }
    if filled > 0 {
        desk.answer(&held[..filled], &mut answers);
        output.write_all(&answers)?;
    }
    output.flush()
}

//! The command line; `help.txt` says what there is.

use oracle::{calls, plain, requests};
use std::io::{self, BufWriter, ErrorKind, Write};
use std::process::ExitCode;

fn main() -> ExitCode {
    // An argument that is no text is none that is known.
    let known = |one: std::ffi::OsString| one.to_string_lossy().into_owned();
    let arguments: Vec<String> = std::env::args_os().skip(1).map(known).collect();
    let arguments: Vec<&str> = arguments.iter().map(String::as_str).collect();
    let mut output = BufWriter::new(io::stdout().lock());
    let done = match arguments[..] {
        ["answer"] => calls::answer_all(io::stdin().lock(), &mut output),
        ["requests", name] => match requests::part(name) {
            Some(list) => print(&list, &mut output),
            None => return usage(&format!("no part {name}; there is {}", requests::names())),
        },
        ["plain-answers"] => print(&plain::answers(), &mut output),
        ["--help"] => write!(output, "{}", help()).and_then(|()| output.flush()),
        _ => return usage("try oracle --help"),
    };
    match done {
        // Whoever read the answers has seen enough.
        Err(error) if error.kind() == ErrorKind::BrokenPipe => ExitCode::SUCCESS,
        Err(error) => fail(1, &error.to_string()),
        Ok(()) => ExitCode::SUCCESS,
    }
}

fn print(list: &[String], output: &mut impl Write) -> io::Result<()> {
    for line in list {
        writeln!(output, "{line}")?;
    }
    output.flush()
}

fn help() -> String {
    include_str!("help.txt").replace("PARTS", &requests::names())
}

fn usage(message: &str) -> ExitCode {
    fail(2, message)
}

fn fail(code: u8, message: &str) -> ExitCode {
    eprintln!("oracle: {message}");
    ExitCode::from(code)
}

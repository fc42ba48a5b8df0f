//! Writes `tests/standard-answers`: the requests of `differential::samples`, each with what the crate
//! `standard` answers, a line for each: `REQUEST = ANSWER`.
//!
//!   rust/run standard-answers            writes the list
//!   rust/run standard-answers --check    compares the list with a new one, writes nothing
//!
//! Exit: 0 done or equal, 1 differs or failed, 2 misused.

use differential::requests::Request;
use differential::samples;
use std::path::{Path, PathBuf};
use std::process::ExitCode;
use std::{env, fs, io};

const LIST: &str = "tests/standard-answers";

fn main() -> ExitCode {
    // An argument that is no text is none that is known.
    let known = |one: std::ffi::OsString| one.to_string_lossy().into_owned();
    let arguments: Vec<String> = env::args_os().skip(1).map(known).collect();
    let arguments: Vec<&str> = arguments.iter().map(String::as_str).collect();
    let root = Path::new(env!("CARGO_MANIFEST_DIR")).join("../..");
    let file = root.join(LIST);
    let line = |request: &Request| format!("{request} = {}\n", request.answer());
    let list: String = samples::all().iter().map(line).collect();
    let done = match arguments[..] {
        [] => write(&file, &list),
        ["--check"] => check(&file, &list),
        _ => {
            eprintln!("usage: standard-answers [--check]");
            return ExitCode::from(2);
        }
    };
    match done {
        Ok(equal) => ExitCode::from(u8::from(!equal)),
        Err(error) => {
            eprintln!("standard-answers: {LIST}: {error}");
            ExitCode::from(1)
        }
    }
}

fn write(file: &PathBuf, list: &str) -> io::Result<bool> {
    if let Some(folder) = file.parent() {
        fs::create_dir_all(folder)?;
    }
    fs::write(file, list)?;
    println!("wrote {} answers to {LIST}", list.lines().count());
    Ok(true)
}

/// Whether the stored list is this one; where it is not, says where they part.
fn check(file: &PathBuf, list: &str) -> io::Result<bool> {
    let stored = fs::read_to_string(file)?;
    if stored == list {
        println!(
            "{LIST} is what the standard code answers, {} lines",
            list.lines().count()
        );
        return Ok(true);
    }
    let same = stored.lines().zip(list.lines());
    let same = same.take_while(|(stored, new)| stored == new).count();
    println!(
        "{LIST} differs from what the standard code answers, first in line {}",
        same + 1
    );
    for (whose, lines) in [("stored", &stored[..]), ("now", list)] {
        println!(
            "  {whose}: {}",
            lines.lines().nth(same).unwrap_or("no line")
        );
    }
    Ok(false)
}

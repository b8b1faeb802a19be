//! The program: runs a script, makes a random one, or compares another desk with this one.

use std::ffi::OsString;
use std::io::{Read, Write};
use std::process::ExitCode;

use peer::compare::{compare, summary};
use peer::desk::{Tally, run};
use peer::spoil::script;

const USAGE: &str = "usage: peer run [FILE] | peer make SEED STEPS | peer compare DESK SCRIPTS STEPS SEED";

fn main() -> ExitCode {
    let arguments: Vec<OsString> = std::env::args_os().skip(1).collect();
    match act(&arguments) {
        Ok(()) => ExitCode::SUCCESS,
        Err(message) => {
            eprintln!("{message}");
            ExitCode::FAILURE
        }
    }
}

fn act(arguments: &[OsString]) -> Result<(), String> {
    let (first, rest) = arguments.split_first().ok_or(USAGE)?;
    match (first.to_str(), rest) {
        (Some("run"), []) => {
            let mut text = Vec::new();
            std::io::stdin().read_to_end(&mut text).map_err(|error| format!("standard input: {error}"))?;
            run_script(&text)
        }
        (Some("run"), [file]) => {
            let text = std::fs::read(file).map_err(|error| format!("{}: {error}", file.display()))?;
            run_script(&text)
        }
        (Some("make"), [seed, steps]) => {
            print(&script(number(seed)?, number(steps)? as usize).0);
            Ok(())
        }
        (Some("compare"), [desk, scripts, steps, seed]) => {
            let steps = number(steps)? as usize;
            let tally = compare(desk, number(scripts)?, steps, number(seed)?).map_err(|found| found.to_string())?;
            print(format!("{}\n", summary(&tally, steps)).as_bytes());
            Ok(())
        }
        _ => Err(USAGE.into()),
    }
}

fn run_script(text: &[u8]) -> Result<(), String> {
    let report = run(text, &mut Tally::default());
    print(report.text.as_bytes());
    match report.bad {
        Some(bad) => Err(format!("line {}: {}", bad.line, bad.expected)),
        None => Ok(()),
    }
}

fn number(word: &OsString) -> Result<u64, String> {
    word.to_str().and_then(|word| word.parse().ok()).ok_or_else(|| USAGE.into())
}

/// Prints all at once. A reader that has gone away is no fault of ours.
fn print(text: &[u8]) {
    let _ = std::io::stdout().write_all(text);
}

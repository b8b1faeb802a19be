//! Comparison: random scripts are run by another desk and by this one, and the two reports are held together.

use std::ffi::OsStr;
use std::io::Write;
use std::path::{Path, PathBuf};
use std::process::{Command, Output, Stdio};

use crate::desk::{Report, Tally, run};
use crate::spoil::script;

/// Where two reports differ, in words, and the script that shows it.
pub struct Difference {
    pub seed: u64,
    pub script: PathBuf,
    pub about: String,
}

impl std::fmt::Display for Difference {
    fn fmt(&self, f: &mut std::fmt::Formatter<'_>) -> std::fmt::Result {
        write!(f, "difference at seed {}\n{}\nscript kept: {}", self.seed, self.about, self.script.display())
    }
}

/// Compares so many scripts, from a seed on, and gives the tally of all. Each second one comes from standard input.
pub fn compare(desk: &OsStr, scripts: u64, steps: usize, seed: u64) -> Result<Tally, Difference> {
    let mut tally = Tally::default();
    for k in 0..scripts {
        let seed = seed.wrapping_add(k);
        let (text, _) = script(seed, steps);
        let path = std::env::temp_dir().join(format!("peer-{}-{seed}.txt", std::process::id()));
        let differs = |about: String| Difference { seed, script: path.clone(), about };
        std::fs::write(&path, &text).map_err(|error| differs(format!("can't write the script: {error}")))?;
        let own = run(&text, &mut tally);
        let (way, output) = if k.is_multiple_of(2) {
            ("as a file", run_file(desk, &path))
        } else {
            ("on standard input", run_input(desk, &text))
        };
        let output = output.map_err(|error| differs(format!("can't run the desk: {error}")))?;
        compare_one(&output, &own).map_err(|about| differs(format!("the script was given {way}\n{about}")))?;
        // Nothing depends on whether this succeeds.
        let _ = std::fs::remove_file(&path);
    }
    Ok(tally)
}

fn run_file(desk: &OsStr, script: &Path) -> std::io::Result<Output> {
    Command::new(desk).arg(script).stdin(Stdio::null()).output()
}

fn run_input(desk: &OsStr, text: &[u8]) -> std::io::Result<Output> {
    let mut command = Command::new(desk);
    let mut child = command.stdin(Stdio::piped()).stdout(Stdio::piped()).stderr(Stdio::piped()).spawn()?;
    let mut input = child.stdin.take().expect("a pipe");
    std::thread::scope(|scope| {
        // A desk that ends at a bad line does not read the rest.
        scope.spawn(move || input.write_all(text));
        child.wait_with_output()
    })
}

/// The report, the statement and the status are all that a desk says of a script that ends well; of another the
/// report, one line on standard error and the status.
fn compare_one(output: &Output, own: &Report) -> Result<(), String> {
    let said = output.stderr.escape_ascii();
    let (report, statement) = output.stdout.split_at(report_length(&output.stdout));
    compare_reports(report, own.text.as_bytes()).map_err(|about| format!("{about}\ndesk's standard error: {said}"))?;
    let expected = i32::from(own.bad.is_some());
    if output.status.code() != Some(expected) {
        return Err(format!("desk {}: {said}\npeer exit status: {expected}", output.status));
    }
    let stated = statement.escape_ascii();
    match &own.bad {
        Some(_) if !statement.is_empty() => Err(format!("desk has a statement after a bad line: {stated}")),
        Some(bad) => {
            let expected = format!("line {}: ", bad.line);
            let line = output.stderr.strip_suffix(b"\n").filter(|line| !line.contains(&b'\n'));
            let good = line.is_some_and(|line| line.starts_with(expected.as_bytes()));
            if good { Ok(()) } else { Err(format!("desk's standard error: {said}\npeer's begins: {expected}")) }
        }
        None if !output.stderr.is_empty() => Err(format!("desk's standard error: {said}\npeer has none")),
        None if !is_statement(statement) => Err(format!("desk's statement has other lines in it: {stated}")),
        None if statement.starts_with(own.account.told().as_bytes()) => Ok(()),
        None => Err(format!("desk's statement: {stated}\npeer's begins: {}", own.account.told().escape_default())),
    }
}

/// How many bytes stand before the first line that begins as a statement's lines do.
fn report_length(text: &[u8]) -> usize {
    let lines = text.split_inclusive(|byte| *byte == b'\n');
    lines.take_while(|line| !line.starts_with(b"= ")).map(<[u8]>::len).sum()
}

/// Whether these are whole lines that begin as a statement's lines do.
fn is_statement(text: &[u8]) -> bool {
    text.split_inclusive(|byte| *byte == b'\n').all(|line| line.starts_with(b"= ") && line.ends_with(b"\n"))
}

/// Says the first line in which two reports differ, its line feed included.
fn compare_reports(theirs: &[u8], ours: &[u8]) -> Result<(), String> {
    if theirs == ours {
        return Ok(());
    }
    let mut theirs = theirs.split_inclusive(|byte| *byte == b'\n');
    let mut ours = ours.split_inclusive(|byte| *byte == b'\n');
    let shown = |line: Option<&[u8]>| line.map_or("no more lines".into(), |line| line.escape_ascii().to_string());
    let mut line = 1;
    loop {
        let (their, our) = (theirs.next(), ours.next());
        if their != our {
            return Err(format!("line {line} of the report\ndesk {}\npeer {}", shown(their), shown(our)));
        }
        line += 1;
    }
}

/// What happened, in one line.
pub fn summary(tally: &Tally, steps: usize) -> String {
    let numbers: Vec<String> = (1..=17).map(|number| format!("{number}:{}", tally.refusals[number])).collect();
    let [_, one, two, three] = tally.forms;
    format!(
        "{} scripts of {steps} steps ({} not made, {} ended at a bad line), taken {}, refused {} ({}), openings {}, \
         forms {} (rule 1:{one} 2:{two} 3:{three}), joins {}, confirmed {}, lost {}, waiting {}, green {}, red {}: \
         no difference",
        tally.scripts,
        tally.unmade,
        tally.ended,
        tally.taken,
        tally.refused,
        numbers.join(" "),
        tally.openings,
        one + two + three,
        tally.joins,
        tally.confirmed,
        tally.lost,
        tally.waiting,
        tally.green,
        tally.red,
    )
}

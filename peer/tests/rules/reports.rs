//! Reports: one script with every sort of line, lines that are no step, and the scripts of `examples/`.

use std::path::{Path, PathBuf};

use peer::desk::{Report, Tally, run};

fn report(script: &str) -> Report {
    run(script.as_bytes(), &mut Tally::default())
}

#[test]
fn an_evening() {
    let script = "\
# comment
site cards 3 2 8 tray 3   # made

 change\t0 7 9 given \r
settle 0 0 0 1
pass 0 1 1
deliver 0
deliver 1
settle 0 0 0 1
lookup 1 7 3
lookup 2 7 3
settle 0 16384 0 1
settle 0 0 7 1
settle 0 0 0 0
crash 0
call 1
invite 1 2
deliver 2
deliver 3
show
form 1
deliver 4
join 2 1
deliver 300
lose 300
call 300
recover 0
lose 0
show
call 1
call 1
call#comment
";
    let expected = "\
made
change: slip 0.0 1
settle: waiting
pass: ok
deliver: entry
deliver: acknowledgement
settle: confirmed
lookup: green
lookup: red
settle: refused 17 controller 0
settle: refused 17 controller 0
settle: refused 17 controller 0
crash: ok
call: ok
invite: ok
deliver: invitation
deliver: normal
show: n 3 cap 2 pool 4/8
controller 0 down current 0.0 promised 0.0 incomplete length 0 primary 0
controller 1 manager current 0.0 promised 1.1 complete length 1 primary 0 answers - normal:0.0:1:0 normal:0.0:0:0
controller 2 waiting current 0.0 promised 1.1 complete length 0 primary 0
controller 3 down current 0.0 promised 0.0 incomplete length 0 primary 0
controller 4 down current 0.0 promised 0.0 incomplete length 0 primary 0
controller 5 down current 0.0 promised 0.0 incomplete length 0 primary 0
controller 6 down current 0.0 promised 0.0 incomplete length 0 primary 0
cell 0 current 0.0 promised 0.0 left 3
cell 1 current 0.0 promised 1.1 left 2
cell 2 current 0.0 promised 1.1 left 2
cell 3 current 0.0 promised 0.0 left 3
cell 4 current 0.0 promised 0.0 left 3
cell 5 current 0.0 promised 0.0 left 3
cell 6 current 0.0 promised 0.0 left 3
book 1 1 0.0 7 9 1
message 0 entry 0 1 0.0 1 0.0 7 9 1
message 1 acknowledgement 1 0 0.0 1
message 2 invitation 1 2 1.1
message 3 normal 2 1 1.1 0.0 0 0
form: chosen 1
deliver: form
join: ok
deliver: refused 3 message 300
lose: refused 3 message 300
call: refused 2 controller 300
recover: ok
lose: ok
show: n 3 cap 2 pool 5/8
controller 0 waiting current 0.0 promised 0.0 incomplete length 0 primary 0
controller 1 active current 1.1 promised 1.1 complete length 1 primary 1 lengths - 1 -
controller 2 active current 1.1 promised 1.1 complete length 1 primary 1
controller 3 down current 0.0 promised 0.0 incomplete length 0 primary 0
controller 4 down current 0.0 promised 0.0 incomplete length 0 primary 0
controller 5 down current 0.0 promised 0.0 incomplete length 0 primary 0
controller 6 down current 0.0 promised 0.0 incomplete length 0 primary 0
cell 0 current 0.0 promised 0.0 left 3
cell 1 current 1.1 promised 1.1 left 1
cell 2 current 1.1 promised 1.1 left 1
cell 3 current 0.0 promised 0.0 left 3
cell 4 current 0.0 promised 0.0 left 3
cell 5 current 0.0 promised 0.0 left 3
cell 6 current 0.0 promised 0.0 left 3
book 1 1 0.0 7 9 1
book 2 1 0.0 7 9 1
message 0 acknowledgement 2 1 1.1 1
message 1 acknowledgement 1 0 0.0 1
message 2 invitation 1 2 1.1
message 3 normal 2 1 1.1 0.0 0 0
message 4 form 1 1 1.1
call: ok
call: refused 15 cell 1 controller 1
";
    let report = report(script);
    assert_eq!(report.text, expected);
    assert_eq!(report.bad.map(|bad| bad.line), Some(32));
}

#[test]
fn a_site_that_is_not_made() {
    let script = "site hours 8 4 8 tray 3\ncall 9\ndeliver 9\nsettle 9 0 0 1\nsettle 9 0 0 0\nshow";
    let expected = "\
site: refused 1 controller 0
call: refused 1 controller 9
deliver: refused 1 message 9
settle: refused 1 controller 9
settle: refused 17 controller 0
show: refused 1 controller 0
";
    let report = report(script);
    assert_eq!((report.text.as_str(), report.bad), (expected, None));
}

#[test]
fn lines_that_are_no_step() {
    let line_of = |script: &str| report(script).bad.map(|bad| bad.line);
    let site = "site hours 3 4 8 strip 56\n";
    for bad in [
        "call",
        "call 0 0",
        "call 65536",
        "call -1",
        "call +1",
        "call 1.",
        "CALL 1",
        "show 1",
        "site hours 3 4 8 tray 1",
        "change 0 1 2",
        "change 0 1 2 given",
        "call 0\r ",
        "call\u{a0}0",
        "1",
    ] {
        assert_eq!(line_of(&format!("{site}\n{bad}\ncall 0\n")), Some(3), "{bad}");
    }
    for good in ["call 0", "call 00000000", "\tcall\t0\t\r", "call 0# 1", "change 0 1 2 65535"] {
        assert_eq!(line_of(&format!("{site}\n{good}\ncall 0\n")), None, "{good}");
    }
    assert_eq!(line_of("site cards 3 4 8 strip 56\nchange 0 1 2 3\n"), Some(2));
    assert_eq!(line_of("call 0\n"), Some(1));
    // Without the site's line, at the line after the last. That line alone is a script.
    assert_eq!(line_of(""), Some(1));
    assert_eq!(line_of("\n# only a comment"), Some(3));
    assert_eq!(line_of(site), None);
}

#[test]
fn lines_that_are_too_long() {
    let site = "site cards 3 4 8 tray 5\n";
    for end in ["", "\n", "\ncall 0\n"] {
        let comment = |bytes: usize| format!("call 0#{}", "x".repeat(bytes - 7));
        let longest = report(&format!("{site}{}{end}", comment(65_536)));
        assert_eq!(longest.bad.map(|bad| bad.line), None);
        let longer = report(&format!("{site}{}{end}", comment(65_537)));
        assert_eq!((longer.text.as_str(), longer.bad.map(|bad| bad.line)), ("made\n", Some(2)));
    }
    let first = format!("{}\r\n{site}", " ".repeat(65_536));
    assert_eq!(report(&first).bad.map(|bad| bad.line), Some(1));
}

#[test]
fn accounts() {
    let told = |script: &str| report(script).account.told();
    assert_eq!(
        told("site cards 2 4 8 tray 5\nshow\ncall 0\nsettle 0 0 7 1\n"),
        "= 0 steps were taken and 2 refused.\n= The site was not made.\n"
    );
    // A slip counts once, and only if a change handed it out.
    let site = "site cards 3 4 8 tray 5\nchange 0 7 9 given\n";
    assert_eq!(
        told(site),
        "= 1 step was taken and 0 refused.\n= 1 change was handed out: 0 confirmed, 0 lost, 1 still waiting.\n"
    );
    let settled = "pass 0 1 1\ndeliver 0\ndeliver 1\nsettle 0 0 0 1\nsettle 0 0 0 1\nsettle 0 0 0 9\nshow\n";
    assert_eq!(
        told(&format!("{site}change 0 7 9 given\n{settled}")),
        "= 8 steps were taken and 0 refused.\n= 2 changes were handed out: 1 confirmed, 0 lost, 1 still waiting.\n"
    );
}

/// The scripts in this folder, which has some.
fn scripts(folder: &str) -> Vec<PathBuf> {
    let folder = Path::new(env!("CARGO_MANIFEST_DIR")).join("../examples").join(folder);
    let files = std::fs::read_dir(folder).unwrap().map(|file| file.unwrap().path());
    let scripts: Vec<PathBuf> = files.filter(|path| path.extension().is_some_and(|end| end == "txt")).collect();
    assert!(!scripts.is_empty());
    scripts
}

#[test]
fn the_examples() {
    for path in scripts("") {
        let own = run(&std::fs::read(&path).unwrap(), &mut Tally::default());
        let stored = std::fs::read_to_string(path.with_extension("report")).unwrap();
        assert!(stored.starts_with(&(own.text + &own.account.told())), "{}", path.display());
        assert_eq!(own.bad, None, "{}", path.display());
    }
}

#[test]
fn the_examples_with_a_bad_line() {
    for path in scripts("bad") {
        let own = run(&std::fs::read(&path).unwrap(), &mut Tally::default());
        let stored = std::fs::read_to_string(path.with_extension("report")).unwrap();
        assert_eq!(own.text, stored, "{}", path.display());
        let said = std::fs::read_to_string(path.with_extension("error")).unwrap();
        let line = own.bad.unwrap_or_else(|| panic!("{}", path.display())).line;
        assert!(said.starts_with(&format!("line {line}: expected ")), "{}", path.display());
    }
}

//! The desk: runs the steps of a script on a site of its own and writes the report.

use std::fmt::Write;

use crate::account::Account;
use crate::cabinet::{Cabinet, Strip, Tray, Worn};
use crate::controller::{Answer, Status};
use crate::entries::{CardChange, Entry, HoursChange, Kind, Light, Question};
use crate::forming::Choice;
use crate::message::{Body, Message, MessageKind};
use crate::numbers::{CELLS, CellRecord, ControllerNumber, PlainView, Slip, Stamp};
use crate::refusal::Fault;
use crate::script::{BadLine, CabinetSetup, KindName, SITE_EXPECTED, Setup, Step, lines, words};
use crate::site::{Lent, Settled, Site};

/// A kind of change that scripts can write as three numbers.
pub trait Written: Kind + Default {
    fn from_numbers(x: [u16; 3]) -> Self;
    fn numbers(&self) -> [u16; 3];
}

impl Written for CardChange {
    fn from_numbers([card, doors, given]: [u16; 3]) -> CardChange {
        CardChange { card, doors, given: given != 0 }
    }

    fn numbers(&self) -> [u16; 3] {
        [self.card, self.doors, u16::from(self.given)]
    }
}

impl Written for HoursChange {
    fn from_numbers([door, opening, shutting]: [u16; 3]) -> HoursChange {
        HoursChange { door, opening, shutting }
    }

    fn numbers(&self) -> [u16; 3] {
        [self.door, self.opening, self.shutting]
    }
}

/// Either cabinet.
pub enum Drawer<'a> {
    Tray(Tray),
    Strip(Strip<'a>),
}

impl Drawer<'_> {
    /// The writes left of a cell.
    pub fn left(&self, cell: u16) -> u16 {
        match self {
            Drawer::Tray(tray) => tray.left(cell),
            Drawer::Strip(strip) => strip.left(cell),
        }
    }
}

impl Cabinet for Drawer<'_> {
    fn held(&self, cell: u16) -> CellRecord {
        match self {
            Drawer::Tray(tray) => tray.held(cell),
            Drawer::Strip(strip) => strip.held(cell),
        }
    }

    fn worn(&self, cell: u16) -> bool {
        match self {
            Drawer::Tray(tray) => tray.worn(cell),
            Drawer::Strip(strip) => strip.worn(cell),
        }
    }

    fn put(&mut self, cell: u16, record: CellRecord) -> Result<(), Worn> {
        match self {
            Drawer::Tray(tray) => tray.put(cell, record),
            Drawer::Strip(strip) => strip.put(cell, record),
        }
    }
}

/// How a settle ended.
#[derive(Clone, Copy, PartialEq, Eq, Debug)]
pub enum Ending {
    Confirmed,
    Lost,
    Waiting,
}

/// What a step did.
#[derive(Clone, Copy, PartialEq, Eq, Debug)]
pub enum Outcome {
    Slip(Stamp),
    Settled(Ending),
    Looked(Light),
    Formed(Choice),
    Delivered(MessageKind),
    Shown,
    /// Any other step that was taken.
    Done,
    Refused(Fault),
}

/// The bytes that a setup needs for its strip, all 0.
pub fn strip_bytes(setup: &Setup) -> Vec<u8> {
    match setup.cabinet {
        CabinetSetup::Tray(_) => Vec::new(),
        CabinetSetup::Strip(bytes) => vec![0; usize::from(bytes)],
    }
}

/// A site with all the memory that it is lent.
pub struct Desk<'a, K> {
    pub site: Site,
    pub books: Vec<Entry<K>>,
    pub pool: Vec<Message<K>>,
    pub cabinet: Drawer<'a>,
}

impl<'a, K: Written> Desk<'a, K> {
    /// Makes the memory and then the site. The bytes are those of [`strip_bytes`].
    pub fn open(setup: &Setup, bytes: &'a mut [u8]) -> (Desk<'a, K>, Result<(), Fault>) {
        let none = setup.n > CELLS as u16 || setup.pool > 4_096;
        let (entries, messages) =
            if none { (0, 0) } else { (usize::from(setup.n) * usize::from(setup.cap), usize::from(setup.pool)) };
        let cabinet = match setup.cabinet {
            CabinetSetup::Tray(left) => Drawer::Tray(Tray::new([left; CELLS])),
            CabinetSetup::Strip(_) => Drawer::Strip(Strip::new(bytes)),
        };
        let mut desk = Desk {
            site: Site::new(),
            books: vec![Entry::default(); entries],
            pool: vec![Message::default(); messages],
            cabinet,
        };
        let lent = Lent { books: &mut desk.books, pool: &mut desk.pool, cabinet: &mut desk.cabinet };
        let made = desk.site.make(setup.n, setup.cap, &lent);
        (desk, made)
    }

    /// The entries in use of a controller's book.
    pub fn book(&self, c: ControllerNumber) -> &[Entry<K>] {
        self.site.book(c, &self.books)
    }

    /// The messages in the pool.
    pub fn messages(&self) -> &[Message<K>] {
        &self.pool[..usize::from(self.site.count())]
    }

    /// Does one step. A show does nothing here but ask whether the site is made.
    pub fn step(&mut self, step: &Step) -> Outcome {
        let Desk { site, books, pool, cabinet } = self;
        let lent = &mut Lent { books, pool, cabinet };
        let done = |result: Result<(), Fault>| result.map(|()| Outcome::Done);
        let result = match *step {
            Step::Change { i, x } => site.change(i, K::from_numbers(x), lent).map(|slip| {
                let stamp = slip.stamp();
                slip.set_aside();
                Outcome::Slip(stamp)
            }),
            Step::Pass { i, b, k } => done(site.pass(i, b, k, lent)),
            Step::Call { i } => done(site.call(i, lent)),
            Step::Invite { i, b } => done(site.invite(i, b, lent)),
            Step::Form { i } => site.form(i, lent).map(Outcome::Formed),
            Step::Deliver { j } => site.deliver(j, lent).map(Outcome::Delivered),
            Step::Join { i, p } => done(site.join(i, p, lent)),
            Step::Settle { i, count, controller, place } => match Slip::take_up(count, controller, place) {
                Err(refusal) => Err(Fault::Controller { refusal, controller: 0 }),
                Ok(slip) => match site.settle(i, slip, lent) {
                    Ok(Settled::Confirmed) => Ok(Outcome::Settled(Ending::Confirmed)),
                    Ok(Settled::Lost) => Ok(Outcome::Settled(Ending::Lost)),
                    Ok(Settled::Waiting(slip)) => {
                        slip.set_aside();
                        Ok(Outcome::Settled(Ending::Waiting))
                    }
                    Err((slip, fault)) => {
                        slip.set_aside();
                        Err(fault)
                    }
                },
            },
            Step::Lookup { i, a, b } => site.lookup(i, Question { first: a, second: b }, lent).map(Outcome::Looked),
            Step::Crash { i } => done(site.crash(i, lent)),
            Step::Recover { i } => done(site.recover(i, lent)),
            Step::Lose { j } => done(site.lose(j, lent)),
            Step::Show if site.is_made() => Ok(Outcome::Shown),
            Step::Show => Err(Fault::Controller { refusal: crate::refusal::Refusal::NotMade, controller: 0 }),
        };
        result.unwrap_or_else(Outcome::Refused)
    }

    /// The whole state, as a show prints it.
    pub fn show(&self, out: &mut String) {
        self.try_show(out).expect("writing to a string");
    }

    fn try_show(&self, out: &mut String) -> std::fmt::Result {
        let site = &self.site;
        let n = usize::from(site.n());
        writeln!(out, "show: n {n} cap {} pool {}/{}", site.cap(), site.count(), site.room())?;
        for (c, record) in site.controllers().iter().enumerate() {
            let status = match record.status {
                Status::Active(_) => "active",
                Status::Manager(_) => "manager",
                Status::Waiting => "waiting",
                Status::Down => "down",
            };
            let (current, promised) = (shown(record.current), shown(record.promised));
            let complete = if record.complete { "complete" } else { "incomplete" };
            write!(out, "controller {c} {status} current {current} promised {promised} {complete}")?;
            write!(out, " length {} primary {}", record.length, record.primary.get())?;
            match &record.status {
                Status::Active(Some(lengths)) => {
                    write!(out, " lengths")?;
                    for length in &lengths[..n] {
                        match length {
                            Some(length) => write!(out, " {length}")?,
                            None => write!(out, " -")?,
                        }
                    }
                }
                Status::Manager(answers) => {
                    write!(out, " answers")?;
                    for answer in &answers[..n] {
                        match *answer {
                            None => write!(out, " -")?,
                            Some(Answer::Normal { view, length, primary }) => {
                                write!(out, " normal:{}:{length}:{}", shown(view), u16::from(primary))?;
                            }
                            Some(Answer::Crash { view }) => write!(out, " crash:{}", shown(view))?,
                        }
                    }
                }
                _ => {}
            }
            writeln!(out)?;
        }
        for cell in 0..CELLS as u16 {
            let held = self.cabinet.held(cell);
            let (current, promised) = (shown(held.current()), shown(held.promised()));
            writeln!(out, "cell {cell} current {current} promised {promised} left {}", self.cabinet.left(cell))?;
        }
        for c in (0..site.n()).filter_map(|c| ControllerNumber::new(c).ok()) {
            for (k, entry) in (1..).zip(self.book(c)) {
                write!(out, "book {} {k} ", c.get())?;
                show_entry(out, entry)?;
                writeln!(out)?;
            }
        }
        for (j, message) in self.messages().iter().enumerate() {
            let (word, view) = (message.kind().word(), shown(message.view));
            write!(out, "message {j} {word} {} {} {view}", message.sender, message.addressee)?;
            match &message.body {
                Body::Invitation | Body::Form => {}
                Body::Normal { current, length, primary } => {
                    write!(out, " {} {length} {}", shown(*current), u16::from(*primary))?;
                }
                Body::Crash { current } => write!(out, " {}", shown(*current))?,
                Body::Entry { place, entry } => {
                    write!(out, " {place} ")?;
                    show_entry(out, entry)?;
                }
                Body::Acknowledgement { length } => write!(out, " {length}")?,
            }
            writeln!(out)?;
        }
        Ok(())
    }
}

/// A view as reports write it.
fn shown(view: impl Into<PlainView>) -> String {
    let view = view.into();
    format!("{}.{}", view.count, view.controller)
}

fn show_entry<K: Written>(out: &mut String, entry: &Entry<K>) -> std::fmt::Result {
    let [a, b, x] = entry.change.numbers();
    write!(out, "{} {a} {b} {x}", shown(entry.view))
}

/// How often each thing happened in the steps of one or more scripts. Makes and shows are no steps.
#[derive(Clone, Default, PartialEq, Eq, Debug)]
pub struct Tally {
    pub scripts: u64,
    /// Scripts whose make was refused.
    pub unmade: u64,
    /// Scripts that ended at a line that was none of those expected.
    pub ended: u64,
    pub taken: u64,
    pub refused: u64,
    /// By number; 0 stays unused.
    pub refusals: [u64; 18],
    /// Forms by rule; 0 stays unused.
    pub forms: [u64; 4],
    pub openings: u64,
    pub joins: u64,
    pub confirmed: u64,
    pub lost: u64,
    pub waiting: u64,
    pub green: u64,
    pub red: u64,
}

impl Tally {
    pub fn note(&mut self, step: &Step, outcome: &Outcome) {
        if *step == Step::Show {
            return;
        }
        if let Outcome::Refused(fault) = outcome {
            self.refused += 1;
            self.refusals[usize::from(fault.refusal().number())] += 1;
            return;
        }
        self.taken += 1;
        match (step, outcome) {
            (_, Outcome::Settled(Ending::Confirmed)) => self.confirmed += 1,
            (_, Outcome::Settled(Ending::Lost)) => self.lost += 1,
            (_, Outcome::Settled(Ending::Waiting)) => self.waiting += 1,
            (_, Outcome::Looked(Light::Green)) => self.green += 1,
            (_, Outcome::Looked(Light::Red)) => self.red += 1,
            (_, Outcome::Formed(choice)) => self.forms[usize::from(choice.rule)] += 1,
            (_, Outcome::Delivered(MessageKind::Form)) => self.openings += 1,
            (Step::Join { .. }, _) => self.joins += 1,
            _ => {}
        }
    }
}

/// The report of a script: its text, the line that ended it early, if any, and what its steps amount to.
pub struct Report {
    pub text: String,
    pub bad: Option<BadLine>,
    pub account: Account,
}

/// Runs a script and adds what happened to the tally.
pub fn run(script: &[u8], tally: &mut Tally) -> Report {
    let mut report = Report { text: String::new(), bad: None, account: Account::default() };
    report.bad = run_lines(script, &mut report, tally).err();
    tally.scripts += 1;
    tally.ended += u64::from(report.bad.is_some());
    report
}

fn run_lines(script: &[u8], report: &mut Report, tally: &mut Tally) -> Result<(), BadLine> {
    let lines = lines(script);
    let after = lines.len() + 1;
    let read = |(line, text)| words(text).map(|words| (line, words)).map_err(|expected| BadLine { line, expected });
    let said = |read: &Result<(usize, Words), BadLine>| read.as_ref().map_or(true, |(_, words)| !words.is_empty());
    let mut numbered = (1..).zip(lines).map(read).filter(said);
    // Only the line that makes the site has to be there.
    let (line, words) = numbered.next().unwrap_or(Err(BadLine { line: after, expected: SITE_EXPECTED }))?;
    let setup = Setup::read(&words).map_err(|expected| BadLine { line, expected })?;
    match setup.kind {
        KindName::Cards => run_steps::<CardChange>(&setup, numbered, report, tally),
        KindName::Hours => run_steps::<HoursChange>(&setup, numbered, report, tally),
    }
}

type Words<'s> = Vec<&'s [u8]>;

fn run_steps<'s, K: Written>(
    setup: &Setup,
    numbered: impl Iterator<Item = Result<(usize, Words<'s>), BadLine>>,
    Report { text, account, .. }: &mut Report,
    tally: &mut Tally,
) -> Result<(), BadLine> {
    let mut bytes = strip_bytes(setup);
    let (mut desk, made) = Desk::<K>::open(setup, &mut bytes);
    account.made = made.is_ok();
    tally.unmade += u64::from(made.is_err());
    match made {
        Ok(()) => text.push_str("made\n"),
        Err(fault) => report_refusal("site", &fault, text),
    }
    for read in numbered {
        let (line, words) = read?;
        let step = Step::read(setup.kind, &words).map_err(|expected| BadLine { line, expected })?;
        let outcome = desk.step(&step);
        tally.note(&step, &outcome);
        account.note(&step, &outcome);
        report(&step, &outcome, &desk, text);
    }
    Ok(())
}

/// Writes what a step did.
pub fn report<K: Written>(step: &Step, outcome: &Outcome, desk: &Desk<'_, K>, out: &mut String) {
    let word = step.word();
    let what = match outcome {
        Outcome::Slip(stamp) => format!("slip {} {}", shown(stamp.view), stamp.place.get()),
        Outcome::Settled(Ending::Confirmed) => "confirmed".into(),
        Outcome::Settled(Ending::Lost) => "lost".into(),
        Outcome::Settled(Ending::Waiting) => "waiting".into(),
        Outcome::Looked(Light::Green) => "green".into(),
        Outcome::Looked(Light::Red) => "red".into(),
        Outcome::Formed(choice) => format!("chosen {}", choice.chosen.get()),
        Outcome::Delivered(kind) => kind.word().into(),
        Outcome::Done => "ok".into(),
        Outcome::Shown => return desk.show(out),
        Outcome::Refused(fault) => return report_refusal(word, fault, out),
    };
    writeln!(out, "{word}: {what}").expect("writing to a string");
}

fn report_refusal(word: &str, fault: &Fault, out: &mut String) {
    let number = fault.refusal().number();
    match fault {
        Fault::Worn { worn, controller } => {
            writeln!(out, "{word}: refused {number} cell {} controller {controller}", worn.cell)
        }
        Fault::Message { message, .. } => writeln!(out, "{word}: refused {number} message {message}"),
        Fault::Controller { controller, .. } => writeln!(out, "{word}: refused {number} controller {controller}"),
    }
    .expect("writing to a string");
}

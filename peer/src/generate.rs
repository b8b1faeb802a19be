//! Random scripts: each step is chosen by looking at a site on which the script runs while it is made.

use crate::cabinet::Cabinet;
use crate::controller::{Answer, Controller, Status};
use crate::desk::{Desk, Ending, Outcome, Written, strip_bytes};
use crate::entries::{CardChange, HoursChange};
use crate::forming::choose;
use crate::message::{Body, Message};
use crate::numbers::{CELLS, PlainView};
use crate::random::Random;
use crate::script::{CabinetSetup, KindName, Setup, Step};

/// A script of so many steps, besides its first line and its shows.
pub fn script(seed: u64, steps: usize) -> String {
    let mut random = Random::new(seed);
    let setup = random_setup(&mut random);
    match setup.kind {
        KindName::Cards => script_of::<CardChange>(&setup, random, steps, seed),
        KindName::Hours => script_of::<HoursChange>(&setup, random, steps, seed),
    }
}

fn script_of<K: Written>(setup: &Setup, mut random: Random, steps: usize, seed: u64) -> String {
    let mut bytes = strip_bytes(setup);
    let (mut desk, _) = Desk::<K>::open(setup, &mut bytes);
    let mut text = format!("# seed {seed}, {steps} steps\n");
    write_line(&mut random, setup.words(), &mut text);
    let bad_end = random.chance(30);
    // A desk may gather steps until something has to be shown, so some scripts show little.
    let (soon, late) = if random.chance(100) { (1_500, 3_000) } else { (20, 50) };
    let mut maker = Maker::new(setup.kind, random);
    let mut until_show = maker.random.from_to(soon, late);
    for _ in 0..steps {
        let step = maker.choose(&desk);
        let outcome = desk.step(&step);
        maker.note(&step, &outcome);
        write_line(&mut maker.random, step.words(setup.kind), &mut text);
        until_show -= 1;
        if until_show == 0 {
            until_show = maker.random.from_to(soon, late);
            write_line(&mut maker.random, Step::Show.words(setup.kind), &mut text);
        }
    }
    text.push_str("show\n");
    if bad_end {
        text.push_str(bad_line(&mut maker.random, setup.kind));
    } else if maker.random.chance(50) {
        // Now and then the last line has no line feed.
        text.pop();
    }
    text
}

/// A line that is no step, and one after it that is never read.
fn bad_line(random: &mut Random, kind: KindName) -> &'static str {
    let other_kind = match kind {
        KindName::Cards => "change 0 1 480 1080\ncall 0\n",
        KindName::Hours => "change 0 1 9 given\ncall 0\n",
    };
    random.one_of(&[
        other_kind,
        "call\nshow\n",
        "call 0 1\nshow\n",
        "call 65536\nshow\n",
        "call -1\nshow\n",
        "call 0x1\nshow\n",
        "Call 0\nshow\n",
        "show 0\nshow\n",
        "deliver one\nshow\n",
        "site cards 3 4 8 tray 5\nshow\n",
        "walk 0\nshow\n",
    ])
}

/// Writes a line, now and then with odd spacing, a comment, or lines that are skipped around it.
fn write_line(random: &mut Random, mut words: Vec<String>, text: &mut String) {
    if random.chance(15) {
        text.push_str(random.one_of(&[
            "\n",
            "   \n",
            "\t\n",
            "\r\n",
            "# a note\n",
            "  # call 0\n",
            "#\n",
            "# ä # 5\r\n",
        ]));
    }
    if random.chance(4) && words.len() > 1 {
        let word = &mut words[1];
        if word.bytes().all(|byte| byte.is_ascii_digit()) {
            word.insert_str(0, "00");
        }
    }
    if random.chance(950) {
        text.push_str(&words.join(" "));
    } else {
        text.push_str(random.one_of(&["", "", " ", "\t ", "    "]));
        for word in &words {
            text.push_str(word);
            text.push_str(random.one_of(&[" ", " ", "  ", "\t", " \t "]));
        }
        text.push_str(random.one_of(&["", "", "# so", "#", "#lose 0 # 1", "\r"]));
    }
    text.push('\n');
}

/// The first line: mostly a site that can be made, at times one that can't, or one that wears out soon.
pub fn random_setup(random: &mut Random) -> Setup {
    let kind = random.one_of(&[KindName::Cards, KindName::Hours]);
    let n = match random.below(100) {
        0..42 => 3,
        42..52 => 4,
        52..80 => 5,
        80..87 => 6,
        87..98 => 7,
        _ => random.one_of(&[0, 1, 2, 8, 9, 300, 65_535]),
    };
    let cap = match random.below(1_000) {
        0..300 => random.from_to(1, 6),
        300..800 => random.from_to(7, 40),
        800..980 => random.from_to(41, 300),
        980..985 => 65_535,
        _ => 0,
    };
    let pool = match random.below(1_000) {
        0..250 => random.from_to(8, 12),
        250..650 => random.from_to(13, 32),
        650..970 => random.from_to(33, 64),
        970..975 => 4_096,
        _ => random.one_of(&[0, 1, 7, 4_097, 65_535]),
    };
    let cabinet = match random.below(100) {
        0..22 => CabinetSetup::Tray(65_535),
        22..31 => CabinetSetup::Tray(random.from_to(1, 8)),
        31..32 => CabinetSetup::Tray(0),
        32..56 => CabinetSetup::Tray(random.from_to(9, 80)),
        56..61 => CabinetSetup::Strip(random.one_of(&[56, 112])),
        61..69 => CabinetSetup::Strip(560),
        69..84 => CabinetSetup::Strip(57_344),
        84..95 => CabinetSetup::Strip(56 * random.from_to(3, 60)),
        // 57,400 is 1,025 times 56.
        _ => CabinetSetup::Strip(random.one_of(&[0, 1, 55, 57, 7 * 9, 57_343, 57_345, 57_400, 65_535])),
    };
    Setup { kind, n, cap, pool, cabinet }
}

/// A slip handed out, by its numbers.
#[derive(Clone, Copy)]
struct Handed {
    count: u16,
    controller: u16,
    place: u16,
    closed: bool,
}

/// The sorts of steps that a maker chooses from.
#[derive(Clone, Copy)]
enum Sort {
    Change,
    Pass,
    Deliver,
    /// What only one question or two will refuse.
    Miss,
    Call,
    Invite,
    Form,
    Join,
    Settle,
    Lookup,
    Crash,
    Recover,
    LoseStale,
    Lose,
}

const SORTS: usize = Sort::Lose as usize + 1;

/// How much each sort counts for a while, in the order of [`Sort`].
struct Mood {
    weights: [u32; SORTS],
    /// No message is lost, and passes and invitations are repeated, until the pool is full.
    flood: bool,
    /// A view change is called though nothing is wrong.
    restless: bool,
}

impl Mood {
    fn random(random: &mut Random) -> Mood {
        //                 chan pass deli miss call invi form join sett look cras reco stale lose
        let calm: [u32; SORTS] = [70, 120, 200, 20, 60, 160, 200, 200, 80, 40, 8, 40, 60, 4];
        let storm: [u32; SORTS] = [40, 80, 160, 40, 90, 160, 160, 140, 60, 20, 50, 80, 70, 10];
        let greedy: [u32; SORTS] = [200, 60, 120, 20, 30, 100, 100, 100, 60, 40, 10, 40, 60, 4];
        let flood: [u32; SORTS] = [60, 200, 140, 30, 50, 200, 200, 160, 50, 30, 20, 50, 0, 0];
        let losses: [u32; SORTS] = [60, 120, 120, 40, 60, 160, 160, 140, 50, 30, 20, 50, 60, 80];
        let (weights, flood, restless) = match random.below(100) {
            0..40 => (calm, false, false),
            40..65 => (storm, false, true),
            65..78 => (greedy, false, false),
            78..88 => (flood, true, random.chance(500)),
            _ => (losses, false, random.chance(500)),
        };
        // Some sorts come much less or more often for a while, so that things happen in many orders.
        let weights = weights.map(|weight| match random.below(8) {
            0 => weight / 6,
            1 => weight * 3,
            _ => weight,
        });
        Mood { weights, flood, restless }
    }
}

/// Chooses the steps of one script.
pub struct Maker {
    kind: KindName,
    pub random: Random,
    mood: Mood,
    mood_left: u16,
    /// The steps chosen so far, as long as they are few.
    chosen: u16,
    /// Of a thousand steps, those with any numbers, and those with numbers of the site but no sense.
    wild: u32,
    blind: u32,
    slips: Vec<Handed>,
}

impl Maker {
    pub fn new(kind: KindName, mut random: Random) -> Maker {
        let mood = Mood::random(&mut random);
        let (wild, blind) = (u32::from(random.from_to(40, 70)), u32::from(random.from_to(50, 80)));
        Maker { kind, random, mood, mood_left: 40, chosen: 0, wild, blind, slips: Vec::new() }
    }

    /// The next step, which is never a show.
    pub fn choose<K: Written>(&mut self, desk: &Desk<'_, K>) -> Step {
        if self.mood_left == 0 {
            self.mood = Mood::random(&mut self.random);
            self.mood_left = self.random.from_to(20, 80);
        }
        self.mood_left -= 1;
        self.chosen = self.chosen.saturating_add(1);
        if let Some(call) = self.early_call(desk) {
            return call;
        }
        if !desk.site.is_made() || self.random.chance(self.wild) {
            return self.any_step(desk, false);
        }
        if self.random.chance(self.blind) {
            return self.any_step(desk, true);
        }
        self.likely_step(desk)
    }

    /// Of the first steps, each second one tries another cell if that has no writes, as all of a strip of a wrong size.
    fn early_call<K: Written>(&self, desk: &Desk<'_, K>) -> Option<Step> {
        let i = self.chosen / 2;
        let due = self.chosen.is_multiple_of(2) && desk.site.is_made() && i < desk.site.n();
        (due && desk.cabinet.worn(i)).then_some(Step::Call { i })
    }

    /// Remembers slips, and which of them are closed.
    pub fn note(&mut self, step: &Step, outcome: &Outcome) {
        match (*step, outcome) {
            (_, Outcome::Slip(stamp)) => self.slips.push(Handed {
                count: stamp.view.count.get(),
                controller: stamp.view.controller.get(),
                place: stamp.place.get(),
                closed: false,
            }),
            (Step::Settle { count, controller, place, .. }, Outcome::Settled(Ending::Confirmed | Ending::Lost)) => {
                for slip in &mut self.slips {
                    if (slip.count, slip.controller, slip.place) == (count, controller, place) {
                        slip.closed = true;
                    }
                }
            }
            _ => {}
        }
    }

    /// A step that the site's state suggests.
    fn likely_step<K: Written>(&mut self, desk: &Desk<'_, K>) -> Step {
        let site = &desk.site;
        let records = &site.controllers()[..usize::from(site.n())];
        let messages = desk.messages();
        let pending = |sender: usize, addressee: usize, view: PlainView| {
            let (sender, addressee) = (sender as u16, addressee as u16);
            messages.iter().filter(move |m| (m.sender, m.addressee, m.view) == (sender, addressee, view))
        };
        let mut found: [Vec<Step>; SORTS] = Default::default();
        let mut add = |sort: Sort, step: Step| found[sort as usize].push(step);

        for (i, record) in records.iter().enumerate() {
            let number = i as u16;
            let others = || records.iter().enumerate().filter(move |(b, _)| *b != i);
            if !record.is_up() {
                add(Sort::Recover, Step::Recover { i: number });
                continue;
            }
            // Where too few books are left no view can be formed any more; that is made to happen seldom.
            let often = if record.complete { 1_000 } else { 300 };
            if self.random.chance(if stays_alive(desk, number) { often } else { 10 }) {
                add(Sort::Crash, Step::Crash { i: number });
            }
            if !desk.cabinet.worn(number) || self.random.chance(100) {
                add(Sort::Call, Step::Call { i: number });
            }
            match &record.status {
                Status::Down => {}
                Status::Waiting => {
                    for (p, primary) in others() {
                        let open = primary.is_active_primary() && primary.current == record.promised;
                        let joins = primary.current > record.current && !desk.cabinet.worn(number);
                        let join = Step::Join { i: number, p: p as u16 };
                        if open && (joins || self.random.chance(30)) {
                            add(Sort::Join, join);
                        } else if primary.is_active() {
                            add(Sort::Miss, join);
                        }
                    }
                }
                Status::Manager(answers) => {
                    let allowed = choose(site.n(), answers).is_some();
                    add(if allowed { Sort::Form } else { Sort::Miss }, Step::Form { i: number });
                    for (b, other) in others() {
                        let invited = pending(i, b, record.promised.into()).next().is_some();
                        let useful = other.is_up() && other.promised < record.promised && !invited;
                        if useful || self.mood.flood {
                            add(Sort::Invite, Step::Invite { i: number, b: b as u16 });
                        }
                    }
                }
                Status::Active(lengths) => {
                    let (a, b) = random_question(self.kind, &mut self.random);
                    add(Sort::Lookup, Step::Lookup { i: number, a, b });
                    if lengths.is_none() {
                        if let Some(Handed { count, controller, place, .. }) = self.slips.last().copied() {
                            add(Sort::Miss, Step::Settle { i: number, count, controller, place });
                        }
                        continue;
                    }
                    if record.length < site.cap() || self.random.chance(150) {
                        let x = random_change(self.kind, &mut self.random);
                        add(Sort::Change, Step::Change { i: number, x });
                    }
                    for (b, other) in others() {
                        let k = match other {
                            Controller { status: Status::Active(_), current, length, .. }
                                if *current == record.current =>
                            {
                                length.saturating_add(1)
                            }
                            _ if self.mood.flood => self.random.from_to(1, record.length.max(1)),
                            _ => continue,
                        };
                        let passed = |m: &Message<K>| matches!(m.body, Body::Entry { place, .. } if place == k);
                        let passed = pending(i, b, record.current.into()).any(passed);
                        if k <= record.length && (!passed || self.mood.flood) {
                            add(Sort::Pass, Step::Pass { i: number, b: b as u16, k });
                        }
                    }
                    if let Some(slip) = pick_slip(&self.slips, record, &mut self.random) {
                        let Handed { count, controller, place, .. } = slip;
                        add(Sort::Settle, Step::Settle { i: number, count, controller, place });
                    }
                }
            }
        }
        for (j, message) in (0..).zip(messages) {
            let likely = match message.body {
                Body::Invitation => !desk.cabinet.worn(message.addressee),
                Body::Form => !desk.cabinet.worn(message.addressee) && records[usize::from(message.addressee)].complete,
                _ => true,
            };
            let unlikely = if matches!(message.body, Body::Form) { 300 } else { 60 };
            let good_for = use_of(records, message);
            if good_for == Use::Good && (likely || self.random.chance(unlikely)) {
                add(Sort::Deliver, Step::Deliver { j });
                add(Sort::Lose, Step::Lose { j });
            } else {
                for _ in 0..if good_for == Use::Near { 6 } else { 1 } {
                    add(Sort::Miss, Step::Deliver { j });
                }
                add(Sort::LoseStale, Step::Lose { j });
            }
            // A power cut between the choice of a primary and its opening.
            let chosen = matches!(message.body, Body::Form) && good_for == Use::Good && likely;
            if chosen && stays_alive(desk, message.addressee) {
                add(Sort::Crash, Step::Crash { i: message.addressee });
            }
        }

        let mut weights = self.mood.weights;
        let call = weights[Sort::Call as usize];
        weights[Sort::Call as usize] = match state_of(records) {
            Health::Working if self.mood.restless => call / 6,
            Health::Working => 3,
            Health::Limping => call / 4,
            Health::Changing => call / 8,
            Health::Stuck => call * 3,
        };
        let (count, room) = (usize::from(site.count()), site.room());
        if self.mood.flood && count == room {
            self.mood_left = self.mood_left.min(6);
        }
        let stale = &mut weights[Sort::LoseStale as usize];
        if count * 2 < room {
            *stale /= 4;
        } else if count + 1 >= room {
            *stale *= 6;
        }
        for (weight, steps) in weights.iter_mut().zip(&found) {
            if steps.is_empty() {
                *weight = 0;
            }
        }
        if weights.iter().all(|weight| *weight == 0) {
            return self.any_step(desk, true);
        }
        let sort = self.random.weighted(&weights);
        self.random.one_of(&found[sort])
    }

    /// A step of any sort: with numbers about the site's own, or with any numbers at all.
    fn any_step<K: Written>(&mut self, desk: &Desk<'_, K>, tame: bool) -> Step {
        let n = desk.site.n().clamp(3, 7);
        let cap = desk.site.cap();
        let count = desk.site.count();
        let controller = |random: &mut Random| match random.below(if tame { 60 } else { 100 }) {
            0..60 => random.below(usize::from(n)) as u16,
            60..75 => random.one_of(&[n - 1, n, n + 1, 6, 7]),
            75..90 => random.one_of(&[8, 255, 256, 257, 300, 16_384, 32_768, 65_535]),
            _ => random.from_to(0, 65_535),
        };
        let random = &mut self.random;
        let i = controller(random);
        let other = if random.chance(if tame { 30 } else { 250 }) { i } else { controller(random) };
        let message = match random.below(if tame { 60 } else { 100 }) {
            0..60 if count > 0 => random.below(usize::from(count)) as u16,
            60..80 => random.one_of(&[count, count.saturating_add(1), 4_095, 4_096]),
            _ => random.one_of(&[0, 1, 7, 300, 65_535]),
        };
        let place = match random.below(if tame { 60 } else { 100 }) {
            0..60 => random.from_to(0, 4),
            60..80 => random.one_of(&[0, cap, cap.saturating_add(1), 65_535]),
            _ => random.from_to(0, 65_535),
        };
        match random.below(13) {
            0 => Step::Change { i, x: random_change(self.kind, random) },
            1 => Step::Pass { i, b: other, k: place },
            2 => Step::Call { i },
            3 => Step::Invite { i, b: other },
            4 => Step::Form { i },
            5 | 6 => Step::Deliver { j: message },
            7 => Step::Join { i, p: other },
            8 => {
                let views = if tame { 3 } else { 16_384 };
                Step::Settle {
                    i,
                    count: random.one_of(&[0, 0, 1, 2, 3, views]),
                    controller: random.one_of(&[0, 1, 2, n - 1, if tame { 6 } else { 7 }]),
                    place,
                }
            }
            9 => {
                let (a, b) = match random.below(3) {
                    0 => (random.from_to(0, 65_535), random.from_to(0, 65_535)),
                    _ => random_question(self.kind, random),
                };
                Step::Lookup { i, a, b }
            }
            10 if tame => Step::Form { i },
            10 if i >= desk.site.n() || stays_alive(desk, i) => Step::Crash { i },
            10 | 11 => Step::Recover { i },
            _ if tame => Step::Deliver { j: message },
            _ => Step::Lose { j: message },
        }
    }
}

/// Whether a view could still be formed if controller i lost its book and then all answered.
fn stays_alive<K: Written>(desk: &Desk<'_, K>, i: u16) -> bool {
    let mut answers = [None; CELLS];
    for (c, record) in (0..desk.site.n()).zip(desk.site.controllers()) {
        answers[usize::from(c)] = Some(if record.complete && c != i {
            Answer::Normal { view: record.current, length: record.length, primary: record.primary.get() == c }
        } else {
            Answer::Crash { view: desk.cabinet.held(c).current() }
        });
    }
    choose(desk.site.n(), &answers).is_some()
}

/// What a delivery is good for.
#[derive(Clone, Copy, PartialEq, Eq)]
enum Use {
    /// It is likely to be taken, or at least to meet a question that is seldom asked.
    Good,
    /// All is right but the view.
    Near,
    Stale,
}

fn use_of<K>(records: &[Controller], message: &Message<K>) -> Use {
    let record = &records[usize::from(message.addressee)];
    let (view, sender) = (message.view, usize::from(message.sender));
    let (current, promised) = (PlainView::from(record.current), PlainView::from(record.promised));
    let (right, right_view) = match (&message.body, &record.status) {
        (_, Status::Down) => (false, false),
        (Body::Invitation, _) => (view > promised, true),
        (Body::Normal { .. } | Body::Crash { .. }, Status::Manager(answers)) => {
            (answers[sender].is_none(), view == promised)
        }
        (Body::Form, Status::Waiting) => (true, view == promised),
        (Body::Entry { place, .. }, Status::Active(_)) => (*place == record.length.saturating_add(1), view == current),
        (Body::Acknowledgement { length }, Status::Active(Some(lengths))) => {
            (lengths[sender] < Some(*length), view == current)
        }
        _ => (false, false),
    };
    match (right, right_view) {
        (true, true) => Use::Good,
        (true, false) => Use::Near,
        _ => Use::Stale,
    }
}

enum Health {
    /// All that are up take part in the latest view that anybody has promised, and they are a majority.
    Working,
    /// That view is open, but somebody is left out of it.
    Limping,
    /// It is not open, but it has a manager or a primary that was chosen.
    Changing,
    Stuck,
}

fn state_of(records: &[Controller]) -> Health {
    let up = || records.iter().filter(|record| record.is_up());
    let latest = up().map(|record| record.promised).max();
    let of_latest = || up().filter(|record| Some(record.promised) == latest);
    let takes_part = |record: &Controller| record.is_active() || record.current < record.promised;
    if of_latest().any(|record| record.is_active_primary()) {
        let parts = of_latest().filter(|record| takes_part(record)).count();
        if parts == up().count() && parts > records.len() / 2 { Health::Working } else { Health::Limping }
    } else if of_latest().any(|record| matches!(record.status, Status::Manager(_))) {
        Health::Changing
    } else {
        Health::Stuck
    }
}

/// A slip for the primary with this record: mostly one that is not closed and not of a later view.
fn pick_slip(slips: &[Handed], record: &Controller, random: &mut Random) -> Option<Handed> {
    let current = PlainView::from(record.current);
    let view = |slip: &Handed| PlainView { count: slip.count, controller: slip.controller };
    let open: Vec<Handed> = slips.iter().copied().filter(|slip| !slip.closed && view(slip) <= current).collect();
    let old: Vec<Handed> = open.iter().copied().filter(|slip| view(slip) < current).collect();
    let list = match random.below(10) {
        0..4 if !old.is_empty() => &old[..],
        0..8 if !open.is_empty() => &open[..],
        _ => slips,
    };
    if list.is_empty() { None } else { Some(random.one_of(list)) }
}

/// Few cards, doors and minutes, so that changes and questions often meet.
fn random_change(kind: KindName, random: &mut Random) -> [u16; 3] {
    match kind {
        KindName::Cards => {
            let card = if random.chance(950) { random.from_to(0, 5) } else { random.from_to(0, 65_535) };
            let doors = if random.chance(700) { random.from_to(0, 15) } else { random.from_to(0, 65_535) };
            [card, doors, u16::from(random.chance(600))]
        }
        KindName::Hours => {
            let door = if random.chance(950) { random.from_to(0, 5) } else { random.from_to(0, 65_535) };
            let opening = random_minute(random);
            let shutting = if random.chance(100) { opening } else { random_minute(random) };
            // Mostly the opening minute comes first.
            if random.chance(850) && shutting < opening { [door, shutting, opening] } else { [door, opening, shutting] }
        }
    }
}

fn random_question(kind: KindName, random: &mut Random) -> (u16, u16) {
    let first = random.from_to(0, 5);
    match kind {
        KindName::Cards if random.chance(850) => (first, random.from_to(0, 4)),
        KindName::Cards => (first, random.one_of(&[5, 14, 15, 16, 17, 31, 32, 255, 65_535])),
        KindName::Hours => {
            let minute = random_minute(random);
            (first, if random.chance(300) { minute.saturating_sub(1) } else { minute })
        }
    }
}

fn random_minute(random: &mut Random) -> u16 {
    if random.chance(970) { random.from_to(0, 24) * 60 } else { random.one_of(&[1, 1_439, 65_534, 65_535]) }
}

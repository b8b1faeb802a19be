//! The guarantee of section 14, held against random runs by brute force.

use std::collections::BTreeMap;

use peer::desk::{Desk, Ending, Outcome, Written, strip_bytes};
use peer::generate::{Maker, random_setup};
use peer::random::Random;
use peer::script::{KindName, Setup, Step};
use peer::*;

use crate::bench::{Bench, given, number, refused, view};

/// All of a run that the guarantee speaks of.
struct History<K> {
    changes: Vec<(Stamp, K)>,
    confirmed: Vec<Confirmed<K>>,
    lost: Vec<Stamp>,
    openings: Vec<(View, Vec<Entry<K>>)>,
    lookups: Vec<Looked<K>>,
}

struct Confirmed<K> {
    slip: Stamp,
    view: View,
    before: Vec<Entry<K>>,
}

struct Looked<K> {
    view: View,
    book: Vec<Entry<K>>,
    question: Question,
    light: Light,
}

impl<K: Kind + PartialEq + std::fmt::Debug> History<K> {
    fn new() -> History<K> {
        let openings = vec![(View::ZERO, Vec::new())];
        History { changes: Vec::new(), confirmed: Vec::new(), lost: Vec::new(), openings, lookups: Vec::new() }
    }

    fn confirm(&mut self, slip: Stamp, view: View, book: &[Entry<K>]) {
        let before = book[..usize::from(slip.place.get()) - 1].to_vec();
        self.confirmed.push(Confirmed { slip, view, before });
    }

    /// The entry of a slip, if exactly one change handed out its stamp.
    fn entry(&self, slip: Stamp) -> Result<Entry<K>, String> {
        let mut changes = self.changes.iter().filter(|(stamp, _)| *stamp == slip);
        match (changes.next(), changes.next()) {
            (Some((_, change)), None) => Ok(Entry { view: slip.view.into(), change: *change }),
            _ => Err(format!("not exactly one change handed out {slip:?}")),
        }
    }

    /// How many pairs of a confirmed slip and a later opening or lookup there are, or what is broken.
    fn check(&self) -> Result<usize, String> {
        let mut pairs = 0;
        for (k, (view, _)) in self.openings.iter().enumerate() {
            if self.openings[..k].iter().any(|(other, _)| other == view) {
                return Err(format!("{view:?} was opened twice"));
            }
        }
        let mut list = BTreeMap::new();
        for confirmed in &self.confirmed {
            let entry = self.entry(confirmed.slip)?;
            let place = usize::from(confirmed.slip.place.get());
            if *list.entry(place).or_insert(entry) != entry {
                return Err(format!("two confirmed entries at place {place}"));
            }
            let survives =
                |book: &[Entry<K>]| book.get(place - 1) == Some(&entry) && book.starts_with(&confirmed.before);
            for (view, book) in self.openings.iter().filter(|(view, _)| *view > confirmed.view) {
                pairs += 1;
                if !survives(book) {
                    return Err(format!("{:?} is not in the opening book of {view:?}", confirmed.slip));
                }
            }
            for looked in self.lookups.iter().filter(|looked| looked.view > confirmed.view) {
                pairs += 1;
                if !survives(&looked.book) {
                    return Err(format!("a lookup in {:?} did not see {:?}", looked.view, confirmed.slip));
                }
            }
        }
        for lost in &self.lost {
            let entry = list.get(&usize::from(lost.place.get()));
            if entry.is_some_and(|entry| entry.view == PlainView::from(lost.view)) {
                return Err(format!("{lost:?} is lost and confirmed"));
            }
        }
        for looked in &self.lookups {
            // Forward, and the last word counts: another way to the same answer.
            let words = looked.book.iter().filter_map(|entry| entry.change.says(looked.question));
            if words.last().unwrap_or(K::UNSETTLED) != looked.light {
                return Err(format!("a wrong answer to {:?}", looked.question));
            }
        }
        Ok(pairs)
    }
}

/// What must hold of the records and cells after every step.
fn check_records<K: Written>(desk: &Desk<'_, K>) {
    for (c, record) in (0..).zip(desk.site.controllers()) {
        if record.is_up() {
            let held = desk.cabinet.held(c);
            assert_eq!((held.current(), held.promised()), (record.current, record.promised));
            assert!(c < desk.site.n() && record.length <= desk.site.cap() && record.current <= record.promised);
        } else {
            assert_eq!(*record, Controller::DOWN);
        }
        if let Status::Active(lengths) = &record.status {
            assert_eq!(lengths.is_some(), record.primary.get() == c);
            assert!(lengths.is_none_or(|lengths| lengths[usize::from(c)] == Some(record.length)));
            assert!(record.complete && record.current == record.promised);
        }
    }
}

/// Every part that a refusal must leave as it was.
#[derive(PartialEq)]
struct State<K> {
    site: Site,
    books: Vec<Entry<K>>,
    pool: Vec<Message<K>>,
    cells: Vec<(CellRecord, u16)>,
}

fn state<K: Written>(desk: &Desk<'_, K>) -> State<K> {
    let cells = (0..8).map(|cell| (desk.cabinet.held(cell), desk.cabinet.left(cell))).collect();
    State { site: desk.site.clone(), books: desk.books.clone(), pool: desk.pool.clone(), cells }
}

fn explore<K: Written + PartialEq + std::fmt::Debug>(setup: &Setup, random: Random, steps: usize) -> (usize, usize) {
    let mut bytes = strip_bytes(setup);
    let (mut desk, _) = Desk::<K>::open(setup, &mut bytes);
    let mut maker = Maker::new(setup.kind, random);
    let mut history = History::new();
    let current = |desk: &Desk<'_, K>, i: u16| desk.site.controllers()[usize::from(i)].current;
    for _ in 0..steps {
        let step = maker.choose(&desk);
        let before = state(&desk);
        let outcome = desk.step(&step);
        maker.note(&step, &outcome);
        check_records(&desk);
        if matches!(outcome, Outcome::Refused(_) | Outcome::Settled(_) | Outcome::Looked(_)) {
            assert!(state(&desk) == before, "{step:?} changed something");
        }
        match (step, outcome) {
            (Step::Change { x, .. }, Outcome::Slip(stamp)) => history.changes.push((stamp, K::from_numbers(x))),
            (Step::Settle { i, count, controller, place }, Outcome::Settled(ending)) => {
                let slip = Stamp::new(count, controller, place).unwrap();
                match ending {
                    Ending::Confirmed => history.confirm(slip, current(&desk, i), desk.book(number(i))),
                    Ending::Lost => history.lost.push(slip),
                    Ending::Waiting => {}
                }
            }
            (Step::Deliver { j }, Outcome::Delivered(MessageKind::Form)) => {
                let addressee = desk.messages()[usize::from(j)].addressee;
                history.openings.push((current(&desk, addressee), desk.book(number(addressee)).to_vec()));
            }
            (Step::Lookup { i, a, b }, Outcome::Looked(light)) => history.lookups.push(Looked {
                view: current(&desk, i),
                book: desk.book(number(i)).to_vec(),
                question: Question { first: a, second: b },
                light,
            }),
            _ => {}
        }
    }
    (history.check().unwrap(), history.lost.len())
}

#[test]
fn random_runs_keep_it() {
    let (mut pairs, mut lost) = (0, 0);
    for seed in 10_000..10_200 {
        let mut random = Random::new(seed);
        let mut setup = random_setup(&mut random);
        // Large books make no difference here but cost time.
        setup.cap = setup.cap.min(100);
        setup.pool = setup.pool.min(200);
        let found = match setup.kind {
            KindName::Cards => explore::<CardChange>(&setup, random, 400),
            KindName::Hours => explore::<HoursChange>(&setup, random, 400),
        };
        pairs += found.0;
        lost += found.1;
    }
    assert!(pairs > 1_000 && lost > 20, "{pairs} pairs, {lost} lost");
}

/// No cabinet by the rules: it takes every record and forgets it.
struct Forgetful;

impl Cabinet for Forgetful {
    fn held(&self, _: u16) -> CellRecord {
        CellRecord::ZERO
    }

    fn worn(&self, _: u16) -> bool {
        false
    }

    fn put(&mut self, _: u16, _: CellRecord) -> Result<(), Worn> {
        Ok(())
    }
}

/// The first shortcut of section 15, up to where a cabinet by the rules stops it.
fn promise_and_crash<C: Cabinet>(cabinet: C) -> (Bench<C>, Result<MessageKind, Fault>) {
    let mut bench = Bench::with(3, 4, 32, cabinet);
    bench.change(0, given(1, 1)).unwrap();
    bench.pass(0, 2, 1).unwrap();
    bench.deliver_last().unwrap();
    bench.call(2).unwrap();
    bench.invite(2, 1).unwrap();
    bench.deliver_last().unwrap();
    bench.crash(1).unwrap();
    bench.recover(1).unwrap();
    bench.call(0).unwrap();
    bench.invite(0, 1).unwrap();
    let promised = bench.deliver_last();
    (bench, promised)
}

#[test]
fn a_promise_in_memory_only_breaks_it() {
    let (_, promised) = promise_and_crash(Tray::new([9; CELLS]));
    assert_eq!(refused(promised), 8);

    let (mut bench, promised) = promise_and_crash(Forgetful);
    promised.unwrap();
    let mut history = History::new();
    history.changes.push((Stamp::new(0, 0, 1).unwrap(), given(1, 1)));
    bench.deliver_last().unwrap();
    assert_eq!(bench.form(0).unwrap().rule, 3);
    bench.deliver_last().unwrap();
    history.openings.push((view(1, 0), bench.book(0)));
    bench.join(1, 0).unwrap();
    let slip = bench.change(0, given(2, 2)).unwrap();
    let stamp = Stamp::new(slip.0, slip.1, slip.2).unwrap();
    history.changes.push((stamp, given(2, 2)));
    bench.pass(0, 1, 2).unwrap();
    bench.deliver_last().unwrap();
    bench.deliver_last().unwrap();
    assert_eq!(bench.settle(0, slip), Ok("confirmed"));
    history.confirm(stamp, view(1, 0), &bench.book(0));
    assert_eq!(history.check(), Ok(0));
    // The old answer of controller 1 is the message after the entry, its acknowledgement and the invitation.
    assert_eq!(bench.deliver(3), Ok(MessageKind::Normal));
    assert_eq!(bench.form(2), Ok(Choice { rule: 1, chosen: number(2) }));
    bench.deliver_last().unwrap();
    history.openings.push((view(1, 2), bench.book(2)));
    assert!(history.check().is_err());
}

//! The peer's side: what each export of the static library does, done with `peer` in the same order.

use peer::{
    Body, Cabinet, CardChange, CellRecord, Entry, HoursChange, Kind, Lent, Light, Message, PlainView, Question,
    Settled, Site, Slip, Strip, Tray, View, lookup,
};

use crate::inputs::{Numbers, Pair, Tally};

/// Not inlined, as on the library's side: a door asks one question at a time.
#[inline(never)]
fn is_green<K: Kind>(book: &[Entry<K>], length: u16, question: Question) -> bool {
    book.get(..usize::from(length)).is_some_and(|used| lookup(used, question) == Light::Green)
}

fn greens<K: Kind>(book: &[Entry<K>], questions: &[Pair]) -> usize {
    let length = book.len().min(65_535) as u16;
    let question = |q: &Pair| Question { first: q.first, second: q.second };
    questions.iter().filter(|q| is_green(book, length, question(q))).count()
}

fn entries<K>(rows: &[Numbers], change: impl Fn([u16; 3]) -> K) -> Vec<Entry<K>> {
    let view = |row: &Numbers| PlainView { count: row.count, controller: row.controller };
    rows.iter().map(|row| Entry { view: view(row), change: change(row.change) }).collect()
}

#[inline(never)]
pub fn lookup_cards(rows: &[Numbers], questions: &[Pair]) -> usize {
    let book = entries(rows, |[card, doors, given]| CardChange { card, doors, given: given != 0 });
    greens(&book, questions)
}

#[inline(never)]
pub fn lookup_hours(rows: &[Numbers], questions: &[Pair]) -> usize {
    let book = entries(rows, |[door, opening, shutting]| HoursChange { door, opening, shutting });
    greens(&book, questions)
}

fn record(count: u16) -> CellRecord {
    View::new(count, 1).and_then(|view| CellRecord::new(view, view)).unwrap_or(CellRecord::ZERO)
}

fn put_all<C: Cabinet>(cabinet: &mut C, puts: &[Pair]) -> u64 {
    puts.iter().map(|put| u64::from(cabinet.put(put.first, record(put.second)).is_ok())).sum()
}

fn read_all<C: Cabinet>(cabinet: &C, cells: &[u16]) -> u64 {
    cells.iter().map(|cell| u64::from(cabinet.held(*cell).promised().count.get())).sum()
}

#[inline(never)]
pub fn tray(puts: &[Pair], cells: &[u16]) -> u64 {
    let mut tray = Tray::new([65_535; 7]);
    put_all(&mut tray, puts) + read_all(&tray, cells)
}

#[inline(never)]
pub fn strip(bytes: &mut [u8], puts: &[Pair], cells: &[u16]) -> u64 {
    let mut strip = Strip::new(bytes);
    put_all(&mut strip, puts) + read_all(&strip, cells)
}

fn given(card: u16) -> CardChange {
    CardChange { card, doors: 9, given: true }
}

type Memory<'a> = Lent<'a, CardChange, Tray>;

/// The messages from this one on are delivered, as many as there are now.
fn deliver(site: &mut Site, lent: &mut Memory, from: u16) -> u32 {
    (from..site.count()).map(|j| u32::from(site.deliver(j, lent).is_ok())).sum()
}

fn empty(site: &mut Site, lent: &mut Memory) {
    for _ in 0..site.count() {
        let _ = site.lose(0, lent);
    }
}

fn keep(site: &mut Site, lent: &mut Memory, card: u16) {
    let _ = site.change(0, given(card), lent).map(Slip::set_aside);
}

fn confirm(site: &mut Site, lent: &mut Memory, card: u16) -> u32 {
    let Ok(slip) = site.change(0, given(card), lent) else { return 0 };
    let place = slip.stamp().place.get();
    for b in 1..site.n() {
        let _ = site.pass(0, b, place, lent);
    }
    let passed = site.count();
    let taken = deliver(site, lent, 0) + deliver(site, lent, passed);
    let confirmed = site.settle(0, slip, lent) == Ok(Settled::Confirmed);
    empty(site, lent);
    taken + u32::from(confirmed)
}

fn change_view(site: &mut Site, lent: &mut Memory) -> u32 {
    let _ = site.call(1, lent);
    for b in 0..site.n() {
        let _ = site.invite(1, b, lent);
    }
    let invited = site.count();
    let mut taken = deliver(site, lent, 0);
    let answered = site.count();
    taken += deliver(site, lent, invited);
    if let Ok(choice) = site.form(1, lent) {
        taken += deliver(site, lent, answered);
        let opened = site.count();
        for i in 0..site.n() {
            let _ = site.join(i, choice.chosen.get(), lent);
        }
        taken += deliver(site, lent, opened);
    }
    empty(site, lent);
    taken
}

fn summed(site: &Site, taken: u32) -> Tally {
    let lengths = site.controllers().iter().map(|row| u32::from(row.length)).sum();
    let views = site.controllers().iter().map(|row| u32::from(row.current.count.get())).sum();
    Tally { taken, lengths, views }
}

/// A new site of n controllers on memory of its own, with what is played on it.
fn on_new_site(n: u16, cap: u16, play: impl FnOnce(&mut Site, &mut Memory) -> u32) -> Tally {
    let blank = Entry { view: PlainView::default(), change: given(0) };
    let nothing = Message { sender: 0, addressee: 0, view: PlainView::default(), body: Body::Invitation };
    let mut books = vec![blank; usize::from(n) * usize::from(cap)];
    let mut pool = [nothing; 64];
    let mut tray = Tray::new([65_535; 7]);
    let mut lent = Lent { books: &mut books, pool: &mut pool, cabinet: &mut tray };
    let mut site = Site::new();
    let _ = site.make(n, cap, &lent);
    let taken = play(&mut site, &mut lent);
    summed(&site, taken)
}

#[inline(never)]
pub fn changes(n: u16, cap: u16, rounds: u16) -> Tally {
    on_new_site(n, cap, |site, lent| (0..rounds).map(|card| confirm(site, lent, card)).sum())
}

#[inline(never)]
pub fn view_changes(n: u16, cap: u16, changes: u16, rounds: u16) -> Tally {
    on_new_site(n, cap, |site, lent| {
        (0..changes).for_each(|card| keep(site, lent, card));
        (0..rounds).map(|_| change_view(site, lent)).sum()
    })
}

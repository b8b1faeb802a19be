//! The benchmark: each row is some work of the library and the same work of the peer, timed in turn. With the word
//! `table` it makes one table of the rows of several runs.

mod inputs;
mod library;
mod peer_side;
mod table;
mod timing;

use std::hint::black_box;

use inputs::{Numbers, Pair, Tally};
use timing::{Times, alone, in_turn, timed};

fn main() {
    if std::env::args().nth(1).is_some_and(|word| word == "table") {
        return table::print(&std::io::read_to_string(std::io::stdin()).expect("the rows can't be read"));
    }
    lookups();
    changes();
    view_changes();
    cabinets();
}

/// A number below a million, with a comma before the last three digits.
fn with_comma(number: usize) -> String {
    if number < 1_000 { number.to_string() } else { format!("{},{:03}", number / 1_000, number % 1_000) }
}

/// A row: the work, and the times of both sides in nanoseconds.
fn show(name: &str, times: &Times) {
    println!("{name}\t{}\t{}", times.library, times.peer);
}

/// A call with all its work, less the same call with none of it: what is made before is not counted.
fn less<R>(mut call: impl FnMut(bool) -> R) -> impl FnMut() -> (f64, R) {
    move || {
        let (none, _) = timed(|| call(false));
        let (all, result) = timed(|| call(true));
        (all - none, result)
    }
}

type Lookup = fn(&[Numbers], &[Pair]) -> usize;

fn lookups() {
    let kinds: [(&str, Lookup, Lookup); 2] = [
        ("cards", library::lookup_cards, peer_side::lookup_cards),
        ("hours", library::lookup_hours, peer_side::lookup_hours),
    ];
    let mut long = Vec::new();
    for (kind, library, peer) in kinds {
        for length in [1, 64, 4_096, 65_535] {
            let book = inputs::book(length, kind == "cards");
            let none = inputs::unsettled((32_000_000 / length).clamp(500, 500_000));
            let name = format!("lookup in {} {kind}, nothing settles", with_comma(length));
            show(&name, &look_up(&name, &book, &none, library, peer));
            if length > 1_000 {
                long.push((name, length));
            }
            let last = inputs::settled(500_000);
            let name = format!("lookup in {} {kind}, the last settles", with_comma(length));
            show(&name, &look_up(&name, &book, &last, library, peer));
        }
    }
    for (name, length) in long {
        show_sum(&name, 10 * length);
    }
}

fn look_up(name: &str, book: &[Numbers], questions: &[Pair], library: Lookup, peer: Lookup) -> Times {
    let side = |lookup: Lookup| {
        less(move |all| lookup(black_box(book), black_box(if all { questions } else { &questions[..0] })))
    };
    in_turn(name, questions.len(), side(library), side(peer))
}

/// A row of a plain sum over memory of so many bytes: the bytes, and the time.
fn show_sum(name: &str, bytes: usize) {
    let words: Vec<u64> = (0..bytes as u64 / 8).collect();
    let sums = 500;
    let sum = |words: &[u64]| words.iter().fold(0u64, |sum, word| sum.wrapping_add(*word));
    let limit = alone(sums, || {
        timed(|| {
            for _ in 0..sums {
                black_box(sum(black_box(&words)));
            }
        })
        .0
    });
    println!("{name}\t{bytes}\t{limit}\tsum");
}

fn changes() {
    let rounds = 10_000;
    for n in [3, 5, 7] {
        let name = format!("a change confirmed, n = {n}");
        let side = |call: fn(u16, u16, u16) -> Tally| {
            less(move |all| call(black_box(n), rounds, if all { rounds } else { 0 }))
        };
        show(&name, &in_turn(&name, rounds.into(), side(library::changes), side(peer_side::changes)));
    }
}

fn view_changes() {
    for (cap, kept, rounds) in [(1, 0, 10_000), (65_535, 65_535, 50)] {
        for n in [3, 5, 7] {
            let name = format!("a view change, n = {n}, books of {}", with_comma(kept.into()));
            let side = |call: fn(u16, u16, u16, u16) -> Tally| {
                less(move |all| call(black_box(n), cap, kept, if all { rounds } else { 0 }))
            };
            show(&name, &in_turn(&name, rounds.into(), side(library::view_changes), side(peer_side::view_changes)));
        }
    }
}

type OnTray = fn(&[Pair], &[u16]) -> u64;
type OnStrip = fn(&mut [u8], &[Pair], &[u16]) -> u64;

fn cabinets() {
    let (puts, cells) = (&inputs::puts(140_000)[..], &inputs::cells(140_000)[..]);
    let name = "a put, tray";
    let side = |call: OnTray| less(move |all| call(black_box(if all { puts } else { &[] }), &[]));
    show(name, &in_turn(name, puts.len(), side(library::tray), side(peer_side::tray)));
    let name = "a held, tray";
    let side = |call: OnTray| less(move |all| call(&puts[..7], black_box(if all { cells } else { &[] })));
    show(name, &in_turn(name, cells.len(), side(library::tray), side(peer_side::tray)));

    let (puts, cells) = (&inputs::puts(7)[..], &inputs::cells(7)[..]);
    let (name, strips) = ("a strip of 56 bytes made, 7 puts and 7 helds", 10_000);
    let side = |call: OnStrip| move || small_strips(call, strips, puts, cells);
    show(name, &in_turn(name, strips, side(library::strip), side(peer_side::strip)));

    let puts = &inputs::puts(7_168)[..];
    let (half, cells) = (&puts[..3_584], &inputs::cells(140_000)[..]);
    let name = "a strip of 57,344 bytes made, half full";
    let side = |call: OnStrip| move || on_strip(call, half, &[], &[]);
    show(name, &in_turn(name, 1, side(library::strip), side(peer_side::strip)));
    let name = "a put, strip of 57,344 bytes";
    let side = |call: OnStrip| move || less_made(call, &[], puts, &[]);
    show(name, &in_turn(name, puts.len(), side(library::strip), side(peer_side::strip)));
    let name = "a held, strip of 57,344 bytes, half full";
    let side = |call: OnStrip| move || less_made(call, half, &[], cells);
    show(name, &in_turn(name, cells.len(), side(library::strip), side(peer_side::strip)));
}

/// What bytes add up to, each at its place.
fn folded(bytes: &[u8], sum: u64) -> u64 {
    bytes.iter().fold(sum, |sum, byte| sum.wrapping_mul(31).wrapping_add(u64::from(*byte)))
}

/// Empty strips of 56 bytes, each filled and read. The memory is made empty, and compared, outside of what is timed.
fn small_strips(call: OnStrip, strips: usize, puts: &[Pair], cells: &[u16]) -> (f64, u64) {
    let mut bytes = vec![0; 56 * strips];
    let fill = |bytes: &mut [u8]| -> u64 {
        bytes.chunks_exact_mut(56).map(|strip| call(strip, black_box(puts), black_box(cells))).sum()
    };
    let (time, sum) = timed(|| fill(black_box(&mut bytes)));
    (time, folded(&bytes, sum))
}

/// Puts and reads on a strip of 57,344 bytes that others were put on before. What comes before, and the comparison of
/// the memory, is outside of what is timed.
fn on_strip(call: OnStrip, before: &[Pair], puts: &[Pair], cells: &[u16]) -> (f64, u64) {
    let mut bytes = vec![0; 57_344];
    call(&mut bytes, before, &[]);
    let (time, sum) = timed(|| call(black_box(&mut bytes), black_box(puts), black_box(cells)));
    (time, folded(&bytes, sum))
}

/// The same, less the making of the strip.
fn less_made(call: OnStrip, before: &[Pair], puts: &[Pair], cells: &[u16]) -> (f64, u64) {
    let (made, _) = on_strip(call, before, &[], &[]);
    let (all, sum) = on_strip(call, before, puts, cells);
    (all - made, sum)
}

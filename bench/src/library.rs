//! The library's side: the exports of the static library `site_c`.

use crate::inputs::{Numbers, Pair, Tally};

unsafe extern "C" {
    fn site_c_lookup_cards(rows: *const Numbers, length: usize, questions: *const Pair, count: usize) -> usize;
    fn site_c_lookup_hours(rows: *const Numbers, length: usize, questions: *const Pair, count: usize) -> usize;
    fn site_c_tray(puts: *const Pair, count: usize, cells: *const u16, reads: usize) -> u64;
    fn site_c_strip(
        bytes: *mut u8,
        length: usize,
        puts: *const Pair,
        count: usize,
        cells: *const u16,
        reads: usize,
    ) -> u64;
    fn site_c_changes(n: u16, cap: u16, rounds: u16) -> Tally;
    fn site_c_view_changes(n: u16, cap: u16, changes: u16, rounds: u16) -> Tally;
}

// The exports require nothing but that slices are what their pointers and lengths say.

pub fn lookup_cards(rows: &[Numbers], questions: &[Pair]) -> usize {
    unsafe { site_c_lookup_cards(rows.as_ptr(), rows.len(), questions.as_ptr(), questions.len()) }
}

pub fn lookup_hours(rows: &[Numbers], questions: &[Pair]) -> usize {
    unsafe { site_c_lookup_hours(rows.as_ptr(), rows.len(), questions.as_ptr(), questions.len()) }
}

pub fn tray(puts: &[Pair], cells: &[u16]) -> u64 {
    unsafe { site_c_tray(puts.as_ptr(), puts.len(), cells.as_ptr(), cells.len()) }
}

pub fn strip(bytes: &mut [u8], puts: &[Pair], cells: &[u16]) -> u64 {
    let (at, length) = (bytes.as_mut_ptr(), bytes.len());
    unsafe { site_c_strip(at, length, puts.as_ptr(), puts.len(), cells.as_ptr(), cells.len()) }
}

pub fn changes(n: u16, cap: u16, rounds: u16) -> Tally {
    unsafe { site_c_changes(n, cap, rounds) }
}

pub fn view_changes(n: u16, cap: u16, changes: u16, rounds: u16) -> Tally {
    unsafe { site_c_view_changes(n, cap, changes, rounds) }
}

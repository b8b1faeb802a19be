//! What crosses to both sides: entries and questions as numbers, and what rounds come to.

/// An entry as five numbers: its view's two, and its change's three.
#[repr(C)]
#[derive(Clone, Copy)]
pub struct Numbers {
    pub count: u16,
    pub controller: u16,
    pub change: [u16; 3],
}

/// A question as two numbers, or a put: the cell, and the count of the view that is put.
#[repr(C)]
#[derive(Clone, Copy)]
pub struct Pair {
    pub first: u16,
    pub second: u16,
}

/// What rounds of steps come to: the messages that were taken and the slips that were confirmed, and over all
/// controllers the lengths and the views' counts.
#[repr(C)]
#[derive(Clone, Copy, PartialEq, Eq, Debug)]
pub struct Tally {
    pub taken: u32,
    pub lengths: u32,
    pub views: u32,
}

/// Cards, or doors, from this number on are in no book but as the last entry.
const ABSENT: u16 = 40_000;

/// A book of so many entries. The last one, and no other, is of the number `ABSENT`, at all 16 doors or all day.
pub fn book(length: usize, cards: bool) -> Vec<Numbers> {
    let change = |k: usize| {
        let number = if k + 1 == length { ABSENT } else { (k % 30_000) as u16 };
        if cards { [number, 0xffff, (k % 2) as u16] } else { [number, 0, 1_440] }
    };
    (0..length).map(|k| Numbers { count: (k / 100) as u16, controller: (k % 7) as u16, change: change(k) }).collect()
}

/// Questions that no entry settles.
pub fn unsettled(count: usize) -> Vec<Pair> {
    (0..count).map(|k| Pair { first: ABSENT + 1 + (k % 1_000) as u16, second: (k % 16) as u16 }).collect()
}

/// Questions that the last entry settles.
pub fn settled(count: usize) -> Vec<Pair> {
    (0..count).map(|k| Pair { first: ABSENT, second: (k % 16) as u16 }).collect()
}

/// So many puts, into the seven cells in turn.
pub fn puts(count: usize) -> Vec<Pair> {
    (0..count).map(|k| Pair { first: (k % 7) as u16, second: (k % 16_000) as u16 }).collect()
}

/// So many cells, the seven in turn.
pub fn cells(count: usize) -> Vec<u16> {
    (0..count).map(|k| (k % 7) as u16).collect()
}

//! Cabinets: seven cells that keep two views each through a power cut, as a tray or as a strip of bytes.

use crate::numbers::{CELLS, CellRecord, View};
use crate::refusal::Refusal;

/// The refusal of a put: this cell has no writes left.
#[derive(Clone, Copy, PartialEq, Eq, Hash, Debug)]
pub struct Worn {
    pub cell: u16,
}

/// What the steps use of a cabinet. A cell of 7 or more reads as twice (0, 0) and is worn.
pub trait Cabinet {
    /// The cell's record.
    fn held(&self, cell: u16) -> CellRecord;

    /// Whether the cell has no writes left.
    fn worn(&self, cell: u16) -> bool;

    /// Refused exactly if the cell is worn. Otherwise the cell holds the record and has one write fewer.
    fn put(&mut self, cell: u16, record: CellRecord) -> Result<(), Worn>;
}

/// Records in battery memory.
#[derive(Clone, PartialEq, Eq, Debug)]
pub struct Tray {
    records: [CellRecord; CELLS],
    left: [u16; CELLS],
}

impl Tray {
    /// A tray with these writes left in its cells.
    pub fn new(left: [u16; CELLS]) -> Tray {
        Tray { records: [CellRecord::ZERO; CELLS], left }
    }

    /// The writes left of a cell.
    pub fn left(&self, cell: u16) -> u16 {
        self.left.get(usize::from(cell)).copied().unwrap_or(0)
    }
}

impl Cabinet for Tray {
    #[inline]
    fn held(&self, cell: u16) -> CellRecord {
        self.records.get(usize::from(cell)).copied().unwrap_or(CellRecord::ZERO)
    }

    #[inline]
    fn worn(&self, cell: u16) -> bool {
        self.left(cell) == 0
    }

    #[inline]
    fn put(&mut self, cell: u16, record: CellRecord) -> Result<(), Worn> {
        if self.worn(cell) {
            return Err(Worn { cell });
        }
        self.records[usize::from(cell)] = record;
        self.left[usize::from(cell)] -= 1;
        Ok(())
    }
}

/// The bytes of a slot.
const SLOT: usize = 8;
/// The bytes of one slot in each part: the number of bytes is a multiple of it.
const ROUND: usize = CELLS * SLOT;
/// The most bytes of a strip.
const MOST: usize = 1_024 * ROUND;

/// Records in lent bytes: seven parts of slots, filled from the front.
///
/// The bytes are checked once, when the strip is made. While it lives nobody else can change them, so the
/// number of filled slots of each part is counted then and kept.
#[derive(Debug)]
pub struct Strip<'a> {
    /// All slots, part by part; none if the bytes are not in form, so that every cell is worn and empty.
    slots: &'a mut [[u8; SLOT]],
    /// The slots of one part.
    part: u16,
    filled: [u16; CELLS],
}

impl<'a> Strip<'a> {
    /// A strip of any bytes.
    pub fn new(bytes: &'a mut [u8]) -> Strip<'a> {
        let Some(filled) = count_filled(bytes) else {
            return Strip { slots: &mut [], part: 0, filled: [0; CELLS] };
        };
        let (slots, _) = bytes.as_chunks_mut();
        let part = (slots.len() / CELLS) as u16;
        Strip { slots, part, filled }
    }

    /// Whether the bytes are in form; if not, 17.
    pub fn check(bytes: &[u8]) -> Result<(), Refusal> {
        count_filled(bytes).map(|_| ()).ok_or(Refusal::BadForm)
    }

    /// The writes left of a cell.
    #[inline]
    pub fn left(&self, cell: u16) -> u16 {
        self.filled.get(usize::from(cell)).map_or(0, |filled| self.part - filled)
    }

    /// Slot k of a cell, counted from 0, as an index of all slots.
    #[inline]
    fn index(&self, cell: u16, k: u16) -> usize {
        usize::from(cell) * usize::from(self.part) + usize::from(k)
    }
}

impl Cabinet for Strip<'_> {
    #[inline]
    fn held(&self, cell: u16) -> CellRecord {
        match self.filled.get(usize::from(cell)) {
            None | Some(0) => CellRecord::ZERO,
            Some(filled) => read_slot(&self.slots[self.index(cell, filled - 1)]).unwrap_or(CellRecord::ZERO),
        }
    }

    #[inline]
    fn worn(&self, cell: u16) -> bool {
        self.left(cell) == 0
    }

    #[inline]
    fn put(&mut self, cell: u16, record: CellRecord) -> Result<(), Worn> {
        if self.worn(cell) {
            return Err(Worn { cell });
        }
        let filled = self.filled[usize::from(cell)];
        self.slots[self.index(cell, filled)] = write_slot(record);
        self.filled[usize::from(cell)] = filled + 1;
        Ok(())
    }
}

/// The filled slots of each part, or none if the bytes are not in form.
fn count_filled(bytes: &[u8]) -> Option<[u16; CELLS]> {
    if bytes.is_empty() || bytes.len() > MOST || !bytes.len().is_multiple_of(ROUND) {
        return None;
    }
    let (slots, _) = bytes.as_chunks::<SLOT>();
    let mut filled = [0; CELLS];
    for (part, count) in slots.chunks_exact(slots.len() / CELLS).zip(&mut filled) {
        let first_empty = part.iter().position(|slot| slot[0] == 0).unwrap_or(part.len());
        let (before, after) = part.split_at(first_empty);
        if before.iter().any(|slot| read_slot(slot).is_none()) || after.iter().any(|slot| slot[0] != 0) {
            return None;
        }
        *count = first_empty as u16;
    }
    Some(filled)
}

/// The record of a filled slot, or none if the slot is empty or its numbers are those of no record.
#[inline]
fn read_slot(slot: &[u8; SLOT]) -> Option<CellRecord> {
    let &[1, a, b, current, c, d, promised, 0] = slot else { return None };
    let current = View::new(u16::from_be_bytes([a, b]), u16::from(current)).ok()?;
    let promised = View::new(u16::from_be_bytes([c, d]), u16::from(promised)).ok()?;
    CellRecord::new(current, promised).ok()
}

#[inline]
fn write_slot(record: CellRecord) -> [u8; SLOT] {
    let (current, promised) = (record.current(), record.promised());
    let [a, b] = current.count.get().to_be_bytes();
    let [c, d] = promised.count.get().to_be_bytes();
    [1, a, b, current.controller.get() as u8, c, d, promised.controller.get() as u8, 0]
}

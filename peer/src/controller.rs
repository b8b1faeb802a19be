//! Controller records: what a controller knows while it is up, and loses when it goes down.

use crate::numbers::{CELLS, ControllerNumber, View};

/// An answer to a view change. Its view is the current view of the controller that gave it.
#[derive(Clone, Copy, PartialEq, Eq, Hash, Debug)]
pub enum Answer {
    /// Promised, and the book is complete.
    Normal { view: View, length: u16, primary: bool },
    /// Promised, and the book was lost.
    Crash { view: View },
}

/// For each controller the length that it has acknowledged, or none.
pub type Lengths = [Option<u16>; CELLS];

/// For each controller its answer, or none.
pub type Answers = [Option<Answer>; CELLS];

/// The status, with the lengths and answers that go with it.
#[derive(Clone, Copy, PartialEq, Eq, Debug)]
pub enum Status {
    /// In a view, at work; with lengths exactly if the controller is itself the primary.
    Active(Option<Lengths>),
    /// Gathers answers to the view change that it called.
    Manager(Answers),
    /// Waits to enter a view.
    Waiting,
    Down,
}

#[derive(Clone, Copy, PartialEq, Eq, Debug)]
pub struct Controller {
    pub status: Status,
    pub current: View,
    pub promised: View,
    /// Whether the book is complete.
    pub complete: bool,
    /// The length of the book.
    pub length: u16,
    /// The primary of the current view.
    pub primary: ControllerNumber,
}

impl Controller {
    pub const DOWN: Controller = Controller {
        status: Status::Down,
        current: View::ZERO,
        promised: View::ZERO,
        complete: false,
        length: 0,
        primary: ControllerNumber::ZERO,
    };

    pub fn is_up(&self) -> bool {
        !matches!(self.status, Status::Down)
    }

    pub fn is_active(&self) -> bool {
        matches!(self.status, Status::Active(_))
    }

    /// Whether this is the record of an active primary.
    pub fn is_active_primary(&self) -> bool {
        matches!(self.status, Status::Active(Some(_)))
    }

    /// The answer that controller i, whose record this is, gives to an invitation.
    pub(crate) fn answer(&self, i: ControllerNumber) -> Answer {
        if self.complete {
            Answer::Normal { view: self.current, length: self.length, primary: self.primary == i }
        } else {
            Answer::Crash { view: self.current }
        }
    }

    /// Makes the book one longer; a primary's own acknowledged length is always its length.
    pub(crate) fn grow(&mut self, i: ControllerNumber) {
        self.length += 1;
        if let Status::Active(Some(lengths)) = &mut self.status {
            lengths[i.index()] = Some(self.length);
        }
    }
}

/// The lengths of a primary that has just entered its view: its own and no other.
pub(crate) fn own_length(i: ControllerNumber, length: u16) -> Lengths {
    let mut lengths = [None; CELLS];
    lengths[i.index()] = Some(length);
    lengths
}

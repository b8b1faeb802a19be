//! Refusals: the seventeen questions, and the fault that says which of them ended a call, and where.

use crate::cabinet::Worn;

/// The questions, in the order in which every call asks them.
#[derive(Clone, Copy, PartialEq, Eq, PartialOrd, Ord, Hash, Debug)]
#[repr(u8)]
pub enum Refusal {
    NotMade = 1,
    NoSuchController,
    NoSuchMessage,
    BadMessage,
    WrongPower,
    WrongStatus,
    NotPrimary,
    WrongView,
    IncompleteBook,
    DoesNotFit,
    BookFull,
    NoRuleAllows,
    CountsSpent,
    PoolFull,
    CellWorn,
    CellsUsed,
    BadForm,
}

impl Refusal {
    /// The number of the question, 1 to 17.
    pub fn number(self) -> u16 {
        self as u16
    }
}

/// What a refused make or step hands back.
#[derive(Clone, Copy, PartialEq, Eq, Debug)]
pub enum Fault {
    /// Question 15: the cabinet's own refusal, and the controller whose cell it is.
    Worn { worn: Worn, controller: u16 },
    /// At deliver and lose: the message number as given.
    Message { refusal: Refusal, message: u16 },
    /// At all others: the acting controller as given, 0 at make.
    Controller { refusal: Refusal, controller: u16 },
}

impl Fault {
    pub fn refusal(&self) -> Refusal {
        match *self {
            Fault::Worn { .. } => Refusal::CellWorn,
            Fault::Message { refusal, .. } | Fault::Controller { refusal, .. } => refusal,
        }
    }
}

/// The first question answered with no, before it is known whom the fault names.
#[derive(Clone, Copy, PartialEq, Eq, Debug)]
pub(crate) enum No {
    Refused(Refusal),
    Worn { worn: Worn, controller: u16 },
}

impl From<Refusal> for No {
    fn from(refusal: Refusal) -> No {
        No::Refused(refusal)
    }
}

impl No {
    pub(crate) fn of_controller(self, controller: u16) -> Fault {
        match self {
            No::Refused(refusal) => Fault::Controller { refusal, controller },
            No::Worn { worn, controller } => Fault::Worn { worn, controller },
        }
    }

    pub(crate) fn of_message(self, message: u16) -> Fault {
        match self {
            No::Refused(refusal) => Fault::Message { refusal, message },
            No::Worn { worn, controller } => Fault::Worn { worn, controller },
        }
    }
}

/// Asks one question: yes goes on, no ends the call.
#[inline]
pub(crate) fn ask(yes: bool, refusal: Refusal) -> Result<(), No> {
    if yes { Ok(()) } else { Err(No::Refused(refusal)) }
}

//! Numbers with ranges: each sort of number is a type of its own, checked where it is made.

use crate::refusal::Refusal;

/// The cells of a cabinet, and the controller records of a site.
pub const CELLS: usize = 7;

/// How many of n controllers are a majority.
pub fn majority(n: u16) -> u16 {
    n / 2 + 1
}

macro_rules! ranged {
    ($(#[$about:meta])* $name:ident, $low:expr, $high:expr) => {
        $(#[$about])*
        #[derive(Clone, Copy, PartialEq, Eq, PartialOrd, Ord, Hash, Debug)]
        pub struct $name(u16);

        impl $name {
            /// Out of range is refused with 17.
            pub fn new(number: u16) -> Result<$name, Refusal> {
                if ($low..=$high).contains(&number) { Ok($name(number)) } else { Err(Refusal::BadForm) }
            }

            pub fn get(self) -> u16 {
                self.0
            }
        }
    };
}

ranged!(
    /// A position in a book, 1 to 65,535.
    Place, 1, 65_535
);
ranged!(
    /// The count of a view, 0 to 16,383.
    ViewCount, 0, 16_383
);
ranged!(
    /// A controller, 0 to 6.
    ControllerNumber, 0, 6
);

impl ViewCount {
    /// The count one higher, or none after the last.
    pub fn next(self) -> Option<ViewCount> {
        ViewCount::new(self.0 + 1).ok()
    }
}

impl ControllerNumber {
    pub const ZERO: ControllerNumber = ControllerNumber(0);

    pub fn index(self) -> usize {
        usize::from(self.0)
    }
}

/// A view: the count decides which is earlier, and the controller where the counts are equal.
#[derive(Clone, Copy, PartialEq, Eq, PartialOrd, Ord, Hash, Debug)]
pub struct View {
    pub count: ViewCount,
    pub controller: ControllerNumber,
}

impl View {
    /// The view (0, 0).
    pub const ZERO: View = View { count: ViewCount(0), controller: ControllerNumber(0) };

    pub fn new(count: u16, controller: u16) -> Result<View, Refusal> {
        Ok(View { count: ViewCount::new(count)?, controller: ControllerNumber::new(controller)? })
    }
}

/// A view as lent memory keeps it, with any numbers.
#[derive(Clone, Copy, PartialEq, Eq, PartialOrd, Ord, Hash, Debug, Default)]
pub struct PlainView {
    pub count: u16,
    pub controller: u16,
}

impl From<View> for PlainView {
    fn from(view: View) -> PlainView {
        PlainView { count: view.count.get(), controller: view.controller.get() }
    }
}

/// A view and a place.
#[derive(Clone, Copy, PartialEq, Eq, PartialOrd, Ord, Hash, Debug)]
pub struct Stamp {
    pub view: View,
    pub place: Place,
}

impl Stamp {
    pub fn new(count: u16, controller: u16, place: u16) -> Result<Stamp, Refusal> {
        Ok(Stamp { view: View::new(count, controller)?, place: Place::new(place)? })
    }
}

/// Two views of a controller, of which current is not later than promised.
#[derive(Clone, Copy, PartialEq, Eq, Hash, Debug)]
pub struct CellRecord {
    current: View,
    promised: View,
}

impl CellRecord {
    /// Twice the view (0, 0).
    pub const ZERO: CellRecord = CellRecord { current: View::ZERO, promised: View::ZERO };

    /// A current view later than the promised one is refused with 17.
    pub fn new(current: View, promised: View) -> Result<CellRecord, Refusal> {
        if current <= promised { Ok(CellRecord { current, promised }) } else { Err(Refusal::BadForm) }
    }

    pub fn current(self) -> View {
        self.current
    }

    pub fn promised(self) -> View {
        self.promised
    }
}

/// The token of a taken change. It can't be copied, and whoever gets one has to spend it.
#[must_use = "a slip has to be settled or set aside"]
#[derive(PartialEq, Eq, Debug)]
pub struct Slip(Stamp);

impl Slip {
    pub(crate) fn of(stamp: Stamp) -> Slip {
        Slip(stamp)
    }

    /// Takes a slip up from its numbers. Out of range is refused with 17.
    pub fn take_up(count: u16, controller: u16, place: u16) -> Result<Slip, Refusal> {
        Ok(Slip(Stamp::new(count, controller, place)?))
    }

    pub fn stamp(&self) -> Stamp {
        self.0
    }

    /// Spends the slip and gives its numbers: view count, controller, place.
    pub fn set_aside(self) -> (u16, u16, u16) {
        let Stamp { view, place } = self.0;
        (view.count.get(), view.controller.get(), place.get())
    }
}

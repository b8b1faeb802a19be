//! Entries: changes of one kind with the views they were taken in, and the lookup over a list of them.

use crate::numbers::PlainView;

/// What a change or a lookup says.
#[derive(Clone, Copy, PartialEq, Eq, Hash, Debug)]
pub enum Light {
    Green,
    Red,
}

/// Two numbers; what they mean is the kind's affair.
#[derive(Clone, Copy, PartialEq, Eq, Hash, Debug, Default)]
pub struct Question {
    pub first: u16,
    pub second: u16,
}

/// A kind of change: what one change says to a question, and the answer where none says anything.
pub trait Kind: Copy {
    const UNSETTLED: Light;

    fn says(&self, question: Question) -> Option<Light>;
}

/// A card given or withdrawn at a set of doors. The question is (card, door).
#[derive(Clone, Copy, PartialEq, Eq, Hash, Debug, Default)]
pub struct CardChange {
    pub card: u16,
    /// Bit d is door d.
    pub doors: u16,
    pub given: bool,
}

impl Kind for CardChange {
    const UNSETTLED: Light = Light::Red;

    #[inline]
    fn says(&self, question: Question) -> Option<Light> {
        let door = question.second;
        let settles = self.card == question.first && door < 16 && self.doors >> door & 1 == 1;
        settles.then_some(if self.given { Light::Green } else { Light::Red })
    }
}

/// The opening hours of a door. The question is (door, minute).
#[derive(Clone, Copy, PartialEq, Eq, Hash, Debug, Default)]
pub struct HoursChange {
    pub door: u16,
    pub opening: u16,
    pub shutting: u16,
}

impl Kind for HoursChange {
    const UNSETTLED: Light = Light::Green;

    #[inline]
    fn says(&self, question: Question) -> Option<Light> {
        let open = (self.opening..self.shutting).contains(&question.second);
        (self.door == question.first).then_some(if open { Light::Green } else { Light::Red })
    }
}

/// A change, and the view in which it was taken. The view's numbers are plain, as in all lent memory.
#[derive(Clone, Copy, PartialEq, Eq, Hash, Debug, Default)]
pub struct Entry<K> {
    pub view: PlainView,
    pub change: K,
}

/// Goes back from the last entry to the first one that settles the question.
#[inline]
pub fn lookup<K: Kind>(entries: &[Entry<K>], question: Question) -> Light {
    entries.iter().rev().find_map(|entry| entry.change.says(question)).unwrap_or(K::UNSETTLED)
}

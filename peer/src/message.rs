//! Messages: plain numbers in the lent pool, read into checked ones before anything is done with them.

use crate::controller::Answer;
use crate::entries::Entry;
use crate::numbers::{ControllerNumber, PlainView, View};
use crate::refusal::Refusal;

#[derive(Clone, Copy, PartialEq, Eq, Hash, Debug, Default)]
pub struct Message<K> {
    pub sender: u16,
    pub addressee: u16,
    pub view: PlainView,
    pub body: Body<K>,
}

#[derive(Clone, Copy, PartialEq, Eq, Hash, Debug, Default)]
pub enum Body<K> {
    #[default]
    Invitation,
    Normal {
        current: PlainView,
        length: u16,
        /// Whether the sender is the primary of that view.
        primary: bool,
    },
    Crash {
        current: PlainView,
    },
    Form,
    Entry {
        place: u16,
        entry: Entry<K>,
    },
    Acknowledgement {
        length: u16,
    },
}

/// What a report calls a message.
#[derive(Clone, Copy, PartialEq, Eq, Hash, Debug)]
pub enum MessageKind {
    Invitation,
    Normal,
    Crash,
    Form,
    Entry,
    Acknowledgement,
}

impl MessageKind {
    pub fn word(self) -> &'static str {
        match self {
            MessageKind::Invitation => "invitation",
            MessageKind::Normal => "normal",
            MessageKind::Crash => "crash",
            MessageKind::Form => "form",
            MessageKind::Entry => "entry",
            MessageKind::Acknowledgement => "acknowledgement",
        }
    }
}

/// A message whose numbers are in range for its site.
pub(crate) struct Letter<K> {
    pub sender: ControllerNumber,
    pub addressee: ControllerNumber,
    pub view: View,
    pub text: Text<K>,
}

pub(crate) enum Text<K> {
    Invitation,
    Answer(Answer),
    Form,
    Entry(u16, Entry<K>),
    Acknowledgement(u16),
}

impl<K: Copy> Message<K> {
    pub fn kind(&self) -> MessageKind {
        match self.body {
            Body::Invitation => MessageKind::Invitation,
            Body::Normal { .. } => MessageKind::Normal,
            Body::Crash { .. } => MessageKind::Crash,
            Body::Form => MessageKind::Form,
            Body::Entry { .. } => MessageKind::Entry,
            Body::Acknowledgement { .. } => MessageKind::Acknowledgement,
        }
    }

    /// Question 4: every controller is below n, every count a view count, the place or length at most cap.
    #[inline]
    pub(crate) fn read(&self, n: u16, cap: u16) -> Result<Letter<K>, Refusal> {
        let controller = |number: u16| match ControllerNumber::new(number) {
            Ok(controller) if number < n => Ok(controller),
            _ => Err(Refusal::BadMessage),
        };
        let view = |plain: PlainView| match View::new(plain.count, plain.controller) {
            Ok(view) if plain.controller < n => Ok(view),
            _ => Err(Refusal::BadMessage),
        };
        let fits = |number: u16| if number <= cap { Ok(number) } else { Err(Refusal::BadMessage) };
        let text = match self.body {
            Body::Invitation => Text::Invitation,
            Body::Normal { current, length, primary } => {
                Text::Answer(Answer::Normal { view: view(current)?, length: fits(length)?, primary })
            }
            Body::Crash { current } => Text::Answer(Answer::Crash { view: view(current)? }),
            Body::Form => Text::Form,
            Body::Entry { place, entry } => {
                view(entry.view)?;
                Text::Entry(fits(place)?, entry)
            }
            Body::Acknowledgement { length } => Text::Acknowledgement(fits(length)?),
        };
        Ok(Letter {
            sender: controller(self.sender)?,
            addressee: controller(self.addressee)?,
            view: view(self.view)?,
            text,
        })
    }
}

impl<K> From<Answer> for Body<K> {
    fn from(answer: Answer) -> Body<K> {
        match answer {
            Answer::Normal { view, length, primary } => Body::Normal { current: view.into(), length, primary },
            Answer::Crash { view } => Body::Crash { current: view.into() },
        }
    }
}

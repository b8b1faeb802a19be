//! The account of a script: what its steps amount to, as the first lines of a desk's statement have it.

use std::collections::BTreeMap;

use crate::desk::{Ending, Outcome};
use crate::script::Step;

/// What became of a change that was handed out.
#[derive(Clone, Copy, PartialEq, Eq, Debug)]
enum Fate {
    Waiting,
    Confirmed,
    Lost,
}

/// Shows are no steps. A slip that no change handed out does not count.
#[derive(Clone, Default, PartialEq, Eq, Debug)]
pub struct Account {
    pub made: bool,
    taken: u64,
    refused: u64,
    /// By view count, controller and place of the slip.
    fates: BTreeMap<(u16, u16, u16), Fate>,
}

impl Account {
    pub fn note(&mut self, step: &Step, outcome: &Outcome) {
        match (*step, outcome) {
            (Step::Show, _) => return,
            (_, Outcome::Refused(_)) => {
                self.refused += 1;
                return;
            }
            (_, Outcome::Slip(stamp)) => {
                let slip = (stamp.view.count.get(), stamp.view.controller.get(), stamp.place.get());
                self.fates.insert(slip, Fate::Waiting);
            }
            (Step::Settle { count, controller, place, .. }, Outcome::Settled(ending)) => {
                self.settle((count, controller, place), *ending);
            }
            _ => {}
        }
        self.taken += 1;
    }

    /// The first answer that is not waiting stands.
    fn settle(&mut self, slip: (u16, u16, u16), ending: Ending) {
        let Some(fate @ Fate::Waiting) = self.fates.get_mut(&slip) else { return };
        *fate = match ending {
            Ending::Confirmed => Fate::Confirmed,
            Ending::Lost => Fate::Lost,
            Ending::Waiting => Fate::Waiting,
        };
    }

    /// The two lines that the statement begins with.
    pub fn told(&self) -> String {
        let steps = if self.taken == 1 { "step was" } else { "steps were" };
        let first = format!("= {} {steps} taken and {} refused.\n", self.taken, self.refused);
        if !self.made {
            return first + "= The site was not made.\n";
        }
        let handed = self.fates.len();
        let changes = if handed == 1 { "change was" } else { "changes were" };
        let count = |wanted: Fate| self.fates.values().filter(|fate| **fate == wanted).count();
        let (confirmed, lost, waiting) = (count(Fate::Confirmed), count(Fate::Lost), count(Fate::Waiting));
        format!(
            "{first}= {handed} {changes} handed out: {confirmed} confirmed, {lost} lost, {waiting} still waiting.\n"
        )
    }
}

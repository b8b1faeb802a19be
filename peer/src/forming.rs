//! Forming a view: whether the answers allow it, by which of three rules, and who becomes primary.

use std::cmp::Reverse;

use crate::controller::{Answer, Answers};
use crate::numbers::{ControllerNumber, View, majority};

/// The first of the three rules that holds, and the primary of the new view.
#[derive(Clone, Copy, PartialEq, Eq, Debug)]
pub struct Choice {
    pub rule: u8,
    pub chosen: ControllerNumber,
}

/// What the answers to a view change of n controllers allow.
pub fn choose(n: u16, answers: &Answers) -> Option<Choice> {
    let mut normal = 0;
    let mut crash = 0;
    // Among normal answers the latest view, then the greatest length, then the smallest number.
    let mut best: Option<(View, u16, Reverse<ControllerNumber>)> = None;
    let mut latest_crash: Option<View> = None;
    for (number, answer) in (0..).zip(answers) {
        match *answer {
            None => {}
            Some(Answer::Normal { view, length, .. }) => {
                normal += 1;
                best = best.max(Some((view, length, Reverse(ControllerNumber::new(number).ok()?))));
            }
            Some(Answer::Crash { view }) => {
                crash += 1;
                latest_crash = latest_crash.max(Some(view));
            }
        }
    }
    let (latest, _, Reverse(chosen)) = best?;
    if normal + crash < majority(n) {
        return None;
    }
    let primary_answered =
        || answers.iter().any(|a| matches!(*a, Some(Answer::Normal { view, primary: true, .. }) if view == latest));
    let rule = if normal >= majority(n) {
        1
    } else if latest_crash < Some(latest) {
        2
    } else if latest_crash == Some(latest) && primary_answered() {
        3
    } else {
        return None;
    };
    Some(Choice { rule, chosen })
}

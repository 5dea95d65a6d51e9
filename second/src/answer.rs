//! The six numbers of an answer, and refusals with their places.

use std::fmt;

/// A number of refusal, 1 to 13, and its place.
#[derive(Clone, Copy, Debug, PartialEq, Eq)]
pub struct Refusal {
    pub number: u32,
    pub place: u32,
}

impl Refusal {
    /// A refusal whose place is 0 because none is named.
    pub fn plain(number: u32) -> Refusal {
        Refusal { number, place: 0 }
    }

    /// A refusal of the link or the action that counts as `place` from 0.
    pub fn at(number: u32, place: usize) -> Refusal {
        Refusal {
            number,
            place: count(place),
        }
    }
}

/// What a state reports of itself.
#[derive(Clone, Copy, Debug, PartialEq, Eq)]
pub struct Report {
    pub outcome: u32,
    pub root: u32,
    pub waiting: u32,
}

impl Report {
    /// Stands where there is no state to report.
    pub const NONE: Report = Report {
        outcome: 0,
        root: 255,
        waiting: 0,
    };
}

/// The answer of any call.
#[derive(Clone, Copy, Debug, PartialEq, Eq)]
pub struct Answer {
    pub refusal: u32,
    pub place: u32,
    pub steps: u32,
    pub report: Report,
}

impl Answer {
    pub fn accepted(steps: usize, report: Report) -> Answer {
        Answer {
            refusal: 0,
            place: 0,
            steps: count(steps),
            report,
        }
    }

    /// A refusal that is not of an action.
    pub fn refused(refusal: Refusal) -> Answer {
        Answer::refused_action(refusal, 0, Report::NONE)
    }

    /// A refusal of an action: the steps taken before it, and the state there.
    pub fn refused_action(refusal: Refusal, steps: usize, report: Report) -> Answer {
        Answer {
            refusal: refusal.number,
            place: refusal.place,
            steps: count(steps),
            report,
        }
    }
}

impl fmt::Display for Answer {
    fn fmt(&self, out: &mut fmt::Formatter<'_>) -> fmt::Result {
        let Report {
            outcome,
            root,
            waiting,
        } = self.report;
        write!(
            out,
            "{} {} {} {outcome} {root} {waiting}",
            self.refusal, self.place, self.steps
        )
    }
}

/// Every count that the rules can answer is far below 2 to the 32.
fn count(number: usize) -> u32 {
    u32::try_from(number).unwrap_or(u32::MAX)
}

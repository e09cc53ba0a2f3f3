//! What is seen in rounds.

use super::Tally;
use crate::plain::book::RECORD;
use crate::rounds::{goes_on, Outcome, Round};

/// What a run has left so far.
pub(super) struct Before<'a> {
    /// By the last round taken.
    pub left: Option<&'a Outcome>,
    /// The images written, the one of a fresh monitor first.
    own: Vec<&'a [u8]>,
    /// Whether an image from elsewhere has entered.
    pub entered: bool,
    /// The number of the last round of all.
    pub number: u32,
    /// How many rounds taken in a row are one session from no records on.
    pub row: usize,
}

/// The used records of a buffer that has them.
pub(super) fn used(image: &[u8], used: u32) -> &[u8] {
    &image[..used as usize * RECORD]
}

impl<'a> Before<'a> {
    fn fresh() -> Before<'a> {
        Before {
            left: None,
            own: vec![&[]],
            entered: false,
            number: 0,
            row: 0,
        }
    }

    pub fn is_own(&self, image: &[u8]) -> bool {
        self.own.contains(&image)
    }

    /// Whether a round taken has the image of the last one.
    pub fn goes_on(&self, round: &Round) -> bool {
        self.left.map_or(false, |left| goes_on(round, left))
    }

    fn step(&mut self, round: &Round, outcome: &'a Outcome) {
        self.number = outcome.number;
        if outcome.number != 0 {
            return;
        }
        self.row = match round.used {
            0 => 1,
            _ if self.row > 0 && self.goes_on(round) => self.row + 1,
            _ => 0,
        };
        self.entered |= !self.is_own(used(&round.image, round.used));
        self.own.push(used(&outcome.image, outcome.used));
        self.left = Some(outcome);
    }
}

impl Tally {
    /// A run of rounds.
    pub fn rounds(&mut self, rounds: &[Round], due: &[Outcome]) {
        let mut before = Before::fresh();
        for (round, outcome) in rounds.iter().zip(due) {
            if outcome.number == 0 {
                self.round_taken(&before, round, outcome);
            } else {
                self.round_refused(&before, round, outcome.number);
            }
            before.step(round, outcome);
        }
    }
}

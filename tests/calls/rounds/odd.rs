//! Odd rounds: the image buffer, the image and the batch don't fit, each alone and
//! all together, so that the order in which they are looked at shows.

use super::buffers;
use super::run::{batch, Run};
use super::Round;
use crate::batch::Batch;
use crate::held;
use crate::operations::Operation;
use crate::plain::book::RECORD;
use crate::plain::restore::restored;
use crate::refuse;

/// What is spoiled, in turn.
struct Odd {
    buffer: bool,
    image: bool,
    batch: bool,
}

/// Each of the seven ways to spoil one thing or more; the image alone most often,
/// as the run may go on with another one.
fn odd(turn: usize) -> Odd {
    let bits = [1, 2, 3, 2, 4, 5, 2, 6, 2, 7][turn % 10];
    Odd {
        buffer: bits & 1 != 0,
        image: bits & 2 != 0,
        batch: bits & 4 != 0,
    }
}

impl Run {
    /// Another image may be taken all the same; the last one is lent where it may not.
    pub(super) fn odd(&mut self, to_come: &[Operation]) {
        let mut round = self.spoiled(to_come);
        let taken = round.refusal(&self.book) == 0;
        if taken && !self.may_take(&round.image[..round.used as usize * RECORD]) {
            round.image.clone_from(&self.image);
            round.used = self.used;
        }
        self.step(round);
    }

    /// A round spoiled in the way whose turn it is.
    fn spoiled(&mut self, to_come: &[Operation]) -> Round {
        self.turn += 1;
        let odd = odd(self.turn);
        let (mut image, mut used) = (self.image.clone(), self.used);
        if odd.image {
            (image, used) = self.other();
        }
        let batch = if odd.batch {
            refuse::batch(&mut self.random, self.turn, to_come)
        } else {
            self.fitting(&image, used, to_come)
        };
        if odd.buffer {
            (image, used) = buffers::spoiled(&mut self.random, self.turn, &image, used);
        }
        Round { image, used, batch }
    }

    /// A batch that would show if it were run: acts and a line for what the image
    /// holds, or what is to come. Or one of none.
    fn fitting(&mut self, image: &[u8], used: u32, to_come: &[Operation]) -> Batch {
        let given = image.get(..used as usize * RECORD).and_then(restored);
        let book = given.as_ref().unwrap_or(self.book.now());
        match self.random.below(10) {
            0 | 1 => Batch::of(&[]),
            2 | 3 => batch(&to_come[0]),
            _ => {
                let mut calls = held::acts(&mut self.random, book);
                if self.random.chance(40) {
                    calls.extend(held::line(&mut self.random, book));
                }
                Batch::of(&calls)
            }
        }
    }
}

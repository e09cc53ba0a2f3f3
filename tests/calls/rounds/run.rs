//! A run of rounds over one image buffer, while it is made: the book steps along,
//! so that images and batches can be chosen by what the run wrote so far.

use super::{fresh, Outcome, Round, BUFFER};
use crate::batch::Batch;
use crate::held;
use crate::operations::Operation;
use crate::plain::session_book::SessionBook;
use crate::random::Random;

pub struct Run {
    pub(super) random: Random,
    pub(super) book: SessionBook,
    /// The image buffer as the last taken round left it, and its used number.
    pub(super) image: Vec<u8>,
    pub(super) used: u32,
    /// Which images may be taken.
    pub(super) images: Images,
    /// By which each kind of odd round has its turn.
    pub(super) turn: usize,
    pub rounds: Vec<Round>,
    pub due: Vec<Outcome>,
}

#[derive(Clone, Copy)]
pub enum Images {
    /// Only the one that the last round left, so that the run is one session.
    Last,
    /// Any that the run wrote.
    Own,
    /// Those from elsewhere too.
    Any,
}

/// The run of the session of that number: these operations as batches, and odd
/// rounds between them; afterwards some of these more.
pub fn made(random: &mut Random, number: usize, operations: &[Operation], more: usize) -> Run {
    let mut run = Run::new(Random::new(random.next()), number);
    // About as many of these in a long session as in a short one.
    let percent = (800 / operations.len()).clamp(1, 40);
    for (at, operation) in operations.iter().enumerate() {
        // As long as little is held there is little to spoil.
        let percent = if at < 5 { 5 } else { percent };
        run.odd_steps(percent, &operations[at..]);
        run.go_on(batch(operation));
    }
    let more = run.random.between(2, more);
    (0..more).for_each(|_| run.odd_step(&operations[operations.len() - 1..]));
    run
}

/// A single call is a batch of one; where its sizes don't fit, one to be turned away.
pub(super) fn batch(operation: &Operation) -> Batch {
    let (records, lent) = operation.bytes();
    Batch {
        records: records.to_vec(),
        lent: lent.to_vec(),
    }
}

impl Run {
    /// The bytes of the buffer are any: none of its records is used yet.
    fn new(mut random: Random, number: usize) -> Run {
        let kinds = [Images::Last, Images::Own, Images::Any, Images::Any];
        Run {
            book: fresh(),
            image: random.bytes(BUFFER),
            used: 0,
            images: kinds[number % kinds.len()],
            random,
            turn: 7 * number,
            rounds: Vec::new(),
            due: Vec::new(),
        }
    }

    pub(super) fn step(&mut self, round: Round) {
        let outcome = round.step(&mut self.book);
        if outcome.number == 0 {
            self.image.clone_from(&outcome.image);
            self.used = outcome.used;
        }
        self.rounds.push(round);
        self.due.push(outcome);
    }

    /// A round with the image as the last taken one left it.
    fn go_on(&mut self, batch: Batch) {
        self.step(Round {
            image: self.image.clone(),
            used: self.used,
            batch,
        });
    }

    /// Some or none, by that percentage for one more.
    fn odd_steps(&mut self, percent: usize, to_come: &[Operation]) {
        while self.random.chance(percent) {
            self.odd_step(to_come);
        }
    }

    /// An odd round, and mostly rounds with acts for the rules then held.
    fn odd_step(&mut self, to_come: &[Operation]) {
        self.odd(to_come);
        for _ in 0..self.random.below(3) {
            let calls = held::acts(&mut self.random, self.book.now());
            self.go_on(Batch::of(&calls));
        }
    }
}

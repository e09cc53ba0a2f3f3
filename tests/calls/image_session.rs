//! A session with images kept and restored, while it is made: the book steps along, so
//! that images can be chosen by what the session wrote so far, and acts by what
//! is held after a return.

use crate::batch::Batch;
use crate::held;
use crate::operations::Operation;
use crate::plain::session_book::SessionBook;
use crate::random::Random;
use crate::session::Answer;
use crate::tally::Watch;

pub struct ImageSession {
    pub random: Random,
    pub book: SessionBook,
    pub operations: Vec<Operation>,
    pub answers: Vec<Answer>,
    /// What is seen on the way.
    pub watch: Watch,
    /// By which each way to change an image has its turn.
    pub turn: usize,
    /// Whether no image from elsewhere may enter.
    pub own_only: bool,
}

/// The session of that number with images: these operations, and between them
/// steps with images; afterwards some of these more.
pub fn made(
    random: &mut Random,
    number: usize,
    operations: Vec<Operation>,
    more: usize,
) -> ImageSession {
    let mut session = ImageSession::new(Random::new(random.next()), number);
    // About as many of these in a long session as in a short one.
    let percent = (1600 / operations.len()).clamp(1, 50);
    for (at, operation) in operations.into_iter().enumerate() {
        // As long as little is held there is little to return to.
        let percent = if at < 5 { 5 } else { percent };
        while session.random.chance(percent) {
            session.image_step();
        }
        session.step(operation);
    }
    for _ in 0..session.random.between(2, more) {
        session.image_step();
    }
    session
}

impl ImageSession {
    fn new(mut random: Random, number: usize) -> ImageSession {
        ImageSession {
            own_only: random.chance(40),
            random,
            book: SessionBook::fresh(),
            operations: Vec::new(),
            answers: Vec::new(),
            watch: Watch::default(),
            turn: 5 * number,
        }
    }

    pub fn step(&mut self, operation: Operation) {
        self.watch.before(&self.book, &operation);
        let answer = operation.step(&mut self.book);
        self.watch.after(&self.book, &operation, &answer);
        self.operations.push(operation);
        self.answers.push(answer);
    }

    /// Keeping, restoring or a line, and mostly acts for the rules then held.
    fn image_step(&mut self) {
        match self.random.below(20) {
            0..=7 => self.keep(),
            8..=16 => self.restore(),
            17 if !self.own_only => self.go_on_long(),
            17 => self.restore(),
            _ => self.declare(),
        }
        for _ in 0..self.random.below(3) {
            self.lead();
        }
    }

    /// A rule or a role by a line, beside those that an image brought.
    fn declare(&mut self) {
        if let Some(call) = held::line(&mut self.random, self.book.now()) {
            self.step(Operation::Call(call));
        }
    }

    /// Acts that may lead one of the rules held to work, one by one or in a batch.
    fn lead(&mut self) {
        let calls = held::acts(&mut self.random, self.book.now());
        if calls.is_empty() {
            return;
        }
        if self.random.chance(60) {
            let calls = calls.into_iter().map(Operation::Call);
            return calls.for_each(|call| self.step(call));
        }
        self.step(Operation::Batch(Batch::of(&calls)));
    }
}

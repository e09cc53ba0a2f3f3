//! What is seen in operations.

use super::Tally;
use crate::batch::{Batch, MOST, TURNED_AWAY};
use crate::operations::Operation;
use crate::plain::book::RECORD;
use crate::plain::reply::LENGTH;
use crate::session::Answer;

impl Tally {
    pub fn operations(&mut self, operations: &[Operation], answers: &[Answer]) {
        let mut turned_away = false;
        for (operation, answer) in operations.iter().zip(answers) {
            if turned_away {
                self.next(operation, answer);
            }
            turned_away = false;
            match operation {
                Operation::Batch(batch) if answer.number == TURNED_AWAY => {
                    turned_away = true;
                    self.turned_away(batch);
                }
                Operation::Batch(_) => self.taken(&answer.reply),
                Operation::Call(_) if answer.number == 7 => self.count("refusal 7"),
                _ => {}
            }
        }
    }

    /// What follows on a batch turned away, where it shows what the monitor holds.
    fn next(&mut self, operation: &Operation, answer: &Answer) {
        let taken = answer.number == 0 && answer.reply.chunks(LENGTH).any(|r| r[0] != b'R');
        match operation {
            Operation::Call(_) if taken => self.count("batch 11, a record taken next by a call"),
            Operation::Batch(_) if taken => self.count("batch 11, a record taken next in a batch"),
            _ => {}
        }
    }

    /// A batch taken, by its replies.
    fn taken(&mut self, replies: &[u8]) {
        self.count(&format!("batch of {} taken", replies.len() / LENGTH));
        let mut refused = false;
        for reply in replies.chunks(LENGTH) {
            let letter = char::from(reply[0]);
            self.count(&format!("batch taken, reply {letter} inside"));
            if letter == 'R' {
                // Refusals have one figure.
                let number = char::from(reply[3]);
                self.count(&format!("batch taken, refusal {number} inside"));
            } else if refused {
                self.count("batch with a record taken after one refused");
            }
            refused = letter == 'R';
        }
    }

    /// A batch turned away, by what was wrong with it.
    fn turned_away(&mut self, batch: &Batch) {
        let (count, rest) = (batch.records.len() / RECORD, batch.records.len() % RECORD);
        let size = batch.lent.len();
        let what = match (count, rest) {
            (0, 0) if size == 1 => "no record, a reply byte",
            (_, 1) if size == count * LENGTH => "a record byte more",
            (_, 127) if size == (count + 1) * LENGTH => "a record byte less",
            (_, 127) if size == count * LENGTH => "a record byte less, replies for the whole ones",
            (_, 0) if count == MOST + 1 && size == count * LENGTH => "513 records",
            (_, 0) if count > MOST => return,
            (_, 0) if size == count * LENGTH + 1 => "a reply byte more",
            (_, 0) if size + 1 == count * LENGTH => "a reply byte less",
            (_, 0) if size == (count + 1) * LENGTH => "replies for one more",
            (_, 0) if size + LENGTH == count * LENGTH => "replies for one less",
            _ => return,
        };
        self.count(&format!("batch 11: {what}"));
    }
}

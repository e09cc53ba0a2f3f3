//! Operations: single calls, batches of records, keeping and returning to an
//! image, and what the book and the monitor answer.

use crate::batch::Batch;
use crate::flat::Flat;
use crate::keeping::{Keep, Restore};
use crate::plain::session_book::SessionBook;
use crate::session::{self, Answer, Call};

pub enum Operation {
    Call(Call),
    Batch(Batch),
    Keep(Keep),
    Restore(Restore),
}

/// The kinds as the library has them.
const CALL: u8 = 0;
const BATCH: u8 = 1;
const KEEP: u8 = 2;
const RESTORE: u8 = 3;
pub const HIGHEST_KIND: u8 = RESTORE;

impl Operation {
    fn kind(&self) -> u8 {
        match self {
            Operation::Call(_) => CALL,
            Operation::Batch(_) => BATCH,
            Operation::Keep(_) => KEEP,
            Operation::Restore(_) => RESTORE,
        }
    }

    /// The record bytes and the reply buffer as lent.
    pub fn bytes(&self) -> (&[u8], &[u8]) {
        match self {
            Operation::Call(call) => (&call.record, &call.lent),
            Operation::Batch(batch) => (&batch.records, &batch.lent),
            Operation::Keep(keep) => (&keep.records, &keep.lent),
            Operation::Restore(restore) => (&restore.image, &restore.lent),
        }
    }

    /// One step of the book.
    pub fn step(&self, book: &mut SessionBook) -> Answer {
        match self {
            Operation::Call(call) => {
                let mut reply = call.lent.clone();
                let number = book.call(&call.record, &mut reply);
                Answer::new(number, reply)
            }
            Operation::Batch(batch) => batch.step(book),
            Operation::Keep(keep) => keep.step(book),
            Operation::Restore(restore) => restore.step(book),
        }
    }
}

pub fn by_book(operations: &[Operation]) -> Vec<Answer> {
    let mut book = SessionBook::fresh();
    operations.iter().map(|o| o.step(&mut book)).collect()
}

pub fn flat(operations: &[Operation]) -> Flat {
    let mut flat = Flat {
        kinds: Some(operations.iter().map(Operation::kind).collect()),
        ..Flat::default()
    };
    for operation in operations {
        let (records, lent) = operation.bytes();
        flat.push(records, lent);
    }
    flat
}

/// The first operation, counted from 1, to which the library answers differently, with both answers.
pub fn difference(operations: &[Operation], due: &[Answer]) -> Option<String> {
    flat(operations).difference(due, |at, due, library| {
        let both = shown(&operations[at], due, library);
        format!("operation {}: {both}", at + 1)
    })
}

/// An operation and the two answers to it.
pub fn shown(operation: &Operation, due: &Answer, library: &Answer) -> String {
    match operation {
        Operation::Call(call) => session::shown(&call.record, due, library),
        Operation::Batch(batch) => batch.shown(due, library),
        Operation::Keep(keep) => keep.shown(due, library),
        Operation::Restore(restore) => restore.shown(due, library),
    }
}

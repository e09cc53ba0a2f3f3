//! Batches of records.

use crate::plain::book::RECORD;
use crate::plain::reply;
use crate::plain::session_book::SessionBook;
use crate::session::{self, Answer, Call};

/// The most records of a batch.
pub const MOST: usize = 512;

/// The number of a batch that is turned away.
pub const TURNED_AWAY: u8 = 11;

/// A batch: record bytes and a reply buffer as it is lent, each of any length.
pub struct Batch {
    pub records: Vec<u8>,
    pub lent: Vec<u8>,
}

impl Batch {
    /// The records of these calls, with their reply buffers side by side.
    pub fn of(calls: &[Call]) -> Batch {
        Batch {
            records: calls.iter().flat_map(|c| c.record.clone()).collect(),
            lent: calls.iter().flat_map(|c| c.lent.clone()).collect(),
        }
    }

    /// Not whole records, over 512 of them, or not 50 bytes for each reply.
    pub fn turned_away(&self) -> bool {
        let count = self.records.len() / RECORD;
        count * RECORD != self.records.len()
            || count > MOST
            || count * reply::LENGTH != self.lent.len()
    }

    /// One record after the other, each with its own 50 bytes.
    pub fn step(&self, book: &mut SessionBook) -> Answer {
        let mut reply = self.lent.clone();
        if self.turned_away() {
            return Answer::new(TURNED_AWAY, reply);
        }
        let own = reply.chunks_mut(reply::LENGTH);
        for (record, own) in self.records.chunks(RECORD).zip(own) {
            book.call(record, own);
        }
        Answer::new(0, reply)
    }

    /// Of a batch only the first reply that differs is shown, with its record; the
    /// first of all where the numbers alone differ.
    pub fn shown(&self, due: &Answer, library: &Answer) -> String {
        let at = session::differing(&due.reply, &library.reply, reply::LENGTH).unwrap_or(0);
        let part = |answer: &Answer| Answer {
            reply: session::piece(&answer.reply, at, reply::LENGTH),
            ..*answer
        };
        format!(
            "batch of {} record bytes and {} reply bytes, reply {}: {}",
            self.records.len(),
            self.lent.len(),
            at + 1,
            session::shown(
                &session::piece(&self.records, at, RECORD),
                &part(due),
                &part(library)
            )
        )
    }
}

//! Rounds (document 02: the table's host program is in C): a call is lent an image,
//! a batch and a reply buffer; it returns to the image, runs the batch and keeps the
//! monitor in the image's place. What the book and the library make of them.

mod buffers;
mod odd;
mod others;
mod run;
mod shown;
mod stored;
mod whole;

pub use run::made;
pub use stored::stored_difference;
pub use whole::goes_on;

use crate::batch::{Batch, TURNED_AWAY};
use crate::images;
use crate::keeping::MOST;
use crate::plain::book::RECORD;
use crate::plain::restore::restored;
use crate::plain::session_book::{SessionBook, NO_IMAGE};
use crate::stand;

/// The bytes of the image buffer.
pub const BUFFER: usize = MOST * RECORD;

/// The number of an image buffer that doesn't fit.
pub const WRONG_BUFFER: u8 = 13;

/// What is lent: an image buffer and how many of its records are used, each any,
/// and a batch with its reply buffer.
pub struct Round {
    pub image: Vec<u8>,
    pub used: u32,
    pub batch: Batch,
}

/// The number, the used number handed back, and the three buffers afterwards.
#[derive(PartialEq, Eq)]
pub struct Outcome {
    pub number: u32,
    pub used: u32,
    pub image: Vec<u8>,
    pub records: Vec<u8>,
    pub replies: Vec<u8>,
}

impl Round {
    /// 13: a buffer of another size, or a used number above its records.
    pub fn wrong_buffer(&self) -> bool {
        self.image.len() != BUFFER || self.used as usize > MOST
    }

    /// The used records, where the buffer has so many.
    pub fn used_records(&self) -> Option<&[u8]> {
        self.image.get(..self.used as usize * RECORD)
    }

    /// 12: the used records are no image.
    pub fn no_image(&self) -> bool {
        let records = self.used_records();
        records.map_or(false, |records| restored(records).is_none())
    }

    /// By the first of the three that is due; 0 where none is. What the session
    /// itself wrote is an image.
    pub fn refusal(&self, book: &SessionBook) -> u8 {
        let own = |records| images::is_own(book, records);
        if self.wrong_buffer() {
            WRONG_BUFFER
        } else if !self.used_records().map_or(false, own) && self.no_image() {
            NO_IMAGE
        } else if self.batch.turned_away() {
            TURNED_AWAY
        } else {
            0
        }
    }

    /// All buffers and the used number as they were lent.
    fn as_lent(&self, number: u8) -> Outcome {
        Outcome {
            number: u32::from(number),
            used: self.used,
            image: self.image.clone(),
            records: self.batch.records.clone(),
            replies: self.batch.lent.clone(),
        }
    }

    /// One step of the book: returning to the image, the records one by one, and
    /// keeping in the image's place. An image that is refused, or lent with a batch
    /// that is, has not entered the session.
    pub fn step(&self, book: &mut SessionBook) -> Outcome {
        let mut outcome = self.as_lent(self.refusal(book));
        if outcome.number == 0 {
            let returned = book.restore(&self.image[..self.used as usize * RECORD]);
            let answer = self.batch.step(book);
            let (kept, used) = book.keep(&mut outcome.image);
            assert_eq!([returned, answer.number, kept], [0; 3], "refused before");
            outcome.replies = answer.reply;
            outcome.used = used;
        }
        outcome
    }

    /// Each buffer is a block of just its length, so that a step out of one shows under valgrind.
    fn by_library(&self) -> Outcome {
        let mut image = self.image.clone().into_boxed_slice();
        let records = self.batch.records.clone().into_boxed_slice();
        let mut replies = self.batch.lent.clone().into_boxed_slice();
        let told = stand::run(&mut image, self.used, &records, &mut replies);
        Outcome {
            number: (told >> 32) as u32,
            used: told as u32,
            image: image.into_vec(),
            records: records.into_vec(),
            replies: replies.into_vec(),
        }
    }
}

/// The book of a host that begins with no records: they are what keeping writes for
/// a fresh monitor, so they are the session's own.
pub fn fresh() -> SessionBook {
    let mut book = SessionBook::fresh();
    book.keep(&mut []);
    book
}

pub fn by_book(rounds: &[Round]) -> Vec<Outcome> {
    let mut book = fresh();
    rounds.iter().map(|round| round.step(&mut book)).collect()
}

/// The first round, counted from 1, of which the library makes something else, with
/// both outcomes; or where the rounds aren't one session.
pub fn difference(rounds: &[Round], due: &[Outcome]) -> Option<String> {
    for (at, round) in rounds.iter().enumerate() {
        let library = round.by_library();
        if library != due[at] {
            let both = shown::shown(round, &due[at], &library);
            return Some(format!("round {}: {both}", at + 1));
        }
    }
    whole::difference(rounds, due)
}

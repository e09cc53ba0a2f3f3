//! Rounds that go on with the image of the last one are one session: their replies
//! are those of one book that takes all the records in a row and never returns to
//! anything, and the last image is that of this book. A refused round changes nothing.

use super::shown::pieces;
use super::{Outcome, Round};
use crate::plain::book::{Book, RECORD};
use crate::plain::image::image;
use crate::plain::reply::LENGTH;

/// Whether the round has the image that the last taken one left.
pub fn goes_on(round: &Round, left: &Outcome) -> bool {
    let used = left.used as usize * RECORD;
    round.used == left.used && round.image[..used] == left.image[..used]
}

/// The first round, counted from 1, that isn't the next of one session. Where there
/// are no records a session begins; where another image comes nobody knows of which.
pub fn difference(rounds: &[Round], due: &[Outcome]) -> Option<String> {
    let mut left: Option<&Outcome> = None;
    let mut book = None;
    for (at, (round, outcome)) in rounds.iter().zip(due).enumerate() {
        if outcome.number != 0 {
            continue;
        }
        if round.used == 0 {
            book = Some(Book::fresh());
        } else if !left.map_or(false, |left| goes_on(round, left)) {
            book = None;
        }
        left = Some(outcome);
        let wrong = book.as_mut().and_then(|book| replies(book, round, outcome));
        if let Some(wrong) = wrong {
            return Some(format!("round {}, all records in a row{wrong}", at + 1));
        }
    }
    last_image(&book?, left?)
}

/// The first reply that isn't as the one book has it.
fn replies(book: &mut Book, round: &Round, outcome: &Outcome) -> Option<String> {
    let mut replies = outcome.replies.clone();
    let own = replies.chunks_mut(LENGTH);
    for (record, reply) in round.batch.records.chunks(RECORD).zip(own) {
        book.call(record, reply);
    }
    let wrong = pieces("reply", &replies, &outcome.replies, LENGTH);
    Some(wrong).filter(|wrong| !wrong.is_empty())
}

/// What of the last image isn't as the one book has it.
fn last_image(book: &Book, left: &Outcome) -> Option<String> {
    let image = image(book);
    let used = &left.image[..left.used as usize * RECORD];
    if image == used {
        return None;
    }
    let records = image.len() / RECORD;
    let first = pieces("image, record", &image, used, RECORD);
    Some(format!("all records in a row, {records} records{first}"))
}

//! Stored sessions with images through the plain book: its replies, its images and its numbers
//! are those stored.

use std::path::Path;

use crate::plain::book::RECORD;
use crate::plain::reply;
use crate::plain::session_book::{SessionBook, TOO_SHORT};
use crate::stored_images::{sessions, Step};

/// A byte that no reply and no image has, so that one left unfilled shows.
const LENT: u8 = 0xAA;

/// Every stored session; stops at the first difference.
pub fn compare_all(directory: &Path) -> Result<String, String> {
    let sessions = sessions(directory).map_err(|why| format!("book: {why}"))?;
    let mut count = 0;
    for session in &sessions {
        let mut book = SessionBook::fresh();
        for (at, step) in session.steps.iter().enumerate() {
            let same = match step {
                Step::Call { record, reply } => call(&mut book, record, reply, step.number()),
                Step::Keep { image } => keep(&mut book, image),
                Step::Restore { image, number } => book.restore(image) == *number,
            };
            if !same {
                let name = &session.name;
                return Err(format!("book: {name}: step {} differs", at + 1));
            }
            count += 1;
        }
    }
    let sessions = sessions.len();
    Ok(format!(
        "book: {sessions} sessions with images, {count} steps, no difference"
    ))
}

fn call(book: &mut SessionBook, record: &[u8], due: &[u8], number: u8) -> bool {
    let mut reply = [LENT; reply::LENGTH];
    book.call(record, &mut reply) == number && reply[..] == *due
}

/// Into a buffer one byte too short, one as long, and a longer one.
fn keep(book: &mut SessionBook, due: &[u8]) -> bool {
    let records = (due.len() / RECORD) as u32;
    let short = due.is_empty() || {
        let mut buffer = vec![LENT; due.len() - 1];
        book.keep(&mut buffer) == (TOO_SHORT, 0) && buffer.iter().all(|&b| b == LENT)
    };
    short
        && [0, 1, 128].iter().all(|more| {
            let mut buffer = vec![LENT; due.len() + more];
            let told = book.keep(&mut buffer);
            let (image, rest) = buffer.split_at(due.len());
            told == (0, records) && image == due && rest.iter().all(|&b| b == LENT)
        })
}

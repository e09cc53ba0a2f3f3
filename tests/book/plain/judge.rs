//! The judge: whether a list of acts, given whole, matches one rule's past.

use super::book::{framed, Book, RECORD};
use super::matcher::matches;
use super::tree::Act;

const MOST_RECORDS: usize = 256;

/// Yes or no, or the number of the first refusal found: 9, then 10, then the
/// records in turn by 3, 4 and 6.
pub fn judge(book: &Book, number: u32, records: &[u8]) -> Result<bool, u8> {
    let rule = book.rules().get(number as usize).ok_or(9)?;
    if records.len() % RECORD != 0 || records.len() / RECORD > MOST_RECORDS {
        return Err(10);
    }
    let mut acts: Vec<Act> = Vec::new();
    for record in records.chunks(RECORD) {
        acts.push(book.read_act(framed(record, b"E")?)?);
    }
    Ok(matches(&rule.line.past, &acts, book.roles()))
}

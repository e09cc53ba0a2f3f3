//! A round and what was made of it, for the reader.

use super::{Outcome, Round};
use crate::plain::book::RECORD;
use crate::plain::reply::LENGTH;
use crate::session::{differing, piece};

/// The round, both numbers, and the first record of the image and the first reply
/// that differ.
pub fn shown(round: &Round, due: &Outcome, library: &Outcome) -> String {
    let numbers = |o: &Outcome| format!("{}, used {}", o.number, o.used);
    let mut text = format!(
        "used {} of {} image bytes, {} record bytes, {} reply bytes\n  due {}\n  library {}",
        round.used,
        round.image.len(),
        round.batch.records.len(),
        round.batch.lent.len(),
        numbers(due),
        numbers(library)
    );
    text += &pieces("image, record", &due.image, &library.image, RECORD);
    text += &pieces("reply", &due.replies, &library.replies, LENGTH);
    if let Some(at) = differing(&due.replies, &library.replies, LENGTH) {
        let record = piece(&round.batch.records, at, RECORD);
        text += &format!("\n  to record \"{}\"", record.escape_ascii());
    }
    text += &pieces("lent record", &due.records, &library.records, RECORD);
    text
}

/// The first pieces of that length that differ, if any do.
pub fn pieces(what: &str, due: &[u8], library: &[u8], length: usize) -> String {
    let Some(at) = differing(due, library, length) else {
        return String::new();
    };
    format!(
        "\n  {what} {}\n    due \"{}\"\n    library \"{}\"",
        at + 1,
        piece(due, at, length).escape_ascii(),
        piece(library, at, length).escape_ascii()
    )
}

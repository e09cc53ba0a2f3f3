//! The proved monitor, through its static library (`include/stand.h`).

use crate::session::{total, Answers, Kind, Session};
use crate::stand;

/// The first `count` operations of a session, from a fresh monitor. A session of single calls goes through the library's call for those.
pub fn run(session: &Session, count: usize, answers: &mut Answers) {
    let (lengths, sizes) = (&session.lengths[..count], &session.sizes[..count]);
    let kinds = &session.kinds[..count];
    let records = &session.records[..total(lengths)];
    let replies = &mut answers.replies[..total(sizes)];
    let numbers = &mut answers.numbers[..count];
    let counts = &mut answers.counts[..count];
    let told = if kinds.iter().all(|&kind| kind == Kind::Call) {
        counts.fill(0);
        stand::session(records, lengths, replies, sizes, numbers)
    } else {
        let kinds: Vec<u8> = kinds.iter().map(|&kind| kind as u8).collect();
        stand::operations(&kinds, records, lengths, replies, sizes, numbers, counts)
    };
    assert!(told == 0, "the library answers {told}");
}

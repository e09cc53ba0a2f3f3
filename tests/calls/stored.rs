//! Stored sessions through the library, in batches and in rounds, compared with the stored replies.

use std::path::Path;

use crate::batch::MOST;
use crate::cut::evenly;
use crate::operations::{difference, Operation};
use crate::plain::book::RECORD;
use crate::plain::reply;
use crate::rounds::stored_difference;
use crate::session::{Answer, Call};
use crate::stored_sessions::sessions;

/// Each session is cut into batches of each of these sizes in turn.
const SIZES: [usize; 4] = [1, 2, 7, MOST];

pub fn compare_all(directory: &Path) -> Result<String, String> {
    let sessions = sessions(directory).map_err(|why| format!("calls: {why}"))?;
    let mut replies = 0;
    for session in &sessions {
        compare(&session.records, &session.replies)
            .map_err(|why| format!("calls: {}: {why}", session.name))?;
        replies += session.replies.len() / reply::LENGTH;
    }
    let count = sessions.len();
    Ok(format!(
        "calls: {count} stored sessions of {replies} replies, in batches and in rounds of {SIZES:?}, no difference"
    ))
}

/// One session, in batches of each size, on one monitor and on an image.
fn compare(records: &[u8], stored: &[u8]) -> Result<(), String> {
    let calls: Vec<Call> = records.chunks(RECORD).map(call).collect();
    if stored.len() != calls.len() * reply::LENGTH {
        return Err("not as many replies as records".to_string());
    }
    for size in SIZES {
        let operations = evenly(&calls, size);
        let due = answers(&operations, stored);
        if let Some(why) = difference(&operations, &due) {
            return Err(format!("in batches of {size}: {why}"));
        }
        if let Some(why) = stored_difference(&operations, &due) {
            return Err(format!("in rounds of {size}: {why}"));
        }
    }
    Ok(())
}

/// Lent full of a byte no reply has, so that a column left unfilled shows.
fn call(record: &[u8]) -> Call {
    Call {
        record: record.to_vec(),
        lent: vec![0xAA; reply::LENGTH],
    }
}

/// What is due: the stored replies, each operation's part. Batches are taken, and
/// a single call has a record that is too short.
fn answers(operations: &[Operation], stored: &[u8]) -> Vec<Answer> {
    let mut rest = stored;
    let due = operations.iter().map(|operation| {
        let (reply, after) = rest.split_at(operation.bytes().1.len());
        rest = after;
        let number = match operation {
            Operation::Batch(_) => 0,
            _ => 2,
        };
        Answer::new(number, reply.to_vec())
    });
    due.collect()
}

//! Stored sessions with images through the library and through the book: both give the replies,
//! the images and the numbers that are stored.

use std::path::Path;

use crate::keeping::{Keep, Restore};
use crate::operations::{by_book, difference, shown, Operation};
use crate::plain::book::RECORD;
use crate::plain::reply;
use crate::plain::session_book::TOO_SHORT;
use crate::session::{Answer, Call};
use crate::stored_image_sessions::{sessions, Step};

/// A byte that no reply and no image has, so that one left unfilled shows.
const LENT: u8 = 0xAA;

/// An operation and the answer due.
type Due = (Operation, Answer);

pub fn compare_all(directory: &Path) -> Result<String, String> {
    let sessions = sessions(directory).map_err(|why| format!("calls: {why}"))?;
    let mut count = 0;
    for session in &sessions {
        let due = session.steps.iter().flat_map(due).collect();
        count += compare(due).map_err(|why| format!("calls: {}: {why}", session.name))?;
    }
    let sessions = sessions.len();
    Ok(format!(
        "calls: {sessions} stored sessions with images, of {count} operations, no difference"
    ))
}

/// Gives how many operations were compared.
fn compare(due: Vec<Due>) -> Result<usize, String> {
    let (operations, due): (Vec<Operation>, Vec<Answer>) = due.into_iter().unzip();
    let book = by_book(&operations);
    if let Some(at) = (0..due.len()).find(|&at| book[at] != due[at]) {
        let both = shown(&operations[at], &due[at], &book[at]);
        return Err(format!("the book, operation {}: {both}", at + 1));
    }
    difference(&operations, &due).map_or(Ok(due.len()), Err)
}

/// The operations of a step, each with the answer due.
fn due(step: &Step) -> Vec<Due> {
    match step {
        Step::Call { record, reply } => {
            let call = Call {
                record: record.clone(),
                lent: vec![LENT; reply::LENGTH],
            };
            let answer = Answer::new(step.number(), reply.clone());
            vec![(Operation::Call(call), answer)]
        }
        Step::Keep { image } => keeps(image),
        Step::Restore { image, number } => {
            let restore = Restore {
                image: image.clone(),
                lent: Vec::new(),
            };
            let answer = Answer::new(*number, Vec::new());
            vec![(Operation::Restore(restore), answer)]
        }
    }
}

/// Keeping into a buffer one byte too short, into one as long and into longer ones.
fn keeps(image: &[u8]) -> Vec<Due> {
    let keep = |size| {
        let records = Vec::new();
        let lent = vec![LENT; size];
        Operation::Keep(Keep { records, lent })
    };
    let mut due = Vec::new();
    if let Some(short) = image.len().checked_sub(1) {
        let answer = Answer::new(TOO_SHORT, vec![LENT; short]);
        due.push((keep(short), answer));
    }
    for more in [0, 1, RECORD] {
        let mut reply = image.to_vec();
        reply.resize(image.len() + more, LENT);
        let answer = Answer {
            number: 0,
            reply,
            count: (image.len() / RECORD) as u32,
        };
        due.push((keep(image.len() + more), answer));
    }
    due
}

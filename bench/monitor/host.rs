//! What a host does with a monitor that is written in Rust: the operations of a session, one after another.

use crate::session::{Answers, Kind, Session, RECORD, REPLY};

const MOST_RECORDS: usize = 512;

/// The calls answer the refusal's number, or 0; keeping and restoring, the refusal in place of the number of records written.
pub trait Monitor: Sized {
    fn fresh() -> Self;
    fn call(&mut self, record: &[u8], reply: &mut [u8]) -> u8;
    fn keep(&self, image: &mut [u8]) -> Result<u32, u8>;
    fn restore(&mut self, image: &[u8]) -> Result<(), u8>;
}

/// The first `count` operations of a session, from a fresh monitor.
#[inline(never)]
pub fn run<M: Monitor>(session: &Session, count: usize, answers: &mut Answers) -> M {
    let mut monitor = M::fresh();
    let mut records = &session.records[..];
    let mut replies = &mut answers.replies[..];
    for k in 0..count {
        let (record, more) = records.split_at(session.lengths[k] as usize);
        let (reply, left) = replies.split_at_mut(session.sizes[k] as usize);
        let done = operate(&mut monitor, session.kinds[k], record, reply);
        answers.numbers[k] = done.err().unwrap_or(0);
        answers.counts[k] = done.unwrap_or(0);
        records = more;
        replies = left;
    }
    monitor
}

#[inline(always)]
fn operate<M: Monitor>(
    monitor: &mut M,
    kind: Kind,
    records: &[u8],
    replies: &mut [u8],
) -> Result<u32, u8> {
    match kind {
        Kind::Call => match monitor.call(records, replies) {
            0 => Ok(0),
            number => Err(number),
        },
        Kind::Batch => batch(monitor, records, replies).map(|()| 0),
        Kind::Keep => monitor.keep(replies),
        Kind::Restore => monitor.restore(records).map(|()| 0),
    }
}

fn batch<M: Monitor>(monitor: &mut M, records: &[u8], replies: &mut [u8]) -> Result<(), u8> {
    let count = records.len() / RECORD;
    let whole = records.len() % RECORD == 0 && count <= MOST_RECORDS;
    if !whole || replies.len() != count * REPLY {
        return Err(11);
    }
    for (record, reply) in records.chunks(RECORD).zip(replies.chunks_mut(REPLY)) {
        monitor.call(record, reply);
    }
    Ok(())
}

//! The calls of a session cut into operations, with batches of none and batches
//! to be turned away among them.

use crate::batch::{Batch, MOST};
use crate::operations::Operation;
use crate::plain::book::RECORD;
use crate::plain::reply;
use crate::random::Random;
use crate::refuse;
use crate::session::Call;

/// Whether a call may stand in a batch.
fn whole(call: &&Call) -> bool {
    call.record.len() == RECORD && call.lent.len() == reply::LENGTH
}

/// Operations of the session of that number: by it each way to be turned away
/// has its turn, as has each of the largest batches.
pub fn cut(random: &mut Random, session: usize, calls: &[Call]) -> Vec<Operation> {
    let mut operations = parts(random, session, calls);
    for turn in 0..random.between(1, 3) {
        let at = random.below(operations.len());
        let refused = refuse::batch(random, session + turn, &operations[at..]);
        operations.insert(at, Operation::Batch(refused));
    }
    if random.chance(30) {
        let at = random.below(operations.len());
        operations.insert(at, Operation::Batch(Batch::of(&[])));
    }
    operations
}

/// Neighbours that may stand in a batch are put together at random.
fn parts(random: &mut Random, session: usize, calls: &[Call]) -> Vec<Operation> {
    let mut operations = Vec::new();
    let mut rest = calls;
    while !rest.is_empty() {
        let row = rest.iter().take(MOST).take_while(whole).count();
        let large = MOST - (session + operations.len()) % 2;
        let size = size(random, row, large);
        let (now, after) = rest.split_at(size.max(1));
        operations.push(match size {
            0 => Operation::Call(now[0].clone()),
            _ => Operation::Batch(Batch::of(now)),
        });
        rest = after;
    }
    operations
}

/// How many of a row make the next batch; none of them where the first is to be
/// a single call. A row that is long enough gives a large batch.
fn size(random: &mut Random, row: usize, large: usize) -> usize {
    if row == MOST {
        return large;
    }
    if row == 0 || random.chance(25) {
        return 0;
    }
    let any = random.between(1, row);
    let size = *random.pick(&[1, 2, 2, 3, 7, any, any, MOST]);
    size.min(row)
}

/// Batches of that size as far as they go, the last one of the rest; a last
/// call that may not stand in a batch alone.
pub fn evenly(calls: &[Call], size: usize) -> Vec<Operation> {
    let row = calls.iter().take_while(whole).count();
    let (batched, alone) = calls.split_at(row);
    let batches = batched.chunks(size).map(Batch::of).map(Operation::Batch);
    batches
        .chain(alone.iter().cloned().map(Operation::Call))
        .collect()
}

//! Batches that must be turned away.

use crate::batch::{Batch, MOST};
use crate::operations::Operation;
use crate::plain::book::RECORD;
use crate::plain::reply::LENGTH;
use crate::random::Random;
use crate::spell::record;
use crate::spoil::resize;

/// Record bytes and reply bytes that are turned away, by how many records are meant.
type Way = fn(usize) -> (usize, usize);

static WAYS: [Way; 13] = [
    |n| (n * RECORD + 1, n * LENGTH),
    |n| (n * RECORD - 1, n * LENGTH),
    // Room for the replies to the whole ones among them.
    |n| (n * RECORD - 1, (n - 1) * LENGTH),
    |n| (n * RECORD, n * LENGTH + 1),
    |n| (n * RECORD, n * LENGTH - 1),
    |n| (n * RECORD, (n + 1) * LENGTH),
    |n| (n * RECORD, (n - 1) * LENGTH),
    |n| (n * RECORD, 0),
    |_| ((MOST + 1) * RECORD, (MOST + 1) * LENGTH),
    |n| ((MOST + n) * RECORD, (MOST + n) * LENGTH),
    |_| ((MOST + 1) * RECORD, MOST * LENGTH),
    |_| (0, 1),
    |_| (1, 0),
];

/// A batch to be turned away in the way whose turn it is. Its records are those
/// to come: if one were taken, it would show.
pub fn batch(random: &mut Random, turn: usize, to_come: &[Operation]) -> Batch {
    let meant = *random.pick(&[1, 1, 2, 3, 7, MOST]);
    let (length, size) = WAYS[turn % WAYS.len()](meant);
    Batch {
        records: resize(&whole(to_come), length),
        lent: random.bytes(size),
    }
}

/// The whole records of the operations, and one that may be taken even where there are none.
fn whole(operations: &[Operation]) -> Vec<u8> {
    let records = operations
        .iter()
        .flat_map(|o| o.bytes().0.chunks_exact(RECORD));
    let mut bytes: Vec<u8> = records.flatten().copied().collect();
    bytes.extend(record(b'L', "role zz under top"));
    bytes
}

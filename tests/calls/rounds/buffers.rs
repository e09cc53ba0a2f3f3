//! Image buffers of another size, and used numbers above their records.

use super::BUFFER;
use crate::keeping::MOST;
use crate::plain::book::RECORD;
use crate::random::Random;
use crate::spoil::resize;

/// The size and the used number, by the one that the image has.
type Way = fn(u32) -> (usize, u32);

static WAYS: [Way; 17] = [
    |used| (BUFFER - 1, used),
    |used| (BUFFER + 1, used),
    |used| (BUFFER - RECORD, used),
    |used| (BUFFER + RECORD, used),
    |used| (0, used),
    |_| (0, 0),
    |_| (1, 0),
    // Just as long as the image.
    |used| (used as usize * RECORD, used),
    |_| (BUFFER, MOST as u32 + 1),
    |_| (BUFFER, MOST as u32 + 2),
    // A buffer with as many records as are used.
    |_| (BUFFER + RECORD, MOST as u32 + 1),
    // The same number where only some of its bits are looked at, or the same bytes
    // where they are counted with 32 bits.
    |used| (BUFFER, used + (1 << 8)),
    |used| (BUFFER, used + (1 << 16)),
    |used| (BUFFER, used + (1 << 25)),
    |used| (BUFFER, used + (1 << 31)),
    |_| (BUFFER, 1 << 25),
    |_| (BUFFER, u32::MAX),
];

/// The buffer and the number spoiled in the way whose turn it is, or with any number.
pub fn spoiled(random: &mut Random, turn: usize, image: &[u8], used: u32) -> (Vec<u8>, u32) {
    let (size, used) = match random.below(10) {
        0 => (BUFFER, random.next() as u32),
        _ => WAYS[turn % WAYS.len()](used),
    };
    (resize(image, size), used)
}

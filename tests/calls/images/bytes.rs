//! Images with a byte wrong, too many or too few, and bytes that never were one.

use super::Records;
use crate::plain::book::RECORD;
use crate::random::Random;

/// One byte anywhere: any other, or one with a bit turned.
pub fn changed(random: &mut Random, records: &mut Records) {
    if records.is_empty() {
        return;
    }
    let at = random.below(records.len());
    let place = random.below(RECORD);
    let byte = random.byte();
    let bit = 1 << random.below(8);
    records[at][place] ^= *random.pick(&[byte, bit, bit]);
}

/// Bytes off the end, one above all, or off the front.
pub fn cut(random: &mut Random, records: &mut Records) {
    let count = *random.pick(&[1, 1, 1, 64, 127]);
    if random.chance(80) {
        if let Some(last) = records.last_mut() {
            last.truncate(RECORD - count);
        }
    } else if let Some(first) = records.first_mut() {
        first.drain(..count);
    }
}

/// Bytes more at the end.
pub fn longer(random: &mut Random, records: &mut Records) {
    let count = *random.pick(&[1, 1, 1, 64, 127]);
    let fill = *random.pick(b" \nLM\0");
    records.push(vec![fill; count]);
}

/// Any bytes, of whole records or not.
pub fn random(random: &mut Random, records: &mut Records) {
    let any = random.below(600);
    let count = *random.pick(&[RECORD, 2 * RECORD, 5 * RECORD, any]);
    *records = vec![random.bytes(count)];
}

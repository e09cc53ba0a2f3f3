//! Records with wrong bytes and of wrong lengths, and wrong reply buffers.

use crate::near::{near, valid_record};
use crate::plain::book::RECORD;
use crate::plain::reply;
use crate::random::Random;
use crate::spell::ROOM;
use crate::stage::Stage;
use crate::words;

/// Bytes that stand in no text: class 0, its edges above all.
const CLASS_0: [u8; 10] = [0, 9, 10, 13, 31, 127, 128, 160, 254, 255];
const CLASS_6: &[u8] = b"!\"$%&',./=?@AELZ\\^_`{|}~";

/// A wrong frame, or a byte that no text of the language has.
pub fn spoil_bytes(random: &mut Random, bytes: &mut [u8]) {
    let at = random.between(1, ROOM);
    match random.below(6) {
        0 => bytes[0] = *random.pick(b"lLeEQq \n\0"),
        1 => bytes[RECORD - 1] = *random.pick(b"\0\r \x09\x0bL"),
        2 | 3 => bytes[at] = *random.pick(&CLASS_0),
        _ => bytes[at] = *random.pick(CLASS_6),
    }
}

/// One to four bits flipped, a part of the bytes moved, or bytes at random.
fn damage(random: &mut Random, bytes: &mut Vec<u8>) {
    match random.below(10) {
        0 => *bytes = random.bytes(RECORD),
        1 | 2 => {
            let by = random.between(1, 5);
            bytes[1..RECORD - 1].rotate_left(by);
        }
        3 | 4 => {
            let at = random.between(1, ROOM);
            bytes[at] = words::token(random).as_bytes()[0];
        }
        _ => {
            for _ in 0..random.between(1, 4) {
                let at = random.below(RECORD);
                bytes[at] ^= 1 << random.below(8);
            }
        }
    }
}

/// The bytes cut, or drawn out with their own beginning.
pub fn resize(bytes: &[u8], length: usize) -> Vec<u8> {
    bytes.iter().cycle().take(length).copied().collect()
}

/// A length other than that of a record, the neighbours above all.
fn wrong_length(random: &mut Random) -> usize {
    let any = random.below(301);
    *random.pick(&[0, 1, 126, 127, 129, 130, 256, any])
}

/// One call that is spoiled in some way.
pub fn noise(stage: &mut Stage) {
    let way = stage.random.below(20);
    if way < 7 {
        return near(stage);
    }
    let mut bytes = valid_record(stage);
    let random = &mut stage.random;
    let mut size = reply::LENGTH;
    match way {
        7..=10 => spoil_bytes(random, &mut bytes),
        11..=13 => damage(random, &mut bytes),
        14..=16 => bytes = resize(&bytes, wrong_length(random)),
        _ => size = *random.pick(&[0, 1, 49, 51, 100, 128]),
    }
    stage.call(bytes, size);
}

/// One call of a stage on which nearly nothing is valid.
pub fn wreck(stage: &mut Stage) {
    let mut bytes = valid_record(stage);
    let random = &mut stage.random;
    for _ in 0..random.between(1, 3) {
        damage(random, &mut bytes);
    }
    if random.chance(30) {
        let length = random.below(301);
        bytes = random.bytes(length);
    }
    let size = if random.chance(20) {
        random.below(129)
    } else {
        reply::LENGTH
    };
    stage.call(bytes, size);
}

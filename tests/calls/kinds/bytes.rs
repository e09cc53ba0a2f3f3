//! Every byte in a text, as byte 0 and as byte 127, and a wrong byte at every place.

use crate::plain::book::RECORD;
use crate::spell::record;
use crate::stage::Stage;

pub fn bytes(stage: &mut Stage) {
    for line in ["role a under top", "role b under a", "role a-b under b"] {
        stage.line(line);
    }
    for place in [0, 2, RECORD - 1] {
        for byte in 0..=255 {
            changed(stage, place, byte);
        }
    }
    for place in 1..RECORD - 1 {
        let byte = *stage.random.pick(&[0, b'\n', b'!', 127, 128, 255]);
        changed(stage, place, byte);
    }
}

/// The act `a b` with one byte changed: in its middle it may part two names,
/// join them or be no part of the language.
fn changed(stage: &mut Stage, place: usize, byte: u8) {
    let mut bytes = record(b'E', "a b");
    bytes[place] = byte;
    stage.say(bytes);
}

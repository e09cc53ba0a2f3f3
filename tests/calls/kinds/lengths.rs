//! Every length of a record from 0 to 300 and every size of a reply buffer from 0 to 128.

use crate::plain::book::RECORD;
use crate::plain::reply;
use crate::spell::{record, text};
use crate::spoil::resize;
use crate::stage::Stage;

pub fn lengths(stage: &mut Stage) {
    // The longest act just fills its columns of the reply.
    stage.line("role abcdefg1 under top");
    stage.say(record(b'E', &["abcdefg1"; 4].join(" ")));
    for _ in 0..4 {
        stage.role();
        stage.rule();
    }
    for length in 0..=300 {
        let bytes = resize(&role_or_act(stage), length);
        stage.call(bytes, reply::LENGTH);
    }
    for size in 0..=128 {
        let bytes = role_or_act(stage);
        // A wrong size is told before a wrong length.
        let length = if stage.random.chance(20) {
            stage.random.below(301)
        } else {
            RECORD
        };
        stage.call(resize(&bytes, length), size);
    }
    for _ in 0..10 {
        stage.act();
    }
}

/// A record that would change something if it were taken.
fn role_or_act(stage: &mut Stage) -> Vec<u8> {
    let (kind, tokens) = if stage.random.chance(30) {
        (b'L', stage.role_tokens())
    } else {
        (b'E', stage.act_tokens())
    };
    let text = text(&mut stage.random, &tokens).unwrap_or_default();
    record(kind, &text)
}

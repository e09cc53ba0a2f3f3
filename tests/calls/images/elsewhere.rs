//! Images of other sessions.

use crate::packed;
use crate::plain::image::image;
use crate::random::Random;
use crate::spell::ROOM;
use crate::stage::Stage;

/// Patterns of three bytes that acts of any roles meet.
const THREES: [&str; 1] = ["<*>"];

/// The image of another session.
pub fn elsewhere(random: &mut Random) -> Vec<u8> {
    image(&small(random).book)
}

/// A small session of its own, which has rules and mostly acts.
pub fn small(random: &mut Random) -> Stage {
    let mut stage = Stage::new(Random::new(random.next()));
    for _ in 0..stage.random.between(1, 6) {
        stage.role();
    }
    // A rule of some patterns, whose marks can be any of many.
    let past = "(<top>*+any)<>[not <top top>]*any";
    rule(&mut stage, "zz-far", past, "<+top *>");
    if stage.random.chance(80) {
        long_rule(&mut stage);
    }
    for _ in 0..stage.random.between(0, 4) {
        stage.rule();
        stage.lead();
        for _ in 0..stage.random.below(4) {
            stage.act();
        }
    }
    stage
}

/// Most responses let the act go on: what is held moves no mark.
fn rule(stage: &mut Stage, name: &str, past: &str, trigger: &str) {
    let responses = ["pass", "pass", "send <#1>", "send <top>", "hold"];
    let response = *stage.random.pick(&responses);
    stage.line(&format!("rule {name}:{past};{trigger};{response}"));
}

/// A rule of so many patterns that marks above 31 may be set, or all those below 32.
fn long_rule(stage: &mut Stage) {
    let size = *stage.random.pick(&[31, 31, 32, 33, 35, 40, 44, 47]);
    if stage.random.chance(50) {
        let any = stage.random.between(48, packed::MOST);
        let size = *stage.random.pick(&[packed::MOST, packed::MOST, any]);
        let line = packed::rule(&mut stage.random, "zl", size, &THREES);
        return stage.line(&line);
    }
    // Room is left for the longest of the responses.
    let room = ROOM - "rule zl:;<*>;send <top>".len() - 2 * size;
    let past = packed::past(&mut stage.random, size, room, &THREES);
    rule(stage, "zl", &past, "<*>");
}

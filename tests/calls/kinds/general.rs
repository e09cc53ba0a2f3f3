//! Roles, rules and acts, with some spoiled records between them.

use crate::spoil;
use crate::stage::Stage;

pub fn general(stage: &mut Stage) {
    for _ in 0..stage.random.between(2, 9) {
        stage.role();
    }
    for _ in 0..stage.random.between(1, 4) {
        stage.rule();
    }
    for _ in 0..stage.random.between(30, 110) {
        turn(stage);
    }
}

/// One call, or a rule with acts planned for it.
pub fn turn(stage: &mut Stage) {
    match stage.random.below(100) {
        0..=3 => stage.role(),
        4..=10 => {
            stage.rule();
            stage.lead();
        }
        11..=16 => {
            stage.lead();
            stage.act();
        }
        17..=34 => spoil::noise(stage),
        _ => stage.act(),
    }
}

/// Nearly nothing is valid, and what is must not have been harmed.
pub fn wreck(stage: &mut Stage) {
    for _ in 0..4 {
        stage.role();
        stage.rule();
    }
    for _ in 0..stage.random.between(20, 60) {
        if stage.random.chance(80) {
            spoil::wreck(stage);
        } else {
            stage.act();
        }
    }
}

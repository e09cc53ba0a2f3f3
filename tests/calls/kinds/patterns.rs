//! Pasts of many patterns, up to the 55 that a line has room for.

use crate::language::Maker;
use crate::packed;
use crate::spell::{record, text};
use crate::spoil;
use crate::stage::Stage;

/// Patterns of three bytes over the roles that these sessions have.
const THREES: [&str; 4] = ["<a>", "<b>", "<c>", "<*>"];

fn roles(stage: &mut Stage) {
    for line in ["role a under top", "role b under a", "role c under top"] {
        stage.line(line);
    }
}

/// 55 patterns in a row, and acts from the first to the last; then another row with
/// some of them longer or starred.
pub fn row(stage: &mut Stage) {
    roles(stage);
    let past = "<>".repeat(packed::MOST);
    stage.line(&format!("rule rw:{past};<>;hold"));
    stage.lead();
    stage.follow_plan();
    // The rule would hold each act of no roles from now on; one with a role ends that.
    stage.say(record(b'E', "a"));
    let size = stage.random.between(31, packed::MOST);
    long_rule(stage, "rx", size);
    stage.lead();
    stage.follow_plan();
}

pub fn patterns(stage: &mut Stage) {
    roles(stage);
    long_rule(stage, "p0", packed::MOST);
    for size in [31, 32, 35] {
        many(stage, &format!("m{size}"), size, false);
    }
    for at in 1..=stage.random.between(2, 4) {
        let size = stage.random.between(31, packed::MOST);
        let unheld = stage.random.chance(10);
        // A longer past than this has no room for much else than its patterns.
        if size <= 40 && (unheld || stage.random.chance(60)) {
            many(stage, &format!("m{at}"), size, unheld);
        } else {
            long_rule(stage, &format!("p{at}"), size);
        }
        stage.lead();
        // Among many acts one that doesn't belong to the plan mostly ends it.
        if stage.random.chance(60) {
            stage.follow_plan();
        } else {
            follow(stage);
        }
    }
}

/// Acts enough to come to the end of a long past.
fn follow(stage: &mut Stage) {
    for _ in 0..stage.random.between(10, 65) {
        if stage.random.chance(3) {
            spoil::noise(stage);
        } else {
            stage.act();
        }
    }
}

/// A rule of that many patterns, most of them the shortest.
fn long_rule(stage: &mut Stage, name: &str, size: usize) {
    let line = packed::rule(&mut stage.random, name, size, &THREES);
    stage.line(&line);
}

/// A rule of that many patterns, of all kinds; where `unheld`, one that uses a role
/// not held.
fn many(stage: &mut Stage, name: &str, size: usize, unheld: bool) {
    let mut roles = vec!["a".to_string(), "b".to_string(), "c".to_string()];
    if unheld {
        roles.push("none".to_string());
    }
    // Where a line has no room, the next try has shorter patterns.
    for short in (10..).step_by(10) {
        let mut maker = Maker::new(&mut stage.random, &roles);
        maker.short = short;
        maker.head(name);
        maker.past(size);
        maker.tail();
        let made = maker.out;
        if text(&mut stage.random, &made).is_some() {
            return stage.tell(b'L', &made);
        }
    }
}

//! Acts that many responses work: about 64 of them, and loops without end.

use crate::kinds::general;
use crate::stage::Stage;

/// Pasts that match every list.
const ALWAYS: [&str; 5] = ["any*", "()*any*", "(any+())*", "()+any any*", "any**"];

/// Responses that hand the act of one role on as it is.
const SAME: [&str; 3] = ["pass", "pass", "send <#1>"];

fn rule(stage: &mut Stage, trigger: &str, response: &str) {
    let past = *stage.random.pick(&ALWAYS);
    let name = format!("r{}", stage.book.rules().len());
    stage.line(&format!("rule {name}: {past}; {trigger}; {response}"));
}

fn act(stage: &mut Stage, text: &str) {
    stage.say(crate::spell::record(b'E', text));
}

/// About 64 responses, and any end.
pub fn chains(stage: &mut Stage) {
    let due = *stage.random.pick(&[62, 63, 64, 64, 65, 65, 66]);
    let end = *stage
        .random
        .pick(&["hold", "pass", "send <#2>", "send <#1 #1>", "anew <top>"]);
    // One hop alone takes all the rules that are held.
    let hops = stage.random.between(1, 12);
    chain(stage, hops, due, end);
}

/// The last response that may be worked, with each way to end.
pub fn committed_64(stage: &mut Stage) {
    chain_64(stage, "send <#1 #1>");
}

pub fn held_64(stage: &mut Stage) {
    chain_64(stage, "hold");
}

pub fn unfit_64(stage: &mut Stage) {
    chain_64(stage, "send <#2>");
}

fn chain_64(stage: &mut Stage, end: &str) {
    let hops = stage.random.between(2, 12);
    chain(stage, hops, 64, end);
}

/// Hops from h0 to the last role, with so many responses between them that all
/// in all `due` are due, the last one of them `end`.
fn chain(stage: &mut Stage, hops: usize, due: usize, end: &str) {
    for hop in 0..=hops {
        stage.line(&format!("role h{hop} under top"));
    }
    rule(stage, &format!("<h{hops}>"), end);
    for hop in 0..hops {
        rule(stage, &format!("<h{hop}>"), &format!("anew <h{}>", hop + 1));
    }
    // The rest is shared out: to every act alike, and one more to the first few.
    let rest = due - hops - 1;
    for _ in 0..rest / (hops + 1) {
        let same = *stage.random.pick(&SAME);
        rule(stage, "<+top>", same);
    }
    for hop in 0..rest % (hops + 1) {
        let same = *stage.random.pick(&SAME);
        rule(stage, &format!("<h{hop}>"), same);
    }
    act(stage, "h0");
    act(stage, "h1");
    for _ in 0..6 {
        stage.act();
    }
    act(stage, "h0");
}

/// Anew that comes round again, by way of one role or more, with other rules among them.
pub fn loops(stage: &mut Stage) {
    let round = stage.random.between(1, 5);
    for at in 0..round {
        stage.line(&format!("role h{at} under top"));
    }
    for at in 0..round {
        let next = (at + 1) % round;
        rule(stage, &format!("<h{at} *>"), &format!("anew <h{next} #1>"));
        if stage.random.chance(40) {
            stage.rule();
        }
    }
    act(stage, "h0");
    for _ in 0..stage.random.between(10, 30) {
        general::turn(stage);
    }
    act(stage, "h0 h0");
}

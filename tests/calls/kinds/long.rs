//! Several hundred acts under a few rules that keep matching.

use crate::spell::record;
use crate::spoil::spoil_bytes;
use crate::stage::Stage;

/// Few of these hold, so that most acts join the list.
const RULES: [&str; 10] = [
    "rule r0: any*<x>; <y>; hold",
    "rule r1: any*; <x *>; send <y #1>",
    "rule r2: (<x><y>+<y><x>+[not <x> or <y>])*; any; pass",
    "rule r3: ([not <x>]*<x>[not <x>]*<x>)*[not <x>]*; <z>; send <x>",
    "rule r4: (any any any)*; <+x>; send <z>",
    "rule r5: any*<+x>any; <z z>; anew <x>",
    "rule r6: (any*<y>)*; <x>; pass",
    "rule r7: [not any]+any any*; <z *>; send <#1 #1>",
    "rule r8: any*<>any*<>any*; <>; send <x y z top>",
    "rule r9: ((()+<y>)*any)*; <y>; anew <y x>",
];

pub fn long(stage: &mut Stage) {
    roles(stage);
    for _ in 0..stage.random.between(200, 500) {
        turn(stage);
    }
}

/// Whole records enough in a row for a batch of 512 and one of 511.
pub fn longest(stage: &mut Stage) {
    roles(stage);
    let end = stage.random.between(1024, 1100);
    while stage.calls.len() < end {
        turn(stage);
        if stage.random.chance(10) {
            spoiled(stage);
        }
    }
}

/// A whole record that is mostly refused.
fn spoiled(stage: &mut Stage) {
    let mut bytes = record(b'E', "x y z");
    spoil_bytes(&mut stage.random, &mut bytes);
    stage.say(bytes);
}

fn roles(stage: &mut Stage) {
    for line in ["role x under top", "role y under x", "role z under top"] {
        stage.line(line);
    }
}

fn turn(stage: &mut Stage) {
    let line = *stage.random.pick(&RULES);
    // A line seen before is refused: its name is taken.
    if stage.random.chance(3) {
        stage.line(line);
    }
    stage.act();
}

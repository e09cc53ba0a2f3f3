//! As many roles and rules as are held, and some more.

use crate::kinds::general;
use crate::spell::tokens;
use crate::stage::Stage;
use crate::words;

/// All the roles first, or all the rules.
pub fn full(stage: &mut Stage) {
    if stage.random.chance(60) {
        full_roles(stage);
        full_rules(stage);
    } else {
        (0..6).for_each(|_| stage.role());
        full_rules(stage);
        full_roles(stage);
    }
    for _ in 0..stage.random.between(20, 60) {
        general::turn(stage);
    }
}

/// Deep: each role mostly stands under the one before. Flat: under any.
fn full_roles(stage: &mut Stage) {
    let deep = stage.random.chance(50);
    while stage.roles.len() < 64 {
        let name = words::long_name(&mut stage.random);
        let last = stage.roles.len() - 1;
        let place = if deep {
            last
        } else {
            stage.random.below(last + 1)
        };
        let parent = stage.roles[place].clone();
        stage.tell(b'L', &tokens(&["role", &name, "under", &parent]));
        if stage.random.chance(10) {
            stage.act();
        }
    }
    stage.line("role one-more under top");
    stage.role();
}

/// Some rules see acts that those declared later don't.
fn full_rules(stage: &mut Stage) {
    while stage.book.rules().len() < 32 {
        stage.rule();
        if stage.random.chance(20) {
            stage.act();
        }
    }
    stage.line("rule one-more: any; any; pass");
    stage.rule();
    // The order of rows 5, 6 and 8 where more than one would do; of patterns there are
    // never too many.
    let many = "<>".repeat(50);
    stage.line(&format!("rule zzz: {many};any;hold"));
    stage.line(&format!("rule zzz: {many};<zzzz>;hold"));
    stage.line(&format!("rule top: {many};<zzzz>;hold"));
    stage.line("rule zzz: any;any;send <zzzz>");
    stage.line("role top under zzzz");
    stage.line("role zzz under zzzz");
}

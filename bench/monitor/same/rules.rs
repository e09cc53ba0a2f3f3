//! A rule as kept, and its positions as events move them on.

use super::encode::Encoded;
use super::event::Event;
use super::matcher::Matcher;
use super::state::{Above, Row, CODE};
use super::walk::Step;

/// The row of a body's code, and the positions at which its past may end.
pub fn compiled(body: &Encoded) -> (Row, u64) {
    let mut row = [0; 128];
    row[0] = body.len as u8;
    row[CODE..].copy_from_slice(&body.code[..128 - CODE]);
    let matcher = Matcher {
        row: &row,
        event: &[],
        above: &[0; 64],
    };
    let step = Step {
        matcher,
        positions: 0,
    };
    let walk = step.past(CODE, 1);
    let trigger = walk.end + 1;
    let (semicolon, _) = matcher.pattern(trigger);
    row[1] = trigger as u8;
    row[2] = semicolon as u8 + 1;
    (row, walk.summary.ends())
}

/// The positions of a rule's past after one more event. Where none is held, none will be.
pub fn moved(row: &Row, positions: u64, event: &Event, above: &Above) -> u64 {
    if positions == 0 {
        return 0;
    }
    let matcher = Matcher {
        row,
        event: event.ids(),
        above,
    };
    let walk = Step { matcher, positions }.past(CODE, 1);
    walk.summary.moved_on(positions)
}

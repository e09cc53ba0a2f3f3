//! The rule language: recognizers of role lines and rule lines, each of which is handed what is left to read.

mod leaves;
mod pasts;
mod patterns;
mod responses;

use super::words::WordKind;
use leaves::{ends, mark_at, word_at, Left};
use pasts::past;
use patterns::pattern;
use responses::response;

pub enum LineKind {
    Role,
    Rule,
}

/// role, a name, under, a name.
fn role(text: &[u8]) -> Left<'_> {
    let name = word_at(text, WordKind::Role)?;
    let under = word_at(name, WordKind::Name)?;
    let parent = word_at(under, WordKind::Under)?;
    word_at(parent, WordKind::Name)
}

/// rule, a name, :, a past, ;, a pattern, ;, a response.
fn rule(text: &[u8]) -> Left<'_> {
    let name = word_at(text, WordKind::Rule)?;
    let colon = word_at(name, WordKind::Name)?;
    let body = mark_at(colon, b':')?;
    let trigger = mark_at(past(body)?, b';')?;
    let answer = mark_at(pattern(trigger)?, b';')?;
    response(answer)
}

/// What a text declares; None where it is no line.
pub fn line_kind(text: &[u8]) -> Option<LineKind> {
    if rule(text).is_some_and(ends) {
        return Some(LineKind::Rule);
    }
    role(text).is_some_and(ends).then_some(LineKind::Role)
}

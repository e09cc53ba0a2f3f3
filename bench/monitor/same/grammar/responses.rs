//! Slots, templates and responses.

use super::leaves::{mark_at, place_at, word_at, Left};
use crate::same::tokens::{next, Token};
use crate::same::words::WordKind;

/// A name, or # and a place.
fn slot(text: &[u8]) -> Left<'_> {
    match mark_at(text, b'#') {
        Some(place) => place_at(place),
        None => word_at(text, WordKind::Name),
    }
}

/// At most four slots between < and >.
fn template(text: &[u8]) -> Left<'_> {
    let mut slots = mark_at(text, b'<')?;
    for _ in 0..4 {
        if let Some(left) = mark_at(slots, b'>') {
            return Some(left);
        }
        slots = slot(slots)?;
    }
    mark_at(slots, b'>')
}

pub fn response(text: &[u8]) -> Left<'_> {
    match next(text)? {
        (Token::Word(WordKind::Pass | WordKind::Hold, _), left) => Some(left),
        (Token::Word(WordKind::Send | WordKind::Anew, _), left) => template(left),
        _ => None,
    }
}

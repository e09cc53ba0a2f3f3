//! The readers of one token.

use crate::same::tokens::{next, Token};
use crate::same::words::WordKind;

/// What is left of the text after a form; None where the text does not begin with it.
pub type Left<'a> = Option<&'a [u8]>;

pub fn mark_at(text: &[u8], mark: u8) -> Left<'_> {
    match next(text)? {
        (Token::Mark(found), left) if found == mark => Some(left),
        _ => None,
    }
}

pub fn word_at(text: &[u8], kind: WordKind) -> Left<'_> {
    match next(text)? {
        (Token::Word(found, _), left) if found == kind => Some(left),
        _ => None,
    }
}

/// A place in an event: one of the digits 1 to 4.
pub fn place_at(text: &[u8]) -> Left<'_> {
    match next(text)? {
        (Token::Word(WordKind::Digit(1..=4), _), left) => Some(left),
        _ => None,
    }
}

/// Whether no token is left.
pub fn ends(text: &[u8]) -> bool {
    next(text).is_none()
}

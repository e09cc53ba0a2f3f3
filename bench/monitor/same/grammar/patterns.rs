//! Items, simple patterns, conditions and patterns.

use super::leaves::{mark_at, word_at, Left};
use crate::same::words::WordKind;

/// A name, or + and a name.
fn item(text: &[u8]) -> Left<'_> {
    let name = mark_at(text, b'+').unwrap_or(text);
    word_at(name, WordKind::Name)
}

fn open_end(text: &[u8]) -> Left<'_> {
    mark_at(mark_at(text, b'*')?, b'>')
}

/// At most four items, an optional *, and >.
fn items(mut text: &[u8]) -> Left<'_> {
    for _ in 0..4 {
        if let Some(left) = mark_at(text, b'>') {
            return Some(left);
        }
        match item(text) {
            Some(left) => text = left,
            None => return open_end(text),
        }
    }
    mark_at(text, b'>').or_else(|| open_end(text))
}

fn simple(text: &[u8]) -> Left<'_> {
    match mark_at(text, b'<') {
        Some(left) => items(left),
        None => word_at(text, WordKind::Any),
    }
}

/// Terms joined by or.
fn condition(text: &[u8]) -> Left<'_> {
    let mut left = term(text)?;
    while let Some(more) = word_at(left, WordKind::Or) {
        left = term(more)?;
    }
    Some(left)
}

fn term(text: &[u8]) -> Left<'_> {
    if let Some(left) = word_at(text, WordKind::Not) {
        return term(left);
    }
    match mark_at(text, b'(') {
        Some(inside) => mark_at(condition(inside)?, b')'),
        None => simple(text),
    }
}

pub fn pattern(text: &[u8]) -> Left<'_> {
    match mark_at(text, b'[') {
        Some(inside) => mark_at(condition(inside)?, b']'),
        None => simple(text),
    }
}

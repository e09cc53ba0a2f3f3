//! Pasts.

use super::leaves::{mark_at, Left};
use super::patterns::pattern;
use crate::same::tokens::{next, Token};
use crate::same::words::WordKind;

/// Sequences joined by +.
pub fn past(text: &[u8]) -> Left<'_> {
    let mut left = sequence(text)?;
    while let Some(more) = mark_at(left, b'+') {
        left = sequence(more)?;
    }
    Some(left)
}

/// Factors side by side.
fn sequence(text: &[u8]) -> Left<'_> {
    let mut left = factor(text)?;
    while factor_begins(left) {
        left = factor(left)?;
    }
    Some(left)
}

fn factor_begins(text: &[u8]) -> bool {
    matches!(
        next(text),
        Some((Token::Mark(b'<' | b'(' | b'['), _) | (Token::Word(WordKind::Any, _), _))
    )
}

/// A base and its stars.
fn factor(text: &[u8]) -> Left<'_> {
    let mut left = base(text)?;
    while let Some(more) = mark_at(left, b'*') {
        left = more;
    }
    Some(left)
}

/// A pattern, (), or a past in round brackets.
fn base(text: &[u8]) -> Left<'_> {
    let Some(inside) = mark_at(text, b'(') else {
        return pattern(text);
    };
    mark_at(inside, b')').or_else(|| mark_at(past(inside)?, b')'))
}

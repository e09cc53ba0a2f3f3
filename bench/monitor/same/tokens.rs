//! The first token of a text, and what is left after it.

use super::classes::is_mark;
use super::words::{skip, word, word_kind, WordKind};

/// A word with its kind, a mark, or a byte that stands in no token.
#[derive(Clone, Copy)]
pub enum Token<'a> {
    Word(WordKind, &'a [u8]),
    Mark(u8),
    Other,
}

/// None where no token is left.
pub fn next(text: &[u8]) -> Option<(Token<'_>, &[u8])> {
    let text = skip(text);
    let (&first, left) = text.split_first()?;
    if is_mark(first) {
        return Some((Token::Mark(first), left));
    }
    let word = word(text);
    if word.is_empty() {
        return Some((Token::Other, left));
    }
    Some((Token::Word(word_kind(word), word), &text[word.len()..]))
}

/// What is left after the first token; all of it where there is none.
pub fn after_first(text: &[u8]) -> &[u8] {
    next(text).map_or(text, |(_, left)| left)
}

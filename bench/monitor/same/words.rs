//! Words as parts of the text, and their kinds.

use super::classes::{in_words, is_letter};

#[derive(Clone, Copy, PartialEq)]
pub enum WordKind {
    Name,
    Role,
    Under,
    Rule,
    Any,
    Not,
    Or,
    Pass,
    Hold,
    Send,
    Anew,
    Digit(u8),
    Other,
}

/// The word that a text begins with, which may be empty.
pub fn word(text: &[u8]) -> &[u8] {
    let length = text.iter().take_while(|byte| in_words(**byte)).count();
    &text[..length]
}

/// What is left after the spaces that a text begins with. Most begin with none, and that is told by the first byte, with no call.
#[inline(always)]
pub fn skip(text: &[u8]) -> &[u8] {
    match text {
        [b' ', ..] => skip_all(text),
        _ => text,
    }
}

/// Between words stands mostly one; the many are those that a record is filled up with.
#[inline(never)]
fn skip_all(text: &[u8]) -> &[u8] {
    match text {
        [b' ', b' ', ..] => skip_each(skip_sixteens(text)),
        _ => skip_each(text),
    }
}

fn skip_sixteens(mut text: &[u8]) -> &[u8] {
    while let Some(left) = text.strip_prefix(&[b' '; 16]) {
        text = left;
    }
    text
}

fn skip_each(text: &[u8]) -> &[u8] {
    let spaces = text.iter().take_while(|byte| **byte == b' ').count();
    &text[spaces..]
}

/// Reserved words are compared as fixed bytes.
pub fn word_kind(word: &[u8]) -> WordKind {
    if word == b"role" {
        return WordKind::Role;
    }
    if word == b"under" {
        return WordKind::Under;
    }
    if word == b"rule" {
        return WordKind::Rule;
    }
    if word == b"any" {
        return WordKind::Any;
    }
    if word == b"not" {
        return WordKind::Not;
    }
    if word == b"or" {
        return WordKind::Or;
    }
    if word == b"pass" {
        return WordKind::Pass;
    }
    if word == b"hold" {
        return WordKind::Hold;
    }
    if word == b"send" {
        return WordKind::Send;
    }
    if word == b"anew" {
        return WordKind::Anew;
    }

    match word {
        [first, ..] if word.len() <= 8 && is_letter(*first) => WordKind::Name,
        [digit @ b'0'..=b'9'] => WordKind::Digit(digit - b'0'),
        _ => WordKind::Other,
    }
}

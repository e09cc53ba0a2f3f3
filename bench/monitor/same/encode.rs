//! A rule's body as code, one byte a token: marks as they are, keywords by a letter, digits, and 128 and the id for a name.

use super::ids::{id_of, UNHELD};
use super::tokens::{next, Token};
use super::words::WordKind;

/// Of the code the first `len` bytes count; `unknown` says whether a name in it is not held.
pub struct Encoded {
    pub code: [u8; 126],
    pub len: usize,
    pub unknown: bool,
}

impl Encoded {
    pub fn bytes(&self) -> &[u8] {
        &self.code[..self.len]
    }
}

/// The byte of a word that is no name.
fn letter(kind: WordKind) -> u8 {
    match kind {
        WordKind::Any => b'a',
        WordKind::Not => b'n',
        WordKind::Or => b'o',
        WordKind::Pass => b'p',
        WordKind::Hold => b'h',
        WordKind::Send => b's',
        WordKind::Anew => b'w',
        WordKind::Digit(digit) => b'0' + digit,
        _ => 0,
    }
}

pub fn encode(text: &[u8], names: &[u64]) -> Encoded {
    let mut encoded = Encoded {
        code: [0; 126],
        len: 0,
        unknown: false,
    };
    let mut left = text;
    while let Some((token, after)) = next(left) {
        let byte = match token {
            Token::Word(WordKind::Name, word) => 128 + id_of(word, names),
            Token::Word(kind, _) => letter(kind),
            Token::Mark(mark) => mark,
            Token::Other => 0,
        };
        let Some(place) = encoded.code.get_mut(encoded.len) else {
            break;
        };
        *place = byte;
        encoded.len += 1;
        encoded.unknown |= byte == 128 + UNHELD;
        left = after;
    }
    encoded
}

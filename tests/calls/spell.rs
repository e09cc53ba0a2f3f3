//! From tokens to a record of 128 bytes.

use crate::plain::book::RECORD;
use crate::random::Random;

/// The bytes of a text.
pub const ROOM: usize = RECORD - 2;

pub type Tokens = Vec<String>;

/// The texts as tokens, for lines that are written out.
pub fn tokens(words: &[&str]) -> Tokens {
    words.iter().map(|word| word.to_string()).collect()
}

fn ends_in_word(token: &str) -> bool {
    token.ends_with(|c: char| c.is_ascii_alphanumeric() || c == '-')
}

fn begins_word(token: &str) -> bool {
    token.starts_with(|c: char| c.is_ascii_alphanumeric() || c == '-')
}

/// The tokens with `spaces()` more spaces before each than words need.
fn written(tokens: &[String], mut spaces: impl FnMut() -> usize) -> String {
    let mut text = String::new();
    for token in tokens {
        if ends_in_word(&text) && begins_word(token) {
            text.push(' ');
        }
        text.push_str(&" ".repeat(spaces()));
        text.push_str(token);
    }
    text
}

/// A text of the tokens with random spaces, or nothing when there is no room.
pub fn text(random: &mut Random, tokens: &[String]) -> Option<String> {
    let mut room = ROOM.checked_sub(written(tokens, || 0).len())?;
    let percent = *random.pick(&[0, 0, 10, 50, 100]);
    Some(written(tokens, || {
        let wanted = if random.chance(percent) {
            random.between(1, 4)
        } else {
            0
        };
        let spaces = wanted.min(room);
        room -= spaces;
        spaces
    }))
}

/// A record of that kind; the text is cut, or filled up with spaces.
pub fn record(kind: u8, text: &str) -> Vec<u8> {
    let mut bytes = vec![kind];
    bytes.extend(text.bytes().chain(std::iter::repeat(b' ')).take(ROOM));
    bytes.push(b'\n');
    bytes
}

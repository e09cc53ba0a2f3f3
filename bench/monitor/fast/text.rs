//! The tokens of a text, read one after another with nothing kept.

/// A packed name: eight columns, the first the highest byte, padded with spaces.
pub const fn pack(word: &[u8]) -> u64 {
    let mut packed = 0;
    let mut i = 0;
    while i < 8 {
        let column = if i < word.len() { word[i] } else { b' ' };
        packed = packed << 8 | column as u64;
        i += 1;
    }
    packed
}

const RESERVED: [u64; 10] = [
    pack(b"role"),
    pack(b"under"),
    pack(b"rule"),
    pack(b"any"),
    pack(b"not"),
    pack(b"or"),
    pack(b"pass"),
    pack(b"hold"),
    pack(b"send"),
    pack(b"anew"),
];

#[derive(Clone, Copy, PartialEq)]
pub enum Token<'a> {
    End,
    Word(&'a [u8]),
    Sign(u8),
    /// A byte that stands in no token.
    Other,
}

fn in_word(byte: u8) -> bool {
    matches!(byte, b'a'..=b'z' | b'0'..=b'9' | b'-')
}

/// Takes the first token off a text.
pub fn next<'a>(text: &mut &'a [u8]) -> Token<'a> {
    let start = text.iter().position(|&byte| byte != b' ');
    let rest = &text[start.unwrap_or(text.len())..];
    if rest.is_empty() {
        *text = rest;
        return Token::End;
    }
    let length = rest
        .iter()
        .position(|&byte| !in_word(byte))
        .unwrap_or(rest.len());
    if length > 0 {
        *text = &rest[length..];
        return Token::Word(&rest[..length]);
    }
    *text = &rest[1..];
    match rest[0] {
        b':' | b';' | b'(' | b')' | b'[' | b']' | b'<' | b'>' | b'+' | b'*' | b'#' => {
            Token::Sign(rest[0])
        }
        _ => Token::Other,
    }
}

/// A word as a packed name, where it is a name.
pub fn name(word: &[u8]) -> Option<u64> {
    let packed = pack(word);
    let like = word.len() <= 8 && word[0].is_ascii_lowercase();
    if like && !RESERVED.contains(&packed) {
        Some(packed)
    } else {
        None
    }
}

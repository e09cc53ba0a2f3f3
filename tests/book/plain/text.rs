//! The bytes of a record's text: their classes, and the tokens they make.

/// The class of one text byte.
pub fn class(byte: u8) -> u8 {
    match byte {
        b' ' => 1,
        b'a'..=b'z' => 2,
        b'0'..=b'9' => 3,
        b'-' => 4,
        b':' | b';' | b'(' | b')' | b'[' | b']' | b'<' | b'>' | b'+' | b'*' | b'#' => 5,
        33..=126 => 6,
        _ => 0,
    }
}

/// A token is a word, or one byte of class 5.
#[derive(Clone, Copy, PartialEq, Eq, Debug)]
pub enum Token<'a> {
    Word(&'a [u8]),
    Sign(u8),
}

impl Token<'_> {
    pub fn bytes(&self) -> Vec<u8> {
        match self {
            Token::Word(word) => word.to_vec(),
            Token::Sign(sign) => vec![*sign],
        }
    }
}

/// Whether the byte is of a word.
pub fn in_word(byte: u8) -> bool {
    (2..=4).contains(&class(byte))
}

/// The text as tokens, or nothing when a byte stands in it that no token and
/// no space can take: class 6 belongs to no line of the language.
pub fn tokens(text: &[u8]) -> Option<Vec<Token<'_>>> {
    let mut found = Vec::new();
    let mut rest = text;
    while let Some(&byte) = rest.first() {
        let length = if in_word(byte) {
            // A word is the longest run, so it ends only where the run does.
            let length = rest.iter().take_while(|&&b| in_word(b)).count();
            found.push(Token::Word(&rest[..length]));
            length
        } else {
            match class(byte) {
                1 => {}
                5 => found.push(Token::Sign(byte)),
                _ => return None,
            }
            1
        };
        rest = &rest[length..];
    }
    Some(found)
}

const RESERVED: [&[u8]; 10] = [
    b"role", b"under", b"rule", b"any", b"not", b"or", b"pass", b"hold", b"send", b"anew",
];

/// A name is a word of 1 to 8 bytes that begins with a letter and isn't reserved.
pub fn is_name(word: &[u8]) -> bool {
    let letter_first = word.first().map_or(false, |&b| class(b) == 2);
    letter_first && word.len() <= 8 && !RESERVED.contains(&word)
}

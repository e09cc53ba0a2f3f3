//! The classes of bytes.

pub fn is_letter(byte: u8) -> bool {
    byte.is_ascii_lowercase()
}

pub fn is_mark(byte: u8) -> bool {
    matches!(
        byte,
        b':' | b';' | b'(' | b')' | b'[' | b']' | b'<' | b'>' | b'+' | b'*' | b'#'
    )
}

pub fn in_words(byte: u8) -> bool {
    is_letter(byte) || byte.is_ascii_digit() || byte == b'-'
}

/// Whether every byte has a class. Every one is asked, so that the compiler asks many at a time.
pub fn all_classed(text: &[u8]) -> bool {
    let classed = |byte: &u8| matches!(byte, b' '..=b'~');
    text.iter().fold(true, |all, byte| all & classed(byte))
}

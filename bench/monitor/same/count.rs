//! The number of patterns in a past, counted over its code.

/// How many patterns begin before the first `;`.
pub fn patterns(code: &[u8]) -> usize {
    let mut inside = false;
    let mut count = 0;
    for &byte in code.iter().take_while(|byte| **byte != b';') {
        count += usize::from(!inside && matches!(byte, b'a' | b'<' | b'['));
        inside = if inside { byte != b']' } else { byte == b'[' };
    }
    count
}

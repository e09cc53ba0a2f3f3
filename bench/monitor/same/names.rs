//! Names as numbers.

/// The first eight columns of a word padded with spaces.
pub fn pack(word: &[u8]) -> u64 {
    let column = |i| word.get(i).copied().unwrap_or(b' ');
    u64::from_be_bytes(std::array::from_fn(column))
}

/// How many columns of a packed name are no spaces.
pub fn length(columns: &[u8; 8]) -> usize {
    columns.iter().take_while(|byte| **byte != b' ').count()
}

/// The place of a name among those held.
pub fn find(names: &[u64], name: u64) -> Option<usize> {
    names.iter().position(|&held| held == name)
}

//! The id of a name.

use super::names::{find, pack};

/// The id of a name that is not held.
pub const UNHELD: u8 = 127;

/// The place of a name among those held.
pub fn id_of(word: &[u8], names: &[u64]) -> u8 {
    find(names, pack(word)).map_or(UNHELD, |place| place as u8)
}

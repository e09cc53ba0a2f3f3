//! Lines that are in the language, read to ids.

use super::count::patterns;
use super::encode::{encode, Encoded};
use super::names::{find, pack};
use super::tokens::after_first;
use super::words::{skip, word};

const MOST_PATTERNS: usize = 63;

/// A rule's name, whether its past has few enough patterns, and the code of what stands after `rule NAME :`.
pub struct RuleLine {
    pub name: u64,
    pub fits: bool,
    pub body: Encoded,
}

/// A role's name, and its parent's place among the names held.
pub struct RoleLine {
    pub name: u64,
    pub parent: Option<usize>,
}

/// The word in front, packed.
fn leading(text: &[u8]) -> u64 {
    pack(word(skip(text)))
}

pub fn rule_line(text: &[u8], names: &[u64]) -> RuleLine {
    let named = after_first(text);
    let colon = after_first(named);
    let body = encode(after_first(colon), names);
    RuleLine {
        name: leading(named),
        fits: patterns(body.bytes()) <= MOST_PATTERNS,
        body,
    }
}

pub fn role_line(text: &[u8], names: &[u64]) -> RoleLine {
    let second = after_first(text);
    let under = after_first(second);
    RoleLine {
        name: leading(second),
        parent: find(names, leading(after_first(under))),
    }
}

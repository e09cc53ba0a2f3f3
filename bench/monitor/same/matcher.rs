//! Patterns judged over their code.

use super::state::{Above, Row};

/// A rule's row, the event that it is judged for, and of each role the set of those above it.
#[derive(Clone, Copy)]
pub struct Matcher<'a> {
    pub row: &'a Row,
    pub event: &'a [u8],
    pub above: &'a Above,
}

/// Where a spelling ends, and whether the event meets what it spells.
pub type Judged = (usize, bool);

impl Matcher<'_> {
    /// The byte at a place of the row. No code that is kept ends before its response does, so that no place is beyond it.
    pub fn byte(&self, at: usize) -> u8 {
        self.row[at % 128]
    }

    /// A condition by its nesting: a whole one, or one term of it.
    fn judge(&self, at: usize, whole: bool) -> Judged {
        if whole {
            let (mut end, mut met) = self.judge(at, false);
            while self.byte(end) == b'o' {
                let (after, other) = self.judge(end + 1, false);
                end = after;
                met |= other;
            }
            return (end, met);
        }
        match self.byte(at) {
            b'n' => {
                let (end, met) = self.judge(at + 1, false);
                (end, !met)
            }
            b'a' => (at + 1, true),
            b'<' => self.items(at + 1),
            _ => {
                let (end, met) = self.judge(at + 1, true);
                (end + 1, met)
            }
        }
    }

    /// A pattern: any, a simple pattern, or a condition in square brackets, which is read as a term is.
    pub fn pattern(&self, at: usize) -> Judged {
        match self.byte(at) {
            b'a' => (at + 1, true),
            b'<' => self.items(at + 1),
            _ => self.judge(at, false),
        }
    }
}

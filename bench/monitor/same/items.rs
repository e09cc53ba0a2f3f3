//! The items of a simple pattern, judged in turn until one is not met.

use super::matcher::{Judged, Matcher};

impl Matcher<'_> {
    /// Whether a role is the one that a byte of code names or, under, one below it.
    pub fn names_role(&self, under: bool, byte: u8, role: u8) -> bool {
        let named = byte & 127;
        if under {
            self.above[usize::from(role) % 64] >> (named % 64) & 1 == 1
        } else {
            role == named
        }
    }

    /// The place after the item at `at`, whose first byte is given, where a role meets it.
    fn met_item(&self, first: u8, at: usize, role: u8) -> Option<usize> {
        if first != b'+' {
            return self.names_role(false, first, role).then_some(at + 1);
        }
        let named = self.byte(at + 1);
        self.names_role(true, named, role).then_some(at + 2)
    }

    /// Where the items from a place on end: after their `>`.
    fn items_end(&self, at: usize) -> usize {
        let left = self.row.iter().skip(at);
        at + 1 + left.take_while(|byte| **byte != b'>').count()
    }

    /// Items, after `<`, against the roles of the event. The first that is not met decides, and those after it are passed over.
    pub fn items(&self, mut at: usize) -> Judged {
        for &role in self.event {
            match self.byte(at) {
                b'>' => return (at + 1, false),
                b'*' => return (at + 2, true),
                first => match self.met_item(first, at, role) {
                    Some(next) => at = next,
                    None => return (self.items_end(at), false),
                },
            }
        }
        match self.byte(at) {
            b'>' => (at + 1, true),
            b'*' => (at + 2, true),
            _ => (self.items_end(at), false),
        }
    }
}

//! Whether an event meets a pattern, where no one asks for the pattern's end: nothing is read past what decides.

use super::matcher::Matcher;

impl Matcher<'_> {
    /// Whether the items after `<` are met by the roles of the event.
    fn items_meet(&self, mut at: usize) -> bool {
        for &role in self.event {
            let (under, named) = match self.byte(at) {
                b'>' => return false,
                b'*' => return true,
                b'+' => (true, self.byte(at + 1)),
                named => (false, named),
            };
            if !self.names_role(under, named, role) {
                return false;
            }
            at += 1 + usize::from(under);
        }
        matches!(self.byte(at), b'>' | b'*')
    }

    /// Whether the event meets the pattern at a place. A condition is judged to its end.
    pub fn meets(&self, at: usize) -> bool {
        match self.byte(at) {
            b'a' => true,
            b'<' => self.items_meet(at + 1),
            _ => self.pattern(at).1,
        }
    }
}

//! A rule as kept.

use super::automaton::Automaton;
use super::patterns::Pattern;
use super::roles::Act;

pub struct Rule {
    pub name: u64,
    pub past: Automaton,
    pub trigger: Pattern,
    pub response: Response,
}

pub enum Response {
    Pass,
    Hold,
    Send(Template),
    Anew(Template),
}

/// A role's id, or a place in the act counted from 0.
#[derive(Clone, Copy)]
pub enum Slot {
    Role(u8),
    Place(usize),
}

/// The first `len` slots count.
pub struct Template {
    pub len: usize,
    pub slots: [Slot; 4],
}

impl Template {
    /// The act made of an act; nothing where a place is beyond its length.
    pub fn fill(&self, act: &Act) -> Option<Act> {
        let mut ids = [0; 4];
        for (id, slot) in ids.iter_mut().zip(&self.slots[..self.len]) {
            *id = match *slot {
                Slot::Role(role) => role,
                Slot::Place(place) if place < act.len => act.ids[place],
                Slot::Place(_) => return None,
            };
        }
        Some(Act { len: self.len, ids })
    }
}

impl Rule {
    /// The bytes that it takes beside its own.
    pub fn heap(&self) -> usize {
        self.past.heap() + self.trigger.heap()
    }
}

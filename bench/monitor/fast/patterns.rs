//! Patterns, and whether an act meets one.

use super::roles::{Act, Roles};

/// That role or, with `under`, that role or one below it.
#[derive(Clone, Copy, Default)]
pub struct Item {
    pub role: u8,
    pub under: bool,
}

/// The first `len` items count; `rest` where `*` stands last.
#[derive(Clone, Copy, Default)]
pub struct Simple {
    pub items: [Item; 4],
    pub len: usize,
    pub rest: bool,
}

pub enum Pattern {
    Simple(Simple),
    Not(Box<Pattern>),
    Or(Vec<Pattern>),
}

impl Simple {
    fn meets(&self, act: &Act, roles: &Roles) -> bool {
        if act.len != self.len && !(self.rest && act.len > self.len) {
            return false;
        }
        let mut pairs = self.items[..self.len].iter().zip(&act.ids);
        pairs.all(|(item, &id)| {
            item.role == id || item.under && roles.above[id as usize] >> item.role & 1 == 1
        })
    }
}

impl Pattern {
    pub fn meets(&self, act: &Act, roles: &Roles) -> bool {
        match self {
            Pattern::Simple(simple) => simple.meets(act, roles),
            Pattern::Not(inside) => !inside.meets(act, roles),
            Pattern::Or(terms) => terms.iter().any(|term| term.meets(act, roles)),
        }
    }

    /// The bytes that it takes beside its own.
    pub fn heap(&self) -> usize {
        let of = |p: &Pattern| std::mem::size_of::<Pattern>() + p.heap();
        match self {
            Pattern::Simple(_) => 0,
            Pattern::Not(inside) => of(inside),
            Pattern::Or(terms) => terms.iter().map(of).sum(),
        }
    }
}

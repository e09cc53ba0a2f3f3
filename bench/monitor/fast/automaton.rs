//! A past as a position automaton: bit k of a set is position k, and what may follow each position is worked out when the rule is taken.

use super::patterns::Pattern;
use super::roles::{Act, Roles};

/// `follow[k]` is what may come after position k; after position 0, what may come first. Pattern k stands at `patterns[k - 1]`.
pub struct Automaton {
    pub patterns: Vec<Pattern>,
    follow: Vec<u64>,
    ends: u64,
}

/// The positions that may begin and end a part of a past, and whether it may be empty.
#[derive(Clone, Copy)]
pub struct Part {
    empty: bool,
    first: u64,
    last: u64,
}

/// The part that matches the empty list alone.
pub const EMPTY: Part = Part {
    empty: true,
    first: 0,
    last: 0,
};

fn only_if(b: bool, set: u64) -> u64 {
    if b {
        set
    } else {
        0
    }
}

/// The numbers in a set, the lowest first.
fn numbers(mut set: u64) -> impl Iterator<Item = usize> {
    std::iter::from_fn(move || {
        if set == 0 {
            return None;
        }
        let lowest = set.trailing_zeros() as usize;
        set &= set - 1;
        Some(lowest)
    })
}

impl Automaton {
    pub fn new() -> Automaton {
        Automaton {
            patterns: Vec::with_capacity(32),
            follow: Vec::with_capacity(32),
            ends: 0,
        }
    }

    /// One more pattern. Two bytes of text make a pattern at the least, and a line has seven before its past, so that there are never more than 59.
    pub fn pattern(&mut self, pattern: Pattern) -> Part {
        if self.follow.is_empty() {
            self.follow.push(0);
        }
        self.patterns.push(pattern);
        self.follow.push(0);
        let own = 1 << self.patterns.len();
        Part {
            empty: false,
            first: own,
            last: own,
        }
    }

    fn join(&mut self, from: u64, to: u64) {
        for k in numbers(from) {
            self.follow[k] |= to;
        }
    }

    pub fn in_order(&mut self, p: Part, q: Part) -> Part {
        self.join(p.last, q.first);
        Part {
            empty: p.empty && q.empty,
            first: p.first | only_if(p.empty, q.first),
            last: q.last | only_if(q.empty, p.last),
        }
    }

    pub fn either(&mut self, p: Part, q: Part) -> Part {
        Part {
            empty: p.empty || q.empty,
            first: p.first | q.first,
            last: p.last | q.last,
        }
    }

    pub fn star(&mut self, p: Part) -> Part {
        self.join(p.last, p.first);
        Part { empty: true, ..p }
    }

    /// The whole past is read.
    pub fn finish(&mut self, whole: Part) {
        self.follow.resize(self.patterns.len() + 1, 0);
        self.follow[0] = whole.first;
        self.ends = whole.last | whole.empty as u64;
    }

    pub fn matches(&self, held: u64) -> bool {
        held & self.ends != 0
    }

    /// The positions after one more act.
    pub fn step(&self, held: u64, act: &Act, roles: &Roles) -> u64 {
        let reached = numbers(held).fold(0, |set, k| set | self.follow[k]);
        let met = |k: &usize| self.patterns[k - 1].meets(act, roles);
        numbers(reached).filter(met).fold(0, |set, k| set | 1 << k)
    }

    /// The bytes that it takes beside its own.
    pub fn heap(&self) -> usize {
        let inside: usize = self.patterns.iter().map(Pattern::heap).sum();
        self.patterns.capacity() * std::mem::size_of::<Pattern>()
            + self.follow.capacity() * 8
            + inside
    }
}

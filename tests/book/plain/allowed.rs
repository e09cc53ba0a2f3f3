//! The lists of numbered patterns that a past allows, by what stands next to
//! what in them: enough to follow marks whose acts nobody knows.

use std::collections::BTreeSet;

use super::marks::Marks;
use super::meets::meets;
use super::roles::Roles;
use super::survey::conditions;
use super::tree::{Act, Past};

/// Patterns by their numbers, from 1.
#[derive(Clone, Default)]
pub struct Allowed {
    /// Whether the empty list is allowed.
    empty: bool,
    /// Those that may come first, and those that may end a list.
    first: BTreeSet<usize>,
    last: BTreeSet<usize>,
    /// `(j, k)` where j may stand just before k.
    neighbours: BTreeSet<(usize, usize)>,
}

impl Allowed {
    pub fn by(past: &Past) -> Allowed {
        Allowed::numbered(past, &mut 1)
    }

    /// `next` is the number of the next pattern from the left.
    fn numbered(past: &Past, next: &mut usize) -> Allowed {
        match past {
            Past::Pattern(_) => {
                let number = *next;
                *next += 1;
                Allowed {
                    empty: false,
                    first: BTreeSet::from([number]),
                    last: BTreeSet::from([number]),
                    neighbours: BTreeSet::new(),
                }
            }
            Past::Empty => Allowed::only_empty(),
            Past::Side(parts) => parts.iter().fold(Allowed::only_empty(), |before, part| {
                before.then(Allowed::numbered(part, next))
            }),
            Past::Either(sides) => sides.iter().fold(Allowed::default(), |one, side| {
                one.or(Allowed::numbered(side, next))
            }),
            Past::Star(inside) => Allowed::numbered(inside, next).repeated(),
        }
    }

    fn only_empty() -> Allowed {
        Allowed {
            empty: true,
            ..Allowed::default()
        }
    }

    /// A list of the one, and behind it one of the other.
    fn then(mut self, after: Allowed) -> Allowed {
        self.meet(&after.first);
        self.neighbours.extend(after.neighbours);
        if self.empty {
            self.first.extend(after.first);
        }
        if !after.empty {
            self.last.clear();
        }
        self.last.extend(after.last);
        self.empty &= after.empty;
        self
    }

    fn or(mut self, other: Allowed) -> Allowed {
        self.empty |= other.empty;
        self.first.extend(other.first);
        self.last.extend(other.last);
        self.neighbours.extend(other.neighbours);
        self
    }

    /// Any number of lists one behind the other.
    fn repeated(mut self) -> Allowed {
        let first = self.first.clone();
        self.meet(&first);
        self.empty = true;
        self
    }

    /// What ends a list may stand just before each of these.
    fn meet(&mut self, first: &BTreeSet<usize>) {
        for &j in &self.last {
            self.neighbours.extend(first.iter().map(|&k| (j, k)));
        }
    }

    /// Whether a mark may stand just before pattern k; mark 0 before the first.
    pub fn before(&self, mark: usize, k: usize) -> bool {
        if mark == 0 {
            self.first.contains(&k)
        } else {
            self.neighbours.contains(&(mark, k))
        }
    }

    /// Whether a mark may end a list; mark 0 when the empty list is allowed.
    pub fn ends(&self, mark: usize) -> bool {
        if mark == 0 {
            self.empty
        } else {
            self.last.contains(&mark)
        }
    }

    /// The past matches when some set mark may end a list.
    pub fn matches(&self, marks: &Marks) -> bool {
        marks.iter().any(|&mark| self.ends(mark))
    }

    /// The marks after a committed act: those k where it meets pattern k and some
    /// mark set until then may stand just before k. The past is the one that
    /// these lists belong to.
    pub fn after(&self, marks: &Marks, past: &Past, act: &Act, roles: &Roles) -> Marks {
        let numbered = (1..).zip(conditions(past));
        let set = numbered.filter(|&(k, pattern)| {
            meets(act, pattern, roles) && marks.iter().any(|&mark| self.before(mark, k))
        });
        set.map(|(k, _)| k).collect()
    }
}

//! The marks of a rule, worked out afresh from all acts since its declaration.

use std::collections::BTreeSet;

use super::matcher::{ends, star_ends};
use super::meets::meets;
use super::roles::Roles;
use super::survey::patterns;
use super::tree::{Act, Past};

/// The numbers of the marks set.
pub type Marks = BTreeSet<usize>;

/// Mark 0 while there is no act. Mark k when the acts can be read, each meeting
/// its pattern, as the start of a list of numbered patterns that the past
/// allows, ending with pattern k.
pub fn afresh(past: &Past, acts: &[Act], roles: &Roles) -> Marks {
    let mut marks = Marks::new();
    match acts.split_last() {
        None => drop(marks.insert(0)),
        Some((last, before)) => {
            let reading = Reading {
                before,
                last,
                roles,
            };
            reading.last_readers(past, &[0], 1, &mut marks);
        }
    }
    marks
}

/// The acts before the last one, and the last one, which pattern k has to read.
struct Reading<'a> {
    before: &'a [Act],
    last: &'a Act,
    roles: &'a Roles,
}

impl Reading<'_> {
    /// The patterns that can read the last act, where the past begins to read at
    /// one of the starts and its patterns are numbered from `first` on. What
    /// stands after such a pattern is open: every past allows some list, so any
    /// start can be gone on with.
    fn last_readers(&self, past: &Past, starts: &[usize], first: usize, marks: &mut Marks) {
        match past {
            Past::Pattern(pattern) => {
                let due = starts.contains(&self.before.len());
                if due && meets(self.last, pattern, self.roles) {
                    marks.insert(first);
                }
            }
            Past::Empty => {}
            Past::Side(parts) => {
                let mut points = starts.to_vec();
                let mut number = first;
                for part in parts {
                    self.last_readers(part, &points, number, marks);
                    // One part ends where the next one starts.
                    points = ends(part, self.before, self.roles, &points);
                    number += patterns(part);
                }
            }
            Past::Either(sides) => {
                let mut number = first;
                for side in sides {
                    self.last_readers(side, starts, number, marks);
                    number += patterns(side);
                }
            }
            Past::Star(inside) => {
                // A round may start wherever any number of rounds ends.
                let points = star_ends(inside, self.before, self.roles, starts);
                self.last_readers(inside, &points, first, marks);
            }
        }
    }
}

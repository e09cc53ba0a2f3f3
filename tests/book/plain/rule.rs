//! A rule held, and what it has seen of the acts.

use super::allowed::Allowed;
use super::marks::{self, Marks};
use super::matcher;
use super::roles::Roles;
use super::tree::{Act, RuleLine};

#[derive(Clone)]
pub struct Rule {
    pub line: RuleLine,
    /// The tokens of its line, as they were taken.
    pub tokens: Vec<Vec<u8>>,
    pub seen: Seen,
}

/// By a line a rule comes with its start, and all else is read off the list.
/// By an image from elsewhere it comes with marks, as nobody knows the acts
/// that they stand for.
#[derive(Clone)]
pub enum Seen {
    /// How long the list was when the rule was declared.
    From(usize),
    /// The marks that an image gave, followed since.
    Given(Followed),
}

#[derive(Clone)]
pub struct Followed {
    pub marks: Marks,
    allowed: Allowed,
}

impl Rule {
    /// From now on the rule goes by these marks.
    pub fn give(&mut self, marks: Marks) {
        let allowed = Allowed::by(&self.line.past);
        self.seen = Seen::Given(Followed { marks, allowed });
    }

    /// Whether the past matches, where the list is the one of the book.
    pub fn matches(&self, list: &[Act], roles: &Roles) -> bool {
        match &self.seen {
            Seen::From(start) => matcher::matches(&self.line.past, &list[*start..], roles),
            Seen::Given(followed) => followed.allowed.matches(&followed.marks),
        }
    }

    /// The marks set, where the list is the one of the book.
    pub fn marks(&self, list: &[Act], roles: &Roles) -> Marks {
        match &self.seen {
            Seen::From(start) => marks::afresh(&self.line.past, &list[*start..], roles),
            Seen::Given(followed) => followed.marks.clone(),
        }
    }

    /// An act is committed. What is read off the list needs nothing more.
    pub fn committed(&mut self, act: &Act, roles: &Roles) {
        if let Seen::Given(followed) = &mut self.seen {
            let allowed = &followed.allowed;
            followed.marks = allowed.after(&followed.marks, &self.line.past, act, roles);
        }
    }
}

//! When a past matches, written from document 01 ("When an act meets a pattern", "When a past matches") and Appendix A of source document 004:
//! by trying every split of the list. It shares nothing with the monitor.

use crate::probe::{Event, PARENTS};
use crate::tree::{Condition, Item, Past, Pattern, Simple};

/// "A role is below itself."
pub fn below(role: u8, other: u8) -> bool {
    role == other || (role != 0 && below(PARENTS[role as usize], other))
}

fn meets_item(item: &Item, role: u8) -> bool {
    match item {
        Item::Exact(p) => role == *p,
        Item::Under(p) => below(role, *p),
    }
}

/// "A simple pattern takes items and roles in turn, and lengths are equal unless `*` stands last, which takes the rest, none included; any is `<*>`."
fn meets_simple(simple: &Simple, event: &[u8]) -> bool {
    match simple {
        Simple::Any => true,
        Simple::Call(items, rest) => {
            let fits = if *rest {
                event.len() >= items.len()
            } else {
                event.len() == items.len()
            };
            fits && items
                .iter()
                .zip(event)
                .all(|(item, role)| meets_item(item, *role))
        }
    }
}

/// "A condition is judged by its nesting: not is the opposite of the term inside it."
pub fn meets_condition(condition: &Condition, event: &[u8]) -> bool {
    match condition {
        Condition::Simple(simple) => meets_simple(simple, event),
        Condition::Not(inner) => !meets_condition(inner, event),
        Condition::Or(terms) => terms.iter().any(|term| meets_condition(term, event)),
        Condition::Bracketed(inner) => meets_condition(inner, event),
    }
}

pub fn meets(pattern: &Pattern, event: &[u8]) -> bool {
    match pattern {
        Pattern::Simple(simple) => meets_simple(simple, event),
        Pattern::Condition(condition) => meets_condition(condition, event),
    }
}

/// Appendix A's forms, with numbers for the parts.
enum Form<'a> {
    /// the pattern's number, counted from the left
    Pattern(usize, &'a Pattern),
    Empty,
    Both(usize, usize),
    Either(usize, usize),
    Star(usize),
}

/// A past in Appendix A's forms, against one list of events; `known` keeps what was found for each part and each piece of the list.
struct Matcher<'a> {
    forms: Vec<Form<'a>>,
    patterns: usize,
    events: &'a [Event],
    known: Vec<Option<bool>>,
}

impl<'a> Matcher<'a> {
    fn add(&mut self, form: Form<'a>) -> usize {
        self.forms.push(form);
        self.forms.len() - 1
    }

    fn form(&mut self, past: &'a Past) -> usize {
        match past {
            Past::Pattern(pattern) => {
                self.patterns += 1;
                self.add(Form::Pattern(self.patterns, pattern))
            }
            Past::Empty => self.add(Form::Empty),
            Past::Sequence(parts) => self.joined(parts, Form::Both),
            Past::Either(sides) => self.joined(sides, Form::Either),
            Past::Star(inner) => {
                let inner = self.form(inner);
                self.add(Form::Star(inner))
            }
            Past::Bracketed(inner) => self.form(inner),
        }
    }

    fn joined(&mut self, parts: &'a [Past], join: fn(usize, usize) -> Form<'a>) -> usize {
        let first = self.form(&parts[0]);
        if parts.len() == 1 {
            return first;
        }
        let others = self.joined(&parts[1..], join);
        self.add(join(first, others))
    }

    /// Whether the events from i on and before j are a list that the form matches.
    fn matches(&mut self, form: usize, i: usize, j: usize) -> bool {
        let side = self.events.len() + 1;
        let place = (form * side + i) * side + j;
        if let Some(answer) = self.known[place] {
            return answer;
        }
        let answer = match self.forms[form] {
            // "A pattern matches the lists of one act that meets it"
            Form::Pattern(_, pattern) => j == i + 1 && meets(pattern, &self.events[i]),
            // "`()` matches the empty list."
            Form::Empty => i == j,
            // "Factors side by side match a list that splits into one part for each, in order."
            Form::Both(p, q) => (i..=j).any(|m| self.matches(p, i, m) && self.matches(q, m, j)),
            // "Either matches what one side matches."
            Form::Either(p, q) => self.matches(p, i, j) || self.matches(q, i, j),
            // "A star matches the empty list, or a list its inside matches followed by one the star matches." An empty first list is left
            // out: after it the star would have to match the same list as before.
            Form::Star(p) => {
                i == j || (i + 1..=j).any(|m| self.matches(p, i, m) && self.matches(form, m, j))
            }
        };
        self.known[place] = Some(answer);
        answer
    }

    /// The numbers of the patterns with which the events from i on to the last can end, read as the start of a list that the form allows.
    /// `marks` keeps what was found. Every form allows some list, so a start of it is a start of what it stands in.
    fn marks(&mut self, form: usize, i: usize, marks: &mut Vec<Option<u64>>) -> u64 {
        let n = self.events.len();
        let place = form * (n + 1) + i;
        if let Some(answer) = marks[place] {
            return answer;
        }
        let answer = match self.forms[form] {
            Form::Pattern(k, pattern) => {
                let read = i + 1 == n && meets(pattern, &self.events[i]);
                (read as u64) << k
            }
            Form::Empty => 0,
            Form::Both(p, q) => (i..=n)
                .filter(|m| self.matches(p, i, *m))
                .collect::<Vec<usize>>()
                .into_iter()
                .fold(self.marks(p, i, marks), |set, m| {
                    set | self.marks(q, m, marks)
                }),
            Form::Either(p, q) => self.marks(p, i, marks) | self.marks(q, i, marks),
            Form::Star(p) => (i..=n)
                .filter(|m| self.matches(form, i, *m))
                .collect::<Vec<usize>>()
                .into_iter()
                .fold(0, |set, m| set | self.marks(p, m, marks)),
        };
        marks[place] = Some(answer);
        answer
    }
}

/// What the past says of a list of events.
pub struct Reading {
    /// for each k, whether it matches the first k events
    pub matches: Vec<bool>,
    /// "Mark k is set when the acts since then can be read, each meeting its pattern, as the start of a list of numbered patterns that the past
    /// allows, ending with pattern k", and "mark 0 .. while no act has been committed": bit k, after the whole list
    pub marks: u64,
}

pub fn reading(past: &Past, events: &[Event]) -> Reading {
    let mut matcher = Matcher {
        forms: Vec::new(),
        patterns: 0,
        events,
        known: Vec::new(),
    };
    let whole = matcher.form(past);
    let side = events.len() + 1;
    matcher.known = vec![None; matcher.forms.len() * side * side];
    let mut marks = vec![None; matcher.forms.len() * side];
    Reading {
        matches: (0..side).map(|k| matcher.matches(whole, 0, k)).collect(),
        marks: if events.is_empty() {
            1
        } else {
            matcher.marks(whole, 0, &mut marks)
        },
    }
}

/// Whether a past matches the empty list.
pub fn can_be_empty(past: &Past) -> bool {
    reading(past, &[]).matches[0]
}

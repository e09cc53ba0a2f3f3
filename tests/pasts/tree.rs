//! Pasts as trees, and how they are written. Document 01, "The rule language".

use crate::probe::NAMES;

#[derive(Clone)]
pub enum Item {
    /// a name: that role
    Exact(u8),
    /// `+` and a name: that role or one below it
    Under(u8),
}

#[derive(Clone)]
pub enum Simple {
    Any,
    /// the items, and whether `*` stands last
    Call(Vec<Item>, bool),
}

#[derive(Clone)]
pub enum Condition {
    Simple(Simple),
    Not(Box<Condition>),
    /// two or more terms
    Or(Vec<Condition>),
    /// a condition in round brackets that needs none
    Bracketed(Box<Condition>),
}

#[derive(Clone)]
pub enum Pattern {
    Simple(Simple),
    Condition(Condition),
}

#[derive(Clone)]
pub enum Past {
    Pattern(Pattern),
    Empty,
    /// two or more, side by side
    Sequence(Vec<Past>),
    /// two or more, joined by `+`
    Either(Vec<Past>),
    Star(Box<Past>),
    /// a past in round brackets that needs none
    Bracketed(Box<Past>),
}

type Tokens = Vec<&'static str>;

fn spell_simple(simple: &Simple, to: &mut Tokens) {
    match simple {
        Simple::Any => to.push("any"),
        Simple::Call(items, rest) => {
            to.push("<");
            for item in items {
                match item {
                    Item::Exact(role) => to.push(NAMES[*role as usize]),
                    Item::Under(role) => to.extend(["+", NAMES[*role as usize]]),
                }
            }
            if *rest {
                to.push("*");
            }
            to.push(">");
        }
    }
}

fn spell_term(term: &Condition, to: &mut Tokens) {
    match term {
        Condition::Simple(simple) => spell_simple(simple, to),
        Condition::Not(inner) => {
            to.push("not");
            spell_term(inner, to);
        }
        Condition::Or(_) => {
            to.push("(");
            spell_condition(term, to);
            to.push(")");
        }
        Condition::Bracketed(inner) => {
            to.push("(");
            spell_condition(inner, to);
            to.push(")");
        }
    }
}

fn spell_condition(condition: &Condition, to: &mut Tokens) {
    if let Condition::Or(terms) = condition {
        for (i, term) in terms.iter().enumerate() {
            if i > 0 {
                to.push("or");
            }
            spell_term(term, to);
        }
    } else {
        spell_term(condition, to);
    }
}

fn spell_pattern(pattern: &Pattern, to: &mut Tokens) {
    match pattern {
        Pattern::Simple(simple) => spell_simple(simple, to),
        Pattern::Condition(condition) => {
            to.push("[");
            spell_condition(condition, to);
            to.push("]");
        }
    }
}

/// A factor: a base and its stars.
fn spell_factor(past: &Past, to: &mut Tokens) {
    match past {
        Past::Pattern(pattern) => spell_pattern(pattern, to),
        Past::Empty => to.extend(["(", ")"]),
        Past::Star(inner) => {
            spell_factor(inner, to);
            to.push("*");
        }
        Past::Sequence(_) | Past::Either(_) => {
            to.push("(");
            spell_past(past, to);
            to.push(")");
        }
        Past::Bracketed(inner) => {
            to.push("(");
            spell_past(inner, to);
            to.push(")");
        }
    }
}

fn spell_sequence(past: &Past, to: &mut Tokens) {
    if let Past::Sequence(parts) = past {
        for part in parts {
            spell_factor(part, to);
        }
    } else {
        spell_factor(past, to);
    }
}

pub fn spell_past(past: &Past, to: &mut Tokens) {
    if let Past::Either(sides) = past {
        for (i, side) in sides.iter().enumerate() {
            if i > 0 {
                to.push("+");
            }
            spell_sequence(side, to);
        }
    } else {
        spell_sequence(past, to);
    }
}

/// How many patterns a past has; a bracketed condition counts as one.
pub fn patterns(past: &Past) -> usize {
    match past {
        Past::Pattern(_) => 1,
        Past::Empty => 0,
        Past::Sequence(parts) | Past::Either(parts) => parts.iter().map(patterns).sum(),
        Past::Star(inner) | Past::Bracketed(inner) => patterns(inner),
    }
}

fn is_word(token: &str) -> bool {
    token.as_bytes()[0].is_ascii_alphanumeric()
}

/// Tokens as text. `spaces(i)` says how many spaces stand before token i, and after the last; two words have one at least.
pub fn written(tokens: &[&str], mut spaces: impl FnMut(usize) -> usize) -> String {
    let mut text = String::new();
    for (i, token) in tokens.iter().enumerate() {
        let due = i > 0 && is_word(tokens[i - 1]) && is_word(token);
        let n = spaces(i).max(due as usize);
        text.extend(std::iter::repeat(' ').take(n));
        text.push_str(token);
    }
    text.extend(std::iter::repeat(' ').take(spaces(tokens.len())));
    text
}

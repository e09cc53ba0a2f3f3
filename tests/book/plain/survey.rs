//! What the refusals need to know of a line: the roles it uses, and how many
//! patterns its past has. And these patterns themselves, for the marks.

use super::tree::{Condition, Name, Past, Response, RuleLine, Slot};

/// A bracketed condition counts as one pattern, whatever stands inside it.
pub fn patterns(past: &Past) -> usize {
    match past {
        Past::Pattern(_) => 1,
        Past::Empty => 0,
        Past::Side(parts) | Past::Either(parts) => parts.iter().map(patterns).sum(),
        Past::Star(inside) => patterns(inside),
    }
}

/// The patterns of a past from the left: the first is number 1.
pub fn conditions(past: &Past) -> Vec<&Condition> {
    match past {
        Past::Pattern(condition) => vec![condition],
        Past::Empty => Vec::new(),
        Past::Side(parts) | Past::Either(parts) => parts.iter().flat_map(conditions).collect(),
        Past::Star(inside) => conditions(inside),
    }
}

/// Every role that a rule line uses, as an item or as a slot.
pub fn roles_used(line: &RuleLine) -> Vec<&Name> {
    let mut used = Vec::new();
    past_roles(&line.past, &mut used);
    condition_roles(&line.trigger, &mut used);
    match &line.response {
        Response::Pass | Response::Hold => {}
        Response::Send(template) | Response::Anew(template) => {
            for slot in template {
                if let Slot::Role(name) = slot {
                    used.push(name);
                }
            }
        }
    }
    used
}

fn past_roles<'a>(past: &'a Past, used: &mut Vec<&'a Name>) {
    match past {
        Past::Pattern(condition) => condition_roles(condition, used),
        Past::Empty => {}
        Past::Side(parts) | Past::Either(parts) => {
            for part in parts {
                past_roles(part, used);
            }
        }
        Past::Star(inside) => past_roles(inside, used),
    }
}

fn condition_roles<'a>(condition: &'a Condition, used: &mut Vec<&'a Name>) {
    match condition {
        Condition::Simple(simple) => used.extend(simple.items.iter().map(|item| &item.role)),
        Condition::Not(inside) => condition_roles(inside, used),
        Condition::Or(terms) => {
            for term in terms {
                condition_roles(term, used);
            }
        }
    }
}

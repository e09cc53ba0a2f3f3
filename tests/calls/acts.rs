//! Random acts, and acts led by a rule.

use crate::language::few;
use crate::plain::allowed::Allowed;
use crate::plain::marks::Marks;
use crate::plain::meets::meets;
use crate::plain::roles::Roles;
use crate::plain::rule::Rule;
use crate::plain::survey::conditions;
use crate::plain::tree::{Act, Condition, Item, Name, Past, Simple};
use crate::random::Random;
use crate::spell::Tokens;

/// Lists made from a past end soon after so many acts: enough for 55 patterns in a row.
const MOST: usize = 60;

/// The roles held are always more than none: top is one of them.
fn role(random: &mut Random, roles: &Roles) -> Name {
    let place = random.below(roles.count());
    roles.names().nth(place).expect("a role").clone()
}

pub fn act(random: &mut Random, roles: &Roles) -> Act {
    (0..few(random)).map(|_| role(random, roles)).collect()
}

/// The role names of an act as tokens.
pub fn named(act: &Act) -> Tokens {
    let names = act.iter().map(|n| String::from_utf8_lossy(n).into_owned());
    names.collect()
}

/// A role that the item takes.
fn taken(random: &mut Random, roles: &Roles, item: &Item) -> Name {
    if item.below {
        let low: Vec<&Name> = roles
            .names()
            .filter(|r| roles.below(r, &item.role))
            .collect();
        return random.pick(&low).to_vec();
    }
    item.role.clone()
}

fn meeting_simple(random: &mut Random, roles: &Roles, simple: &Simple) -> Act {
    let mut act: Act = simple
        .items
        .iter()
        .map(|i| taken(random, roles, i))
        .collect();
    while simple.rest && act.len() < 4 && random.chance(40) {
        act.push(role(random, roles));
    }
    act
}

/// An act that meets the pattern, where one is found soon.
pub fn meeting(random: &mut Random, roles: &Roles, pattern: &Condition) -> Act {
    if let Condition::Simple(simple) = pattern {
        return meeting_simple(random, roles, simple);
    }
    let mut found = act(random, roles);
    for _ in 0..10 {
        if meets(&found, pattern, roles) {
            break;
        }
        found = act(random, roles);
    }
    found
}

/// Acts that the past matches, or nearly so, joined to the list.
pub fn matching(random: &mut Random, roles: &Roles, past: &Past, list: &mut Vec<Act>) {
    if list.len() >= MOST {
        return;
    }
    match past {
        Past::Pattern(pattern) => list.push(meeting(random, roles, pattern)),
        Past::Empty => {}
        Past::Side(parts) => {
            for part in parts {
                matching(random, roles, part, list);
            }
        }
        Past::Either(sides) => {
            let side = random.pick(sides);
            matching(random, roles, side, list)
        }
        Past::Star(inside) => {
            for _ in 0..random.below(4) {
                matching(random, roles, inside, list);
            }
        }
    }
}

/// Acts that may lead the rule to its trigger, and last one that meets it.
pub fn leading(random: &mut Random, roles: &Roles, rule: &Rule) -> Vec<Act> {
    let mut list = Vec::new();
    matching(random, roles, &rule.line.past, &mut list);
    list.push(meeting(random, roles, &rule.line.trigger));
    list
}

/// Acts that may lead the rule on from these marks to its trigger, and last one
/// that meets it.
pub fn onward(random: &mut Random, roles: &Roles, rule: &Rule, marks: &Marks) -> Vec<Act> {
    let allowed = Allowed::by(&rule.line.past);
    let patterns = conditions(&rule.line.past);
    let mut list = Vec::new();
    let mut from: Vec<usize> = marks.iter().copied().collect();
    while !from.is_empty() && list.len() < MOST {
        let mark = *random.pick(&from);
        if allowed.ends(mark) && random.chance(40) {
            break;
        }
        let next = 1..=patterns.len();
        let next: Vec<usize> = next.filter(|&k| allowed.before(mark, k)).collect();
        if next.is_empty() {
            break;
        }
        let k = *random.pick(&next);
        list.push(meeting(random, roles, patterns[k - 1]));
        from = vec![k];
    }
    list.push(meeting(random, roles, &rule.line.trigger));
    list
}

//! Random pasts, rule lines and lists of events.

use crate::model::meets;
use crate::probe::{Event, NAMES, PARENTS};
use crate::random::Random;
use crate::tree::{spell_past, written, Condition, Item, Past, Pattern, Simple};

/// How many roles an event or a simple pattern has: often one, seldom four.
fn length(random: &mut Random) -> usize {
    [0, 0, 1, 1, 1, 1, 1, 2, 2, 2, 3, 4][random.below(12)]
}

fn role(random: &mut Random) -> u8 {
    random.below(NAMES.len()) as u8
}

pub fn event(random: &mut Random) -> Event {
    (0..length(random)).map(|_| role(random)).collect()
}

fn simple(random: &mut Random) -> Simple {
    if random.chance(15) {
        return Simple::Any;
    }
    let items = (0..length(random))
        .map(|_| {
            let r = role(random);
            if random.chance(40) {
                Item::Under(r)
            } else {
                Item::Exact(r)
            }
        })
        .collect();
    Simple::Call(items, random.chance(30))
}

fn condition(random: &mut Random, depth: usize) -> Condition {
    if depth == 0 {
        return Condition::Simple(simple(random));
    }
    match random.below(10) {
        0..=2 => Condition::Simple(simple(random)),
        3..=5 => Condition::Not(Box::new(condition(random, depth - 1))),
        6..=8 => {
            let n = 2 + random.below(2);
            Condition::Or((0..n).map(|_| condition(random, depth - 1)).collect())
        }
        _ => Condition::Bracketed(Box::new(condition(random, depth - 1))),
    }
}

/// A pattern; where `short`, one of few bytes, so that many fit a line.
fn pattern(random: &mut Random, short: bool) -> Pattern {
    if short {
        return Pattern::Simple(match random.below(12) {
            0 => Simple::Any,
            1 | 2 => Simple::Call(vec![Item::Exact(1 + role(random) % 7)], false),
            3 => Simple::Call(Vec::new(), true),
            _ => Simple::Call(Vec::new(), false),
        });
    }
    if random.chance(25) {
        let depth = 1 + random.below(3);
        return Pattern::Condition(condition(random, depth));
    }
    Pattern::Simple(simple(random))
}

/// A past of about `size` patterns.
pub fn past(random: &mut Random, size: usize, short: bool) -> Past {
    if random.chance(if short { 15 } else { 25 }) {
        return Past::Star(Box::new(past(random, size, short)));
    }
    if random.chance(4) {
        return Past::Bracketed(Box::new(past(random, size, short)));
    }
    if size <= 1 {
        if random.chance(if short { 3 } else { 15 }) {
            return Past::Empty;
        }
        return Past::Pattern(pattern(random, short));
    }
    let n = 2 + random.below(size.min(if short { 20 } else { 4 }) - 1);
    let mut left = size;
    let mut parts = Vec::new();
    for i in 0..n {
        let others = n - 1 - i;
        let part = if others == 0 {
            left
        } else {
            1 + random.below(left - others)
        };
        left -= part;
        parts.push(past(random, part, short));
    }
    if random.chance(40) {
        Past::Either(parts)
    } else {
        Past::Sequence(parts)
    }
}

const TAILS: [&[&str]; 6] = [
    &[";", "any", ";", "hold"],
    &[";", "<", "a", ">", ";", "pass"],
    &[";", "<", ">", ";", "pass"],
    &[";", "any", ";", "send", "<", "#", "1", ">"],
    &[";", "[", "not", "any", "]", ";", "anew", "<", "b", ">"],
    &[";", "<", "+", "a", "*", ">", ";", "send", "<", ">"],
];

/// A rule line's text with that past and random spaces; nothing where it is longer than 126 bytes.
pub fn line(random: &mut Random, past: &Past) -> Option<String> {
    let mut tokens = vec!["rule", ["r", "x9", "past-1"][random.below(3)], ":"];
    spell_past(past, &mut tokens);
    tokens.extend(TAILS[random.below(TAILS.len())]);
    let least = written(&tokens, |_| 0).len();
    if least > 126 {
        return None;
    }
    let mut room = 126 - least;
    let percent = [0, 10, 50, 100][random.below(4)];
    Some(written(&tokens, |_| {
        let n = if random.chance(percent) {
            random.below(4).min(room)
        } else {
            0
        };
        room -= n;
        n
    }))
}

/// A role that an item takes.
fn taken(random: &mut Random, item: &Item) -> u8 {
    match item {
        Item::Exact(p) => *p,
        Item::Under(p) => {
            let mut r = *p;
            while random.chance(50) {
                let children: Vec<u8> = (1..NAMES.len() as u8)
                    .filter(|c| PARENTS[*c as usize] == r)
                    .collect();
                if children.is_empty() {
                    break;
                }
                r = children[random.below(children.len())];
            }
            r
        }
    }
}

/// An event that meets the pattern, where one is found soon.
fn meeting(random: &mut Random, pattern: &Pattern) -> Event {
    if let Pattern::Simple(Simple::Call(items, rest)) = pattern {
        let mut roles: Event = items.iter().map(|item| taken(random, item)).collect();
        while *rest && roles.len() < 4 && random.chance(40) {
            roles.push(role(random));
        }
        return roles;
    }
    for _ in 0..20 {
        let e = event(random);
        if meets(pattern, &e) {
            return e;
        }
    }
    event(random)
}

/// Events that the past matches, or nearly so, added to a list of at most so many.
fn matching(random: &mut Random, past: &Past, most: usize, to: &mut Vec<Event>) {
    if to.len() >= most {
        return;
    }
    match past {
        Past::Pattern(pattern) => {
            let e = meeting(random, pattern);
            to.push(e);
        }
        Past::Empty => {}
        Past::Sequence(parts) => {
            for part in parts {
                matching(random, part, most, to);
            }
        }
        Past::Either(sides) => {
            let side = &sides[random.below(sides.len())];
            matching(random, side, most, to);
        }
        Past::Star(inner) => {
            let turns = random.below(4);
            for _ in 0..turns {
                matching(random, inner, most, to);
            }
        }
        Past::Bracketed(inner) => matching(random, inner, most, to),
    }
}

/// An event more, less or other, or two exchanged.
fn changed(random: &mut Random, list: &mut Vec<Event>) {
    let e = event(random);
    let at = random.below(list.len() + 1);
    match random.below(4) {
        0 if at < list.len() => {
            list.remove(at);
        }
        1 if at < list.len() => list[at] = e,
        2 if at < list.len() => {
            let other = random.below(list.len());
            list.swap(at, other);
        }
        _ => list.insert(at, e),
    }
}

/// A list of at most 12 events: most come from the past, half of those with a change; the others are random.
pub fn events(random: &mut Random, past: &Past) -> Vec<Event> {
    let mut list = Vec::new();
    if random.chance(15) {
        let n = random.below(13);
        return (0..n).map(|_| event(random)).collect();
    }
    matching(random, past, 12, &mut list);
    if random.chance(50) {
        let changes = 1 + random.below(2);
        for _ in 0..changes {
            changed(random, &mut list);
        }
    }
    list.truncate(12);
    list
}

/// A list of at most 60 events for a long past: as many as lead through it or to some place in it, three in ten of them with a change.
pub fn long_events(random: &mut Random, past: &Past) -> Vec<Event> {
    let mut list = Vec::new();
    matching(random, past, 60, &mut list);
    if random.chance(30) {
        changed(random, &mut list);
    }
    if random.chance(50) {
        list.truncate(random.below(list.len() + 1));
    }
    list.truncate(60);
    list
}

//! Pasts of so many patterns that a line just has room for them: most are `<>`, and
//! what room is left goes to longer ones, to stars and to brackets.

use crate::random::Random;
use crate::spell::ROOM;

/// The most patterns that a line has room for: `rule a:`, 55 times `<>` and `;<>;hold`.
pub const MOST: usize = 55;

/// What may stand behind a past; the first two are the shortest.
const TAILS: [&str; 10] = [
    ";<>;hold",
    ";<>;pass",
    ";<*>;pass",
    ";any;hold",
    ";<top>;hold",
    ";<>;send<>",
    ";<*>;send<#1>",
    ";<top>;send<>",
    ";<>;send<top>",
    ";<top>;anew<>",
];

/// A rule line of that many patterns, of a name of one or two letters. `threes` are
/// patterns of three bytes.
pub fn rule(random: &mut Random, name: &str, size: usize, threes: &[&str]) -> String {
    let head = format!("rule {name}:");
    let room = ROOM - head.len() - 2 * size;
    let fits: Vec<&str> = TAILS
        .into_iter()
        .filter(|tail| tail.len() <= room)
        .collect();
    let tail = *random.pick(&fits);
    let past = past(random, size, room - tail.len(), threes);
    format!("{head}{past}{tail}")
}

/// A past of that many patterns that has at most `room` bytes more than `<>` each.
pub fn past(random: &mut Random, size: usize, room: usize, threes: &[&str]) -> String {
    let mut factors = vec!["<>".to_string(); size];
    let mut left = random.below(room + 1);
    while left > 0 {
        left -= match random.below(10) {
            0 | 1 if left >= 3 && factors.len() > 1 => grouped(random, &mut factors),
            2..=5 => {
                some(random, &mut factors).push('*');
                1
            }
            _ => longer(random, &mut factors, threes),
        };
    }
    factors.concat()
}

/// Some neighbours in round brackets, as two sides or with a star. Gives the bytes
/// that it takes.
fn grouped(random: &mut Random, factors: &mut Vec<String>) -> usize {
    let count = random.between(2, factors.len().min(6));
    let at = random.below(factors.len() - count + 1);
    let inside: Vec<String> = factors.drain(at..at + count).collect();
    let group = if random.chance(50) {
        format!("({})*", inside.concat())
    } else {
        let (one, other) = inside.split_at(random.between(1, count - 1));
        format!("({}+{})", one.concat(), other.concat())
    };
    factors.insert(at, group);
    3
}

fn some<'a>(random: &mut Random, factors: &'a mut [String]) -> &'a mut String {
    let at = random.below(factors.len());
    &mut factors[at]
}

/// A pattern of three bytes in the place of one of two, where the place drawn has one.
fn longer(random: &mut Random, factors: &mut [String], threes: &[&str]) -> usize {
    let three = random.pick(threes).to_string();
    let factor = some(random, factors);
    let short = factor == "<>";
    if short {
        *factor = three;
    }
    usize::from(short)
}

//! Pasts of 32 to 55 patterns, which is the most that a line has room for.

use crate::random::Random;
use crate::tree::{Item, Past, Pattern, Simple};

/// The least and the most patterns.
pub const LEAST: usize = 32;
pub const MOST: usize = 55;

/// The bytes that a line of 126 has for its past, with a name of one letter and the shortest trigger and response.
const ROOM: usize = 126 - "rule r:;<>;pass".len();

/// A pattern of three bytes.
fn longer(random: &mut Random) -> Past {
    Past::Pattern(Pattern::Simple(match random.below(4) {
        0 => Simple::Any,
        1 => Simple::Call(Vec::new(), true),
        _ => Simple::Call(vec![Item::Exact(1 + random.below(7) as u8)], false),
    }))
}

/// Some neighbours among the factors, at most five, in round brackets: with a star, or as two sides. It takes three bytes more.
fn grouped(random: &mut Random, factors: &mut Vec<Past>) {
    if factors.len() < 2 {
        return;
    }
    let count = 2 + random.below(4.min(factors.len() - 1));
    let at = random.below(factors.len() - count + 1);
    let mut inside: Vec<Past> = factors.drain(at..at + count).collect();
    let group = if random.chance(50) {
        Past::Star(Box::new(Past::Sequence(inside)))
    } else {
        let other = inside.split_off(1 + random.below(count - 1));
        Past::Either(vec![side(inside), side(other)])
    };
    factors.insert(at, group);
}

/// Factors side by side, or the only one.
fn side(mut factors: Vec<Past>) -> Past {
    match factors.len() {
        1 => factors.remove(0),
        _ => Past::Sequence(factors),
    }
}

/// The same with a star, which takes one byte.
fn starred(random: &mut Random, factors: &mut [Past]) {
    let at = random.below(factors.len());
    let inside = std::mem::replace(&mut factors[at], Past::Empty);
    factors[at] = Past::Star(Box::new(inside));
}

/// A past of that many patterns, most of them of two bytes; what room is left goes to some of three, to stars and to brackets.
pub fn past(random: &mut Random, size: usize) -> Past {
    let short = Past::Pattern(Pattern::Simple(Simple::Call(Vec::new(), false)));
    let mut factors = vec![short; size];
    let left = ROOM - 2 * size;
    let mut room = random.below(left + 1);
    while room > 0 {
        match random.below(10) {
            0..=2 if room >= 3 => {
                grouped(random, &mut factors);
                room -= 3;
            }
            3..=6 => {
                starred(random, &mut factors);
                room -= 1;
            }
            _ => {
                let at = random.below(factors.len());
                if let Past::Pattern(_) = factors[at] {
                    factors[at] = longer(random);
                    room -= 1;
                }
            }
        }
    }
    if random.chance(10) && left > 0 && factors.len() > 1 {
        let other = factors.split_off(1 + random.below(factors.len() - 1));
        return Past::Either(vec![side(factors), side(other)]);
    }
    side(factors)
}

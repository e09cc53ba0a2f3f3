//! Images with other records of marks.

use super::digits::{moved, some_digits};
use super::parts::{highest, long_marks, marks, rules, some_marks, with_eight, with_marks};
use super::Records;
use crate::plain::tree::RuleLine;
use crate::random::Random;

/// The columns of the name.
const NAME: std::ops::Range<usize> = 1..9;

/// The highest mark that sixteen digits have.
const HIGHEST: usize = 63;

/// Some records of marks, at least one, made anew by their rules.
fn remade(random: &mut Random, records: &mut Records, make: fn(&mut Random, &RuleLine) -> Vec<u8>) {
    let Some((certain, _)) = some_marks(random, records) else {
        return;
    };
    let places = marks(records);
    for (at, rule) in places.zip(rules(records)) {
        if at == certain || random.chance(50) {
            records[at] = make(random, &rule);
        }
    }
}

/// Any marks that the past has.
pub fn others(random: &mut Random, records: &mut Records) {
    remade(random, records, |random, rule| {
        let percent = *random.pick(&[10, 30, 60]);
        let set = (0..=highest(rule)).filter(|_| random.chance(percent));
        with_marks(rule, set)
    });
}

pub fn none(random: &mut Random, records: &mut Records) {
    remade(random, records, |_, rule| with_marks(rule, []));
}

pub fn all(random: &mut Random, records: &mut Records) {
    remade(random, records, |_, rule| {
        with_marks(rule, 0..=highest(rule))
    });
}

pub fn highest_alone(random: &mut Random, records: &mut Records) {
    remade(random, records, |_, rule| with_marks(rule, [highest(rule)]));
}

/// Mark 0 with one other.
pub fn zero_too(random: &mut Random, records: &mut Records) {
    remade(random, records, |random, rule| {
        let other = random.below(highest(rule) + 1);
        with_marks(rule, [0, other])
    });
}

/// A mark that the past doesn't have, above any.
pub fn above(random: &mut Random, records: &mut Records) {
    let choose = *random.pick(&[some_marks, long_marks]);
    if let Some((at, rule)) = choose(random, records) {
        let first = highest(&rule) + 1;
        let more = random.between(first, HIGHEST);
        let set = (0..first).filter(|_| random.chance(30)).chain([more]);
        records[at] = with_marks(&rule, set);
    }
}

/// The lowest mark that the past doesn't have, alone; of a long past, or of any.
pub fn just_above(random: &mut Random, records: &mut Records) {
    let choose = *random.pick(&[some_marks, long_marks]);
    if let Some((at, rule)) = choose(random, records) {
        records[at] = with_marks(&rule, [highest(&rule) + 1]);
    }
}

/// A mark that the past doesn't have, in eight digits; a past of 31 patterns or more
/// has all of these.
pub fn above_eight(random: &mut Random, records: &mut Records) {
    if let Some((at, rule)) = some_marks(random, records) {
        let first = (highest(&rule) + 1).min(31);
        let lowest = random.chance(50);
        let more = if lowest {
            first
        } else {
            random.between(first, 31)
        };
        let set = (0..first).filter(|_| !lowest && random.chance(30));
        records[at] = with_eight(&rule, set.chain([more]));
    }
}

/// Marks that the past has, and one that it doesn't have in the upper half.
pub fn upper_half(random: &mut Random, records: &mut Records) {
    if let Some((at, rule)) = some_marks(random, records) {
        let highest = highest(&rule);
        let lowest = 32.max(highest + 1);
        let any = random.between(lowest, HIGHEST);
        let more = *random.pick(&[lowest, any, HIGHEST]);
        let set = (0..=highest).filter(|_| random.chance(30)).chain([more]);
        records[at] = with_marks(&rule, set);
    }
}

/// The digits a column too far to the left or to the right.
pub fn shifted(random: &mut Random, records: &mut Records) {
    if let Some((at, _)) = some_marks(random, records) {
        let fill = *random.pick(&[None, Some(b' ')]);
        some_digits(random, &mut records[at]);
        moved(&mut records[at], 9, fill);
    }
}

/// A byte before the digits or behind them.
pub fn other_byte(random: &mut Random, records: &mut Records) {
    if let Some((at, _)) = some_marks(random, records) {
        let digits = some_digits(random, &mut records[at]);
        let last = records[at].len() - 1;
        let any = random.between(digits.end, last);
        let before = digits.start - 1;
        let column = *random.pick(&[before, before, digits.end, last - 1, last, any]);
        records[at][column] = *random.pick(b"0AM-.\0\n\r\t\x7f\xff");
    }
}

/// Another first byte.
pub fn other_kind(random: &mut Random, records: &mut Records) {
    if let Some((at, _)) = some_marks(random, records) {
        records[at][0] = *random.pick(b"mmLENl \0\n");
    }
}

fn named(record: &mut [u8], name: &[u8]) {
    record[NAME].fill(b' ');
    record[NAME.start..NAME.start + name.len()].copy_from_slice(name);
}

/// The name of another rule, of no rule, or nearly the right one.
pub fn other_name(random: &mut Random, records: &mut Records) {
    if let Some((at, rule)) = some_marks(random, records) {
        let mut name = rule.name.clone();
        match random.below(5) {
            0 => name = random.pick(&rules(records)).name.clone(),
            1 => name = b"top".to_vec(),
            2 => drop(name.pop()),
            3 if name.len() < 8 => name.push(b'a'),
            _ => name[0] = if name[0] == b'z' { b'a' } else { name[0] + 1 },
        }
        named(&mut records[at], &name);
    }
}

/// The name as it is but not in the first columns, or in capital letters.
pub fn name_moved(random: &mut Random, records: &mut Records) {
    if let Some((at, rule)) = some_marks(random, records) {
        let own = &mut records[at][NAME];
        if random.chance(50) || rule.name.len() == 8 {
            return own.make_ascii_uppercase();
        }
        own.rotate_right(random.between(1, 8 - rule.name.len()));
    }
}

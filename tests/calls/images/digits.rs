//! Images whose records of marks have their digits in another form: eight instead of
//! sixteen, which is read too, or one that isn't.

use super::parts::{
    highest, long_marks, marks, rules, shorten, some_marks, with_eight, with_marks, EIGHT, SIXTEEN,
};
use super::Records;
use crate::random::Random;

/// All of them in eight digits. Marks above 31 are gone then.
pub fn eight(_: &mut Random, records: &mut Records) {
    if marks(records).len() == rules(records).len() {
        let places = marks(records);
        records[places]
            .iter_mut()
            .for_each(|record| shorten(record));
    }
}

/// Some of them in eight digits, at least one, and not all where there are more.
pub fn mixed(random: &mut Random, records: &mut Records) {
    let Some((certain, _)) = some_marks(random, records) else {
        return;
    };
    let other = marks(records).find(|&at| at != certain);
    for at in marks(records) {
        if at == certain || Some(at) != other && random.chance(50) {
            shorten(&mut records[at]);
        }
    }
}

/// Any marks that a long past has, in eight digits.
pub fn eight_any(random: &mut Random, records: &mut Records) {
    if let Some((at, rule)) = long_marks(random, records) {
        let percent = *random.pick(&[0, 10, 60, 100]);
        let set = (0..=highest(&rule).min(31)).filter(|_| random.chance(percent));
        records[at] = with_eight(&rule, set.collect::<Vec<usize>>());
    }
}

/// The record with as many digits as it has, or with eight; and their columns.
pub fn some_digits(random: &mut Random, record: &mut [u8]) -> std::ops::Range<usize> {
    if random.chance(50) {
        return SIXTEEN;
    }
    shorten(record);
    EIGHT
}

/// The bytes from one column on moved by one to the left or to the right, where a
/// new byte fills the gap; the newline stays where it is.
pub fn moved(record: &mut Vec<u8>, column: usize, fill: Option<u8>) {
    record.pop();
    match fill {
        Some(byte) => {
            record.insert(column, byte);
            record.pop();
        }
        None => {
            record.remove(column);
            record.push(b' ');
        }
    }
    record.push(b'\n');
}

/// One digit less or more than there are in these columns. The first and the last are
/// the ones that a careless reader wouldn't miss.
fn one_off(random: &mut Random, record: &mut Vec<u8>, of: std::ops::Range<usize>, more: bool) {
    let any = random.between(of.start, of.end - 1);
    let last = if more { of.end } else { of.end - 1 };
    let column = *random.pick(&[of.start, of.start, any, last]);
    moved(record, column, if more { Some(b'0') } else { None });
}

pub fn none(random: &mut Random, records: &mut Records) {
    if let Some((at, _)) = some_marks(random, records) {
        records[at][SIXTEEN].fill(b' ');
    }
}

pub fn seven(random: &mut Random, records: &mut Records) {
    if let Some((at, _)) = some_marks(random, records) {
        shorten(&mut records[at]);
        one_off(random, &mut records[at], EIGHT, false);
    }
}

pub fn nine(random: &mut Random, records: &mut Records) {
    if let Some((at, _)) = some_marks(random, records) {
        shorten(&mut records[at]);
        one_off(random, &mut records[at], EIGHT, true);
    }
}

pub fn fifteen(random: &mut Random, records: &mut Records) {
    if let Some((at, _)) = some_marks(random, records) {
        one_off(random, &mut records[at], SIXTEEN, false);
    }
}

pub fn seventeen(random: &mut Random, records: &mut Records) {
    if let Some((at, _)) = some_marks(random, records) {
        one_off(random, &mut records[at], SIXTEEN, true);
    }
}

/// Eight digits, a space and eight more.
pub fn eight_and_eight(random: &mut Random, records: &mut Records) {
    if let Some((at, _)) = some_marks(random, records) {
        moved(&mut records[at], EIGHT.end, Some(b' '));
    }
}

/// The upper half in the place of the lower, and the lower in that of the upper.
pub fn exchanged(random: &mut Random, records: &mut Records) {
    let tried = (0..10).filter_map(|_| some_marks(random, records));
    let set = |at: usize| records[at][SIXTEEN].iter().any(|&digit| digit != b'0');
    let places: Vec<usize> = tried.map(|(at, _)| at).filter(|&at| set(at)).collect();
    if let Some(&at) = places.first() {
        records[at][SIXTEEN].rotate_left(EIGHT.len());
    }
}

/// Marks that the past has, where it has enough of them, in small letters.
pub fn small_letters(random: &mut Random, records: &mut Records) {
    if let Some((at, rule)) = long_marks(random, records) {
        let with = *random.pick(&[with_marks, with_eight]);
        records[at] = with(&rule, vec![1, 3]);
        records[at][SIXTEEN].make_ascii_lowercase();
    }
}

/// The same in the upper half.
pub fn small_upper(random: &mut Random, records: &mut Records) {
    if let Some((at, rule)) = long_marks(random, records) {
        records[at] = with_marks(&rule, vec![33, 35]);
        records[at][SIXTEEN].make_ascii_lowercase();
    }
}

/// A byte just below or just above those of the digits.
pub fn edge(random: &mut Random, records: &mut Records) {
    if let Some((at, _)) = some_marks(random, records) {
        let digits = some_digits(random, &mut records[at]);
        let column = random.between(digits.start, digits.end - 1);
        records[at][column] = *random.pick(b"/:@G`g -xO");
    }
}

/// A space anywhere: what may differ within lines may not differ here.
pub fn space_inside(random: &mut Random, records: &mut Records) {
    if let Some((at, rule)) = some_marks(random, records) {
        let digits = some_digits(random, &mut records[at]);
        let column = match random.below(3) {
            0 => 1,
            1 => 1 + rule.name.len().min(7),
            _ => random.between(digits.start, digits.end - 1),
        };
        moved(&mut records[at], column, Some(b' '));
    }
}

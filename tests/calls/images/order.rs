//! Images with records in another order, too many or too few.

use super::parts::{ends, marks, rules};
use super::Records;
use crate::plain::image::{mark_record_of, DIGITS};
use crate::plain::marks::Marks;
use crate::plain::restore::OLD_DIGITS;
use crate::random::Random;
use crate::spell::record;

fn some_place(random: &mut Random, records: &Records) -> Option<usize> {
    match records.len() {
        0 => None,
        count => Some(random.below(count)),
    }
}

/// Two records, often neighbours.
pub fn exchanged(random: &mut Random, records: &mut Records) {
    if records.len() < 2 {
        return;
    }
    let one = random.below(records.len() - 1);
    let other = if random.chance(60) {
        one + 1
    } else {
        random.below(records.len())
    };
    records.swap(one, other);
}

/// A role line behind the first rule line, behind the last or between them; a
/// fresh monitor would take it.
pub fn role_after_rule(random: &mut Random, records: &mut Records) {
    let (roles, lines) = ends(records);
    if roles < lines {
        let at = random.between(roles + 1, lines);
        records.insert(at, record(b'L', "role zz-late under top"));
    }
}

/// Records of marks too early: each behind its rule line, all in front, or the
/// first one before the last line.
pub fn marks_early(random: &mut Random, records: &mut Records) {
    let (roles, lines) = ends(records);
    if roles == lines {
        return;
    }
    match random.below(3) {
        0 => {
            let marks = records.split_off(lines);
            let rules = records.split_off(roles);
            let pairs = rules.into_iter().zip(marks);
            records.extend(pairs.flat_map(|(rule, marks)| [rule, marks]));
        }
        1 => records.rotate_left(lines),
        _ => {
            let first = records.remove(lines);
            records.insert(lines - 1, first);
        }
    }
}

/// The records of marks from the last to the first.
pub fn marks_turned(_: &mut Random, records: &mut Records) {
    let places = marks(records);
    records[places].reverse();
}

/// An act anywhere.
pub fn act(random: &mut Random, records: &mut Records) {
    let (roles, lines) = ends(records);
    let any = random.below(records.len() + 1);
    let at = *random.pick(&[0, roles, lines, records.len(), any]);
    let text = *random.pick(&["", "top", "top top"]);
    records.insert(at, record(b'E', text));
}

pub fn doubled(random: &mut Random, records: &mut Records) {
    if let Some(at) = some_place(random, records) {
        records.insert(at, records[at].clone());
    }
}

pub fn whole_doubled(_: &mut Random, records: &mut Records) {
    records.extend_from_within(..);
}

/// Without one record, often the last; or without some of the last ones.
pub fn dropped(random: &mut Random, records: &mut Records) {
    if let Some(at) = some_place(random, records) {
        match random.below(3) {
            0 => drop(records.remove(at)),
            1 => drop(records.pop()),
            _ => records.truncate(at),
        }
    }
}

/// One record of marks too many: of the last rule again, of a role, of no name.
pub fn marks_more(random: &mut Random, records: &mut Records) {
    let rules = rules(records);
    let last = rules.last().map_or(&b"top"[..], |rule| &rule.name);
    let name = *random.pick(&[last, last, b"top", b"zz-none", b""]);
    let digits = *random.pick(&[DIGITS, OLD_DIGITS]);
    records.push(mark_record_of(name, &Marks::from([0]), digits));
}

/// One record of marks too few, or none at all.
pub fn marks_fewer(random: &mut Random, records: &mut Records) {
    let places = marks(records);
    if places.is_empty() {
        return;
    }
    match random.below(3) {
        0 => records.truncate(places.start),
        1 => drop(records.pop()),
        _ => drop(records.remove(places.start)),
    }
}

//! The parts of an image: role lines, rule lines and records of marks.

use super::Records;
use crate::plain::book::RECORD;
use crate::plain::grammar;
use crate::plain::image::{mark_record, mark_record_of, DIGITS};
use crate::plain::marks::Marks;
use crate::plain::restore::OLD_DIGITS;
use crate::plain::survey::patterns;
use crate::plain::tree::{Line, RuleLine};
use crate::random::Random;

/// What a record says, where it is a line.
pub fn line(record: &[u8]) -> Option<Line> {
    match record {
        [b'L', text @ .., b'\n'] if record.len() == RECORD => grammar::line(text),
        _ => None,
    }
}

/// The rules that the lines declare, in order.
pub fn rules(records: &Records) -> Vec<RuleLine> {
    let lines = records.iter().filter_map(|record| line(record));
    let rules = lines.filter_map(|line| match line {
        Line::Rule(rule) => Some(rule),
        Line::Role { .. } => None,
    });
    rules.collect()
}

/// Where the role lines end, and where the rule lines end.
pub fn ends(records: &Records) -> (usize, usize) {
    let is_line = |record: &&Vec<u8>| record[0] == b'L';
    let lines = records.iter().take_while(is_line).count();
    (lines.saturating_sub(rules(records).len()), lines)
}

/// The places of the records of marks.
pub fn marks(records: &Records) -> std::ops::Range<usize> {
    ends(records).1..records.len()
}

/// The place of some record of marks, and its rule; nothing where there is no rule.
pub fn some_marks(random: &mut Random, records: &Records) -> Option<(usize, RuleLine)> {
    let mut rules = rules(records);
    if rules.is_empty() || marks(records).len() != rules.len() {
        return None;
    }
    let at = random.below(rules.len());
    Some((marks(records).start + at, rules.swap_remove(at)))
}

/// The same for the longest past of some that are drawn.
pub fn long_marks(random: &mut Random, records: &Records) -> Option<(usize, RuleLine)> {
    let drawn = (0..4).filter_map(|_| some_marks(random, records));
    drawn.max_by_key(|(_, rule)| highest(rule))
}

/// The record of these marks for that rule.
pub fn with_marks(rule: &RuleLine, marks: impl IntoIterator<Item = usize>) -> Vec<u8> {
    mark_record(&rule.name, &marks.into_iter().collect::<Marks>())
}

/// The same in eight digits; marks above 31 are left away.
pub fn with_eight(rule: &RuleLine, marks: impl IntoIterator<Item = usize>) -> Vec<u8> {
    mark_record_of(&rule.name, &marks.into_iter().collect(), OLD_DIGITS)
}

/// The columns of the digits, where there are as many as keeping writes, and of the
/// eight.
pub const SIXTEEN: std::ops::Range<usize> = 10..10 + DIGITS;
pub const EIGHT: std::ops::Range<usize> = 10..10 + OLD_DIGITS;

/// A record with sixteen digits gets the lower eight of them.
pub fn shorten(record: &mut [u8]) {
    record.copy_within(EIGHT.end..SIXTEEN.end, EIGHT.start);
    record[EIGHT.end..SIXTEEN.end].fill(b' ');
}

/// The highest mark that the rule's past has.
pub fn highest(rule: &RuleLine) -> usize {
    patterns(&rule.past)
}

/// A rule line behind the others, with a record of marks at the end.
pub fn add_rule(records: &mut Records, line: Vec<u8>, name: &str) {
    let at = ends(records).1;
    records.insert(at, line);
    records.push(mark_record(name.as_bytes(), &Marks::from([0])));
}

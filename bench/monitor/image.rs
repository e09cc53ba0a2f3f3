//! Images, as both monitors in Rust write and read them: the record of each line, and of each rule's marks.

use crate::session::RECORD;

pub type Record = [u8; RECORD];

const HEX: &[u8; 16] = b"0123456789ABCDEF";

/// How many digits a record of marks is written with.
const DIGITS: usize = 16;

/// A record that is being written: what it has so far, and spaces.
pub struct Writer {
    pub record: Record,
    at: usize,
}

impl Writer {
    pub fn new(front: &[u8]) -> Writer {
        let mut record = [b' '; RECORD];
        record[RECORD - 1] = b'\n';
        let mut writer = Writer { record, at: 0 };
        writer.add(front);
        writer
    }

    pub fn add(&mut self, bytes: &[u8]) {
        self.record[self.at..self.at + bytes.len()].copy_from_slice(bytes);
        self.at += bytes.len();
    }
}

/// What a monitor has that an image is read into.
pub trait Imaged: Sized {
    fn fresh() -> Self;
    /// Takes a line, where it is not refused.
    fn take(&mut self, line: &Record) -> Option<()>;
    fn roles(&self) -> usize;
    fn rules(&self) -> usize;
    /// The name of a rule, padded, and how many patterns its past has.
    fn rule(&self, i: usize) -> ([u8; 8], usize);
    fn mark(&mut self, i: usize, marks: u64);
}

pub fn role_record(name: &[u8], parent: &[u8]) -> Record {
    let mut out = Writer::new(b"Lrole ");
    out.add(name);
    out.add(b" under ");
    out.add(parent);
    out.record
}

/// A rule's marks, with its name padded.
pub fn mark_record(name: [u8; 8], marks: u64) -> Record {
    marks_in(DIGITS, name, marks)
}

fn marks_in(digits: usize, name: [u8; 8], marks: u64) -> Record {
    let mut out = Writer::new(b"M");
    out.add(&name);
    for (i, digit) in out.record[10..10 + digits].iter_mut().rev().enumerate() {
        *digit = HEX[(marks >> (4 * i)) as usize % 16];
    }
    out.record
}

/// How many records were written, where there is room for all of them; else the refusal.
pub fn write(
    image: &mut [u8],
    count: usize,
    records: impl Iterator<Item = Record>,
) -> Result<u32, u8> {
    let (room, _) = image.as_chunks_mut();
    let room = room.get_mut(..count).ok_or(13)?;
    for (place, record) in room.iter_mut().zip(records) {
        *place = record;
    }
    Ok(count as u32)
}

/// The monitor that an image says.
pub fn read<M: Imaged>(image: &[u8]) -> Option<M> {
    let (records, []) = image.as_chunks() else {
        return None;
    };
    let mut monitor = M::fresh();
    let lines = take_lines(&mut monitor, records)?;
    let marks = &records[lines..];
    if marks.len() != monitor.rules() {
        return None;
    }
    for (i, record) in marks.iter().enumerate() {
        let (name, patterns) = monitor.rule(i);
        monitor.mark(i, read_marks(record, name, patterns)?);
    }
    Some(monitor)
}

/// The lines in front, and how many they are.
fn take_lines<M: Imaged>(monitor: &mut M, records: &[Record]) -> Option<usize> {
    let lines = records.iter().take_while(|record| record[0] == b'L');
    let mut count = 0;
    for record in lines {
        take_line(monitor, record)?;
        count += 1;
    }
    Some(count)
}

/// A line in its place: a role line stands before every rule line.
fn take_line<M: Imaged>(monitor: &mut M, record: &Record) -> Option<()> {
    let (roles, rules) = (monitor.roles(), monitor.rules());
    monitor.take(record)?;
    (rules == 0 || monitor.roles() == roles).then_some(())
}

/// The marks that a record gives a rule, where it is written as the rule's would be and they are among 0 to the number of patterns.
fn read_marks(record: &Record, name: [u8; 8], patterns: usize) -> Option<u64> {
    let digits = if record[18] == b' ' { 8 } else { DIGITS };
    let text = std::str::from_utf8(&record[10..10 + digits]).ok()?;
    let marks = u64::from_str_radix(text, 16).ok()?;
    let among = patterns >= 63 || marks < 1 << (patterns + 1);
    (among && *record == marks_in(digits, name, marks)).then_some(marks)
}

//! A session: a list of operations, and room for what a monitor answers to it.

use std::ops::Range;

/// The length of a record and of a reply.
pub const RECORD: usize = 128;
pub const REPLY: usize = 50;

/// The kinds of operations, as the library has them.
#[derive(Clone, Copy, PartialEq)]
pub enum Kind {
    Call = 0,
    Batch = 1,
    Keep = 2,
    Restore = 3,
}

/// Records and images end to end; of each operation its kind, the length of its records and that of its reply buffer, as the library asks for them.
#[derive(Default)]
pub struct Session {
    pub kinds: Vec<Kind>,
    pub records: Vec<u8>,
    pub lengths: Vec<u32>,
    pub sizes: Vec<u32>,
}

/// Made once and used again, so that no run pays for it.
pub struct Answers {
    pub replies: Vec<u8>,
    pub numbers: Vec<u8>,
    pub counts: Vec<u32>,
}

impl Session {
    /// A session of single calls with these bytes; the last record may be short.
    pub fn of_bytes(records: &[u8]) -> Session {
        let mut session = Session::default();
        for record in records.chunks(RECORD) {
            session.add(Kind::Call, record, REPLY);
        }
        session
    }

    /// A session of these lines, written as in `samples/`: the kind, then the text; and then `count` acts, by going round and round a list.
    pub fn new(lines: &[String], acts: &[&str], count: usize) -> Session {
        Session::of_bytes(&records(lines, acts, count))
    }

    /// One more operation.
    pub fn add(&mut self, kind: Kind, records: &[u8], size: usize) {
        self.kinds.push(kind);
        self.records.extend(records);
        self.lengths.push(records.len() as u32);
        self.sizes.push(size as u32);
    }

    /// How many operations it has.
    pub fn len(&self) -> usize {
        self.lengths.len()
    }

    /// Full of a byte that no reply has, so that one left out would show.
    pub fn answers(&self) -> Answers {
        Answers {
            replies: vec![0xAA; total(&self.sizes)],
            numbers: vec![0xAA; self.len()],
            counts: vec![0xAA; self.len()],
        }
    }

    /// Where the replies to some operations stand.
    pub fn replies(&self, operations: Range<usize>) -> Range<usize> {
        let start = total(&self.sizes[..operations.start]);
        start..start + total(&self.sizes[operations])
    }
}

pub fn total(sizes: &[u32]) -> usize {
    sizes.iter().map(|&n| n as usize).sum()
}

/// The records of these lines, and of `count` acts.
pub fn records(lines: &[String], acts: &[&str], count: usize) -> Vec<u8> {
    let mut records = Vec::with_capacity((lines.len() + count) * RECORD);
    for line in lines {
        add(&mut records, line);
    }
    for act in acts.iter().cycle().take(count) {
        add(&mut records, &format!("E{act}"));
    }
    records
}

fn add(records: &mut Vec<u8>, line: &str) {
    let end = records.len() + RECORD - 1;
    records.extend(line.bytes());
    assert!(records.len() <= end, "too long: {line}");
    records.resize(end, b' ');
    records.push(b'\n');
}

/// Whether all replies in a buffer begin with this.
pub fn all_begin(replies: &[u8], with: &str) -> bool {
    let mut replies = replies.chunks(REPLY);
    replies.all(|reply| reply.starts_with(with.as_bytes()))
}

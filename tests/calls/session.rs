//! A session: its calls, and what the book and the monitor answer.

use crate::flat::Flat;
use crate::plain::book::Book;

/// One call: any record, and a reply buffer of any length as it is lent.
#[derive(Clone)]
pub struct Call {
    pub record: Vec<u8>,
    pub lent: Vec<u8>,
}

/// One answer: the number, the reply buffer afterwards, and how many records
/// keeping wrote, which is 0 for all that isn't keeping.
#[derive(PartialEq, Eq)]
pub struct Answer {
    pub number: u8,
    pub reply: Vec<u8>,
    pub count: u32,
}

impl Answer {
    /// The answer to what isn't keeping.
    pub fn new(number: u8, reply: Vec<u8>) -> Answer {
        Answer {
            number,
            reply,
            count: 0,
        }
    }
}

pub fn flat(calls: &[Call]) -> Flat {
    let mut flat = Flat::default();
    for call in calls {
        flat.push(&call.record, &call.lent);
    }
    flat
}

/// One step of the book.
pub fn step(book: &mut Book, call: &Call) -> Answer {
    let mut reply = call.lent.clone();
    let number = book.call(&call.record, &mut reply);
    Answer::new(number, reply)
}

pub fn by_book(calls: &[Call]) -> Vec<Answer> {
    let mut book = Book::fresh();
    calls.iter().map(|call| step(&mut book, call)).collect()
}

/// The bytes of a record and the two answers to it.
pub fn shown(record: &[u8], due: &Answer, library: &Answer) -> String {
    let answer = |a: &Answer| {
        let reply = a.reply.escape_ascii();
        match a.count {
            0 => format!("{} \"{reply}\"", a.number),
            count => format!("{} \"{reply}\", {count} records", a.number),
        }
    };
    format!(
        "record \"{}\"\n  due {}\n  library {}",
        record.escape_ascii(),
        answer(due),
        answer(library)
    )
}

/// The first call, counted from 1, to which the library answers differently, with both answers.
pub fn difference(calls: &[Call], due: &[Answer]) -> Option<String> {
    flat(calls).difference(due, |at, due, library| {
        let both = shown(&calls[at].record, due, library);
        format!("call {}: {both}", at + 1)
    })
}

/// The piece at that place of bytes cut into pieces of that length; nothing behind the last.
pub fn piece(bytes: &[u8], at: usize, length: usize) -> Vec<u8> {
    let piece = bytes.chunks(length).nth(at);
    piece.unwrap_or_default().to_vec()
}

/// The first place where two rows of pieces of that length differ.
pub fn differing(due: &[u8], library: &[u8], length: usize) -> Option<usize> {
    let mut both = due.chunks(length).zip(library.chunks(length));
    both.position(|(d, l)| d != l)
}

//! What is seen in sessions with images.

use crate::operations::Operation;
use crate::plain::book::Book;
use crate::plain::image::image;
use crate::plain::reply::LENGTH;
use crate::plain::rule::{Rule, Seen};
use crate::plain::session_book::SessionBook;
use crate::plain::survey::patterns;
use crate::plain::tree::Name;
use crate::session::Answer;

/// What one session shows, operation by operation.
#[derive(Default)]
pub struct Watch {
    pub seen: Vec<String>,
    /// Before the operation: the image of the monitor where it is to return, and
    /// whether an image from elsewhere had entered.
    pub(super) held: Vec<u8>,
    pub(super) entered: bool,
    /// How many acts were committed, and how many when each image was kept.
    pub(super) committed: usize,
    pub(super) kept: Vec<usize>,
    /// What the last operation was, where it was keeping or returning.
    pub(super) last: Last,
    /// How the monitor came back last.
    pub(super) back: Back,
    /// The rules of 32 patterns or more that came back by eight digits last.
    pub(super) cut: Vec<Name>,
}

#[derive(Default)]
pub enum Last {
    #[default]
    Other,
    Refused(u8),
    Returned,
}

#[derive(Default)]
pub enum Back {
    #[default]
    Never,
    ToHistory,
    ToMarks,
}

fn is_given(rule: &Rule) -> bool {
    matches!(rule.seen, Seen::Given(_))
}

impl Watch {
    pub(super) fn count(&mut self, what: impl Into<String>) {
        self.seen.push(what.into());
    }

    pub fn before(&mut self, book: &SessionBook, operation: &Operation) {
        self.entered = book.entered();
        if let Operation::Restore(_) = operation {
            self.held = image(book.now());
        }
    }

    pub fn after(&mut self, book: &SessionBook, operation: &Operation, answer: &Answer) {
        let last = std::mem::take(&mut self.last);
        match operation {
            Operation::Keep(keep) => self.keep(book, keep, answer),
            Operation::Restore(restore) => self.restore(book, restore, answer),
            Operation::Call(_) if answer.number == 7 => self.count("refusal 7"),
            Operation::Call(_) | Operation::Batch(_) if answer.number == 0 => {
                let replies = answer.reply.chunks(LENGTH);
                if replies.clone().any(|reply| reply[0] != b'R') {
                    self.next(last, operation);
                }
                replies.for_each(|reply| self.reply(book.now(), reply));
            }
            _ => {}
        }
    }

    /// What follows straight on keeping or returning, with a record taken in it.
    fn next(&mut self, last: Last, operation: &Operation) {
        match (last, operation) {
            (Last::Refused(number), _) => self.count(format!("{number}, a record taken next")),
            (Last::Returned, Operation::Batch(_)) => self.count("batch taken next after a restore"),
            (Last::Returned, _) => self.count("call taken next after a restore"),
            (Last::Other, _) => {}
        }
    }

    /// A reply after a return, by what the rules go by.
    fn reply(&mut self, book: &Book, reply: &[u8]) {
        let committed = reply[0] == b'C';
        let worked = committed && &reply[2..4] != b"00";
        let held = reply[0] == b'H';
        self.committed += usize::from(committed);
        match self.back {
            Back::Never => {}
            Back::ToHistory if worked => self.count("act worked after an own image, committed"),
            Back::ToHistory if held => self.count("act held after an own image"),
            // The work can be that of no other rule.
            Back::ToMarks if worked && book.rules().iter().all(is_given) => {
                self.count("act worked by rules with given marks, committed")
            }
            Back::ToMarks if held => self.held_by(book, reply[5..13].trim_ascii_end()),
            _ => {}
        }
    }

    fn held_by(&mut self, book: &Book, name: &[u8]) {
        let decides = book.rules().iter().find(|rule| rule.line.name == name);
        match decides {
            Some(rule) if is_given(rule) => {
                self.count("act held by a rule with given marks");
                if patterns(&rule.line.past) >= 32 {
                    self.count("act held by a rule of 32 patterns or more with given marks");
                }
            }
            _ => self.count("act held by a rule declared after an image from elsewhere"),
        }
    }
}

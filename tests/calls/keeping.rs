//! Keeping an image and returning to one.

use crate::plain::book::RECORD;
use crate::plain::session_book::SessionBook;
use crate::session::{self, Answer};

/// The most records of an image: 63 roles, 32 rules and their marks.
pub const MOST: usize = 127;

/// Keeping: the buffer for the image as it is lent. The record bytes are any, and
/// nobody looks at them.
pub struct Keep {
    pub records: Vec<u8>,
    pub lent: Vec<u8>,
}

/// Returning to an image, which is any bytes. The reply bytes stay as lent.
pub struct Restore {
    pub image: Vec<u8>,
    pub lent: Vec<u8>,
}

impl Keep {
    pub fn step(&self, book: &mut SessionBook) -> Answer {
        let mut reply = self.lent.clone();
        let (number, count) = book.keep(&mut reply);
        Answer {
            number,
            reply,
            count,
        }
    }

    /// Of the image only the first record that differs is shown; the first of all
    /// where the numbers or the counts alone differ.
    pub fn shown(&self, due: &Answer, library: &Answer) -> String {
        let at = session::differing(&due.reply, &library.reply, RECORD).unwrap_or(0);
        let answer = |a: &Answer| {
            let record = session::piece(&a.reply, at, RECORD);
            let record = record.escape_ascii();
            format!("{}, {} records, \"{record}\"", a.number, a.count)
        };
        format!(
            "keep into {} bytes, record {}\n  due {}\n  library {}",
            self.lent.len(),
            at + 1,
            answer(due),
            answer(library)
        )
    }
}

impl Restore {
    pub fn step(&self, book: &mut SessionBook) -> Answer {
        Answer::new(book.restore(&self.image), self.lent.clone())
    }

    pub fn shown(&self, due: &Answer, library: &Answer) -> String {
        let same = |a: &Answer| a.reply == self.lent && a.count == 0;
        let answer = |a: &Answer| match same(a) {
            true => a.number.to_string(),
            false => format!("{}, and something is written", a.number),
        };
        let mut text = format!("restore, {} bytes", self.image.len());
        for record in self.image.chunks(RECORD) {
            text += &format!("\n  {}", record.escape_ascii());
        }
        format!(
            "{text}\n  due {}\n  library {}",
            answer(due),
            answer(library)
        )
    }
}

//! What is seen in keeping.

use super::images::{Last, Watch};
use crate::keeping::{Keep, MOST};
use crate::packed;
use crate::plain::book::{Book, RECORD};
use crate::plain::image::image;
use crate::plain::rule::Rule;
use crate::plain::session_book::{SessionBook, TOO_SHORT};
use crate::session::Answer;

impl Watch {
    pub fn keep(&mut self, book: &SessionBook, keep: &Keep, answer: &Answer) {
        if answer.number == TOO_SHORT {
            return self.too_short(book.now(), keep.lent.len());
        }
        self.kept.push(self.committed);
        self.buffer(keep.lent.len(), answer.count as usize);
        self.image_of(book.now(), answer.count as usize);
        if !keep.records.is_empty() {
            self.count("keep: with record bytes, not looked at");
        }
        if book.entered() {
            self.count("keep: after an image from elsewhere");
        }
    }

    fn too_short(&mut self, book: &Book, size: usize) {
        self.last = Last::Refused(TOO_SHORT);
        if size == 0 {
            self.count("keep 13: no bytes");
        } else if size + 1 == image(book).len() {
            self.count("keep 13: one byte short");
        }
    }

    /// A buffer of that size takes so many records.
    fn buffer(&mut self, size: usize, records: usize) {
        match size - records * RECORD {
            0 => self.count("keep: exactly as long"),
            1 | 127 | 128 => self.count("keep: a buffer longer by 1, 127 or 128 bytes"),
            _ => {}
        }
        if size == MOST * RECORD && records < MOST {
            self.count("keep: a buffer for any image");
        }
    }

    fn marks_of(&mut self, book: &Book, rule: &Rule) {
        let marks = rule.marks(book.list(), book.roles());
        if marks.range(32..).count() > 0 {
            self.count("keep: a rule with a mark above 31");
            if self.cut.contains(&rule.line.name) {
                self.count("keep: a mark above 31 that was given in eight digits as none");
            }
        }
        if marks.contains(&packed::MOST) {
            self.count("keep: a rule with mark 55");
        }
    }

    /// The image of such a book is kept.
    fn image_of(&mut self, book: &Book, records: usize) {
        if records == 0 {
            self.count("keep: a fresh monitor, 0 records");
        }
        for rule in book.rules() {
            self.marks_of(book, rule);
        }
        if book.rules().len() == 32 {
            self.count("keep: 32 rules");
        }
        if book.roles().count() == 64 {
            self.count("keep: 64 roles");
        }
        if records == MOST {
            self.count("keep: 127 records");
        }
    }
}

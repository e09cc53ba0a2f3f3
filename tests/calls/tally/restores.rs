//! What is seen in returning.

use super::images::{Back, Last, Watch};
use super::why::why;
use crate::keeping::Restore;
use crate::packed::MOST;
use crate::plain::book::RECORD;
use crate::plain::image::image;
use crate::plain::marks::Marks;
use crate::plain::rule::{Rule, Seen};
use crate::plain::session_book::{SessionBook, NO_IMAGE};
use crate::plain::survey::patterns;
use crate::session::Answer;

/// The lines of an image.
pub(super) fn lines(image: &[u8]) -> Vec<&[u8]> {
    let records = image.chunks(RECORD);
    records.filter(|record| record[0] == b'L').collect()
}

/// Of each record of marks, whether it has eight digits.
pub(super) fn digits(image: &[u8]) -> Vec<bool> {
    let marks = image.chunks(RECORD).filter(|record| record[0] == b'M');
    marks.map(|record| record[18] == b' ').collect()
}

/// Whether each record given is one of these, or one of marks with its lower digits.
fn is_shortened(own: &[u8], given: &[u8]) -> bool {
    let lower = |own: &[u8], given: &[u8]| {
        own[0] == b'M' && own[..10] == given[..10] && own[18..26] == given[10..18]
    };
    let mut pairs = own.chunks(RECORD).zip(given.chunks(RECORD));
    own.len() == given.len() && pairs.all(|(own, given)| own == given || lower(own, given))
}

impl Watch {
    pub fn restore(&mut self, book: &SessionBook, restore: &Restore, answer: &Answer) {
        if answer.number == NO_IMAGE {
            self.last = Last::Refused(NO_IMAGE);
            return self.count(format!("restore 12: {}", why(&restore.image)));
        }
        self.last = Last::Returned;
        self.cut.clear();
        if !restore.lent.is_empty() {
            self.count("restore: with reply bytes, as lent afterwards");
        }
        if restore.image.is_empty() {
            self.count("restore: the empty image");
        }
        let mut own = book.kept().iter();
        match own.rposition(|p| p.image == restore.image) {
            Some(at) if !self.entered => self.back_to_history(at, &restore.image),
            Some(_) => {
                self.back = Back::ToMarks;
                self.count("restore: an own image after one from elsewhere");
            }
            None => self.back_to_marks(book, &restore.image),
        }
    }

    /// To the image of that place among those kept.
    fn back_to_history(&mut self, at: usize, image: &[u8]) {
        self.back = Back::ToHistory;
        self.count("restore: an own image");
        if self.committed > self.kept[at] {
            self.count("restore: an own image, acts committed since");
        }
        if self.held != image {
            self.count("restore: an own image other than the monitor held");
        }
        if at + 1 < self.kept.len() {
            self.count("restore: an own image that isn't the last kept");
        }
    }

    fn back_to_marks(&mut self, book: &SessionBook, given: &[u8]) {
        self.back = Back::ToMarks;
        self.count("restore: an image from elsewhere");
        let written = image(book.now());
        if lines(&written) != lines(given) {
            self.count("restore: other spaces");
        }
        self.digits(book, given, &written);
        let mut own = book.kept().iter().filter(|own| !own.image.is_empty());
        if own.any(|own| own.image != written && lines(&own.image) == lines(given)) {
            self.count("restore: an own image with other marks");
        }
        for rule in book.now().rules() {
            if let Seen::Given(followed) = &rule.seen {
                self.given(&followed.marks, patterns(&rule.line.past));
            }
        }
    }

    /// With how many digits the rules have come. As it is kept now it would be `written`.
    fn digits(&mut self, book: &SessionBook, given: &[u8], written: &[u8]) {
        let eight = digits(given);
        let count = eight.iter().filter(|&&eight| eight).count();
        match eight.len() - count {
            0 if count == 0 => return,
            0 => self.count("restore: eight digits"),
            _ if count == 0 => return self.count("restore: sixteen digits"),
            _ => self.count("restore: eight and sixteen digits mixed"),
        }
        let long = |rule: &Rule| patterns(&rule.line.past) >= 32;
        let pairs = book.now().rules().iter().zip(&eight);
        let cut = pairs.filter(|(rule, &eight)| eight && long(rule));
        self.cut = cut.map(|(rule, _)| rule.line.name.clone()).collect();
        if !self.cut.is_empty() {
            self.count("restore: eight digits for a rule of 32 patterns or more");
        }
        let kept = || book.kept().iter().map(|own| &own.image[..]);
        if kept().any(|own| own == written) {
            self.count("restore: an own image in eight digits, no mark lost");
        } else if kept().any(|own| is_shortened(own, given)) {
            self.count("restore: an own image in eight digits, marks above 31 lost");
        }
    }

    /// The marks with which a rule has come.
    fn given(&mut self, marks: &Marks, patterns: usize) {
        if marks.is_empty() {
            self.count("restore: a rule with no marks");
        }
        if marks.contains(&0) && marks.len() > 1 {
            self.count("restore: a rule with mark 0 and others");
        }
        if marks.contains(&31) {
            self.count("restore: a rule with mark 31");
        }
        if marks.range(32..).count() > 0 {
            self.count("restore: a rule with a mark above 31");
        }
        if marks.contains(&MOST) {
            self.count("restore: a rule with mark 55");
        }
        if patterns >= 32 && marks.len() == patterns + 1 {
            self.count("restore: a rule of 32 patterns or more with all marks");
        }
    }
}

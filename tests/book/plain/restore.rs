//! Which bytes are an image, and the book that an image gives.

use super::book::{Book, RECORD};
use super::image::{mark_record_of, DIGITS};
use super::marks::Marks;
use super::reply;
use super::rule::Rule;
use super::survey::patterns;

/// The book of an image, its rules with the marks that the image gives. Nothing
/// where the bytes are to be turned away by 12.
pub fn restored(image: &[u8]) -> Option<Book> {
    if image.len() % RECORD != 0 {
        return None;
    }
    let records: Vec<&[u8]> = image.chunks(RECORD).collect();
    // After the first record that is no line only those of marks may come.
    let count = records.iter().take_while(|r| r[0] == b'L').count();
    let (lines, marks) = records.split_at(count);
    let mut book = declared(lines)?;
    let marks = given(marks, book.rules())?;
    book.give(marks);
    Some(book)
}

/// A fresh book given the lines in order, which takes each of them, no role
/// after a rule.
fn declared(lines: &[&[u8]]) -> Option<Book> {
    let mut book = Book::fresh();
    for line in lines {
        let (roles, rules) = (book.roles().count(), book.rules().len());
        if book.call(line, &mut [0; reply::LENGTH]) != 0 {
            return None;
        }
        if rules > 0 && book.roles().count() > roles {
            return None;
        }
    }
    Some(book)
}

/// The marks of each rule: a record for each, in order.
fn given(records: &[&[u8]], rules: &[Rule]) -> Option<Vec<Marks>> {
    if records.len() != rules.len() {
        return None;
    }
    let pairs = records.iter().zip(rules);
    pairs.map(|(record, rule)| read(record, rule)).collect()
}

/// Document 02, C-15: "any `M` record with eight is still read, its higher marks
/// clear".
pub const OLD_DIGITS: usize = 8;

/// The marks of a record with sixteen digits or with eight. No record has both forms:
/// behind eight digits spaces stand where the other eight would.
fn read(record: &[u8], rule: &Rule) -> Option<Marks> {
    read_digits(record, rule, DIGITS).or_else(|| read_digits(record, rule, OLD_DIGITS))
}

/// The marks of a record that is, byte for byte, the one of this rule with these marks
/// in so many digits, each of them a mark that its past has.
fn read_digits(record: &[u8], rule: &Rule, count: usize) -> Option<Marks> {
    let marks = digits(&record[10..10 + count])?;
    let most = patterns(&rule.line.past);
    let had = marks.iter().all(|&mark| mark <= most);
    if had && record == mark_record_of(&rule.line.name, &marks, count) {
        Some(marks)
    } else {
        None
    }
}

/// The marks that digits stand for, small letters too: which of them are as they
/// should be shows when they are written again.
fn digits(bytes: &[u8]) -> Option<Marks> {
    let mut marks = Marks::new();
    for (place, &byte) in bytes.iter().rev().enumerate() {
        let value = char::from(byte).to_digit(16)?;
        let set = (0..4).filter(|bit| value >> bit & 1 == 1);
        marks.extend(set.map(|bit| 4 * place + bit));
    }
    Some(marks)
}

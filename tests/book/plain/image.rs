//! The image of a book: what keeping writes.

use super::book::{Book, RECORD};
use super::marks::Marks;
use super::roles::Roles;
use super::rule::Rule;
use super::text::in_word;

/// The role lines in declared order without top, then the rule lines in order,
/// then for each rule the record of its marks.
pub fn image(book: &Book) -> Vec<u8> {
    let rules = book.rules().iter();
    let mut records = role_lines(book.roles());
    records.extend(rules.clone().map(|rule| line_record(&rule.tokens)));
    records.extend(rules.map(|rule| marks_of(rule, book)));
    records.concat()
}

fn role_lines(roles: &Roles) -> Vec<Vec<u8>> {
    let lines = roles.with_parents();
    lines
        .map(|(name, parent)| line_record(&[b"role", name.as_slice(), b"under", parent]))
        .collect()
}

fn marks_of(rule: &Rule, book: &Book) -> Vec<u8> {
    mark_record(&rule.line.name, &rule.marks(book.list(), book.roles()))
}

/// The tokens with one space between two neighbouring words, and no other space.
pub fn written<T: AsRef<[u8]>>(tokens: &[T]) -> Vec<u8> {
    let mut text: Vec<u8> = Vec::new();
    for token in tokens {
        let token = token.as_ref();
        let after_word = text.last().map_or(false, |&byte| in_word(byte));
        if after_word && in_word(token[0]) {
            text.push(b' ');
        }
        text.extend(token);
    }
    text
}

pub fn line_record<T: AsRef<[u8]>>(tokens: &[T]) -> Vec<u8> {
    padded(b'L', &written(tokens))
}

/// Document 02, C-15: "keeping writes sixteen".
pub const DIGITS: usize = 16;

/// The record of marks that keeping writes.
pub fn mark_record(name: &[u8], marks: &Marks) -> Vec<u8> {
    mark_record_of(name, marks, DIGITS)
}

/// The name in eight columns, a space, and the marks as so many capital
/// hexadecimal digits, the highest marks first: bit k is mark k. Marks for which
/// there is no digit are not written.
pub fn mark_record_of(name: &[u8], marks: &Marks, digits: usize) -> Vec<u8> {
    let mut text = name.to_vec();
    text.resize(9, b' ');
    for digit in (0..digits).rev() {
        let value: usize = (0..4)
            .filter(|bit| marks.contains(&(4 * digit + bit)))
            .map(|bit| 1 << bit)
            .sum();
        text.push(b"0123456789ABCDEF"[value]);
    }
    padded(b'M', &text)
}

/// A record of that kind, its text filled up with spaces.
fn padded(kind: u8, text: &[u8]) -> Vec<u8> {
    let mut record = vec![kind];
    record.extend(text);
    record.resize(RECORD - 1, b' ');
    record.push(b'\n');
    record
}

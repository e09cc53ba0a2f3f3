//! Why an image is refused, by the first thing that is wrong with it.

use crate::plain::book::{Book, RECORD};
use crate::plain::reply::LENGTH;
use crate::plain::rule::Rule;
use crate::plain::survey::patterns;

pub fn why(image: &[u8]) -> String {
    if image.len() % RECORD != 0 {
        return "not whole records".to_string();
    }
    let records: Vec<&[u8]> = image.chunks(RECORD).collect();
    let count = records.iter().take_while(|r| r[0] == b'L').count();
    let (lines, rest) = records.split_at(count);
    let mut book = Book::fresh();
    for line in lines {
        if let Some(wrong) = wrong_line(&mut book, line) {
            return wrong;
        }
    }
    let mut pairs = rest.iter().zip(book.rules());
    let wrong = wrong_kinds(rest, book.rules().len())
        .or_else(|| pairs.find_map(|(record, rule)| wrong_marks(record, rule)));
    wrong.unwrap_or("nothing that is known").to_string()
}

fn wrong_line(book: &mut Book, line: &[u8]) -> Option<String> {
    let (roles, rules) = (book.roles().count(), book.rules().len());
    match book.call(line, &mut [0; LENGTH]) {
        0 if rules > 0 && book.roles().count() > roles => {
            Some("a role line after a rule line".to_string())
        }
        0 => None,
        number => Some(format!("a line refused by {number}")),
    }
}

/// Behind the lines only records of marks may stand, as many as there are rules.
fn wrong_kinds(rest: &[&[u8]], rules: usize) -> Option<&'static str> {
    let kinds: Vec<u8> = rest.iter().map(|record| record[0]).collect();
    if kinds.contains(&b'E') {
        Some("an act")
    } else if kinds.contains(&b'L') {
        Some("a line after marks")
    } else if kinds.iter().any(|&kind| kind != b'M') {
        Some("another first byte")
    } else if rest.len() > rules {
        Some("marks too many")
    } else if rest.len() < rules {
        Some("marks too few")
    } else {
        None
    }
}

fn wrong_marks(record: &[u8], rule: &Rule) -> Option<&'static str> {
    let mut name = rule.line.name.clone();
    name.resize(8, b' ');
    if record[1..9] != name {
        return Some("marks of another name");
    }
    let digits = record[10..].iter().take_while(|b| b.is_ascii_hexdigit());
    let count = digits.count();
    let after = &record[10 + count..RECORD - 1];
    let spaces = after.iter().all(|&byte| byte == b' ');
    if record[9] != b' ' || record[RECORD - 1] != b'\n' {
        return Some("another byte in marks");
    }
    match count {
        0 if spaces => Some("no digits"),
        7 if spaces => Some("seven digits"),
        8 | 16 if spaces => wrong_value(&record[10..10 + count], patterns(&rule.line.past)),
        8 if is_eight_more(after) => Some("eight digits, a space and eight more"),
        9 if spaces => Some("nine digits"),
        15 if spaces => Some("fifteen digits"),
        17 if spaces => Some("seventeen digits"),
        _ => Some("another byte in marks"),
    }
}

/// A space, eight digits and only spaces after them.
fn is_eight_more(after: &[u8]) -> bool {
    let (digits, rest) = after[1..].split_at(8);
    after[0] == b' '
        && digits.iter().all(u8::is_ascii_hexdigit)
        && rest.iter().all(|&byte| byte == b' ')
}

fn wrong_value(digits: &[u8], highest: usize) -> Option<&'static str> {
    let text = std::str::from_utf8(digits).unwrap_or("");
    let value = u64::from_str_radix(text, 16).unwrap_or(0);
    if value >> (highest + 1) != 0 {
        return Some(wrong_mark(digits.len(), value, highest));
    }
    let upper_half = &digits[..digits.len() - 8];
    if upper_half.iter().any(u8::is_ascii_lowercase) {
        return Some("marks in small letters, in the upper half");
    }
    let small = digits.iter().any(u8::is_ascii_lowercase);
    small.then_some("marks in small letters")
}

/// A mark that the past doesn't have, by where it is.
fn wrong_mark(digits: usize, value: u64, highest: usize) -> &'static str {
    let lower_half = value & 0xffff_ffff;
    let lower_had = highest >= 31 || lower_half >> (highest + 1) == 0;
    match highest {
        _ if digits == 8 => "a mark that the past doesn't have, in eight digits",
        31.. if value == 1 << (highest + 1) => {
            "the mark just above those of 31 patterns or more, alone"
        }
        32.. => "a mark that a past of 32 patterns or more doesn't have",
        _ if lower_had && lower_half != 0 => "a mark of the upper half, the lower ones are had",
        _ if lower_had => "a mark of the upper half alone, of 31 patterns or fewer",
        _ => "a mark that the past doesn't have",
    }
}

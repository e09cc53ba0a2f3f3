//! The judge: sheets, rules and lists of records, and what the book and the library answer.

use crate::acts;
use crate::plain::book::{Book, RECORD};
use crate::plain::image::image;
use crate::plain::judge::judge;
use crate::plain::reply;
use crate::plain::tree::Act;
use crate::random::Random;
use crate::session::Call;
use crate::spell::record;
use crate::spoil::spoil_bytes;
use crate::stand;

/// One call of the judge.
pub struct Question {
    pub sheet: Vec<u8>,
    pub number: u32,
    pub records: Vec<u8>,
}

const REFUSED: u64 = 1 << 32;

/// The book that a sheet leaves.
fn read(sheet: &[u8]) -> Book {
    let mut book = Book::fresh();
    for record in sheet.chunks(RECORD) {
        book.call(record, &mut [0; reply::LENGTH]);
    }
    book
}

pub fn by_book(question: &Question) -> u64 {
    if question.sheet.len() % RECORD != 0 {
        return 11 * REFUSED;
    }
    match judge(&read(&question.sheet), question.number, &question.records) {
        Ok(yes) => u64::from(yes),
        Err(number) => u64::from(number) * REFUSED,
    }
}

/// A copy has a block of just its length, so that a step out of it shows under valgrind.
pub fn by_library(question: &Question) -> u64 {
    let sheet = question.sheet.clone();
    let records = question.records.clone();
    stand::judge(&sheet, question.number, &records)
}

/// What the two answer, where they differ.
pub fn difference(question: &Question) -> Option<String> {
    let (book, library) = (by_book(question), by_library(question));
    if book == library {
        return None;
    }
    let shown = |answer: u64| format!("refusal {}, answer {}", answer >> 32, answer % REFUSED);
    Some(format!(
        "judge, rule {}\n  book {}\n  library {}",
        question.number,
        shown(book),
        shown(library)
    ))
}

/// A session's whole records: all of them, or the lines alone. Or the image that
/// they leave, of which the records of marks are refused and change nothing.
fn sheet(random: &mut Random, calls: &[Call]) -> Vec<u8> {
    let acts_too = random.chance(20);
    let whole = calls.iter().filter(|call| call.record.len() == RECORD);
    let kept = whole.filter(|call| acts_too || call.record[0] == b'L');
    let sheet: Vec<u8> = kept.flat_map(|call| call.record.clone()).collect();
    if random.chance(15) {
        return image(&read(&sheet));
    }
    sheet
}

fn written(act: &Act) -> Vec<u8> {
    record(b'E', &String::from_utf8_lossy(&act.join(&b' ')))
}

/// About as many acts as the judge takes: the list again and again, which a
/// star may match, or any acts after it.
fn drawn_out(random: &mut Random, book: &Book, list: &mut Vec<Act>) {
    let count = *random.pick(&[255, 256, 256, 257]);
    if !list.is_empty() && random.chance(60) {
        *list = list.iter().cycle().take(count).cloned().collect();
    }
    list.resize_with(count, || acts::act(random, book.roles()));
}

/// Acts that the rule's past matches, or nearly so; sometimes very many.
fn list(random: &mut Random, book: &Book, number: u32) -> Vec<Act> {
    let mut list = Vec::new();
    if let Some(rule) = book.rules().get(number as usize) {
        acts::matching(random, book.roles(), &rule.line.past, &mut list);
    }
    if random.chance(20) && !list.is_empty() {
        list.remove(random.below(list.len()));
    }
    if random.chance(20) {
        list.push(acts::act(random, book.roles()));
    }
    if random.chance(8) {
        drawn_out(random, book, &mut list);
    }
    list
}

/// A wrong record or two, or a wrong length.
fn spoil(random: &mut Random, records: &mut Vec<u8>) {
    for _ in 0..random.between(1, 2) {
        let count = records.len() / RECORD;
        let at = RECORD * random.below(count + 1);
        let mut wrong = match random.below(5) {
            0 => record(b'E', "uv;"),
            1 | 2 => record(b'E', "notheld"),
            3 => record(b'L', "role zz under top"),
            _ => record(b'E', "top top top top top"),
        };
        if random.chance(30) {
            spoil_bytes(random, &mut wrong);
        }
        records.splice(at..at, wrong);
    }
    if random.chance(20) {
        let short = random.below(RECORD);
        records.truncate(records.len() - short);
    }
}

/// One question to a sheet and the book that it leaves.
fn question(random: &mut Random, sheet: &[u8], book: &Book) -> Question {
    let mut sheet = sheet.to_vec();
    if random.chance(3) {
        sheet.extend(random.bytes(1));
    }
    let held = book.rules().len();
    let number = if random.chance(8) {
        *random.pick(&[held as u32, 31, 32, 255, 256, u32::MAX])
    } else {
        random.below(held.max(1)) as u32
    };
    let acts = list(random, book, number);
    let mut records: Vec<u8> = acts.iter().flat_map(written).collect();
    if random.chance(25) {
        spoil(random, &mut records);
    }
    Question {
        sheet,
        number,
        records,
    }
}

/// Some questions about the rules of a session.
pub fn questions(random: &mut Random, calls: &[Call]) -> Vec<Question> {
    let sheet = sheet(random, calls);
    let book = read(&sheet);
    (0..5).map(|_| question(random, &sheet, &book)).collect()
}

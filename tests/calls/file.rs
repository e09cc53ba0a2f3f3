//! What failed, as text, and back.
//!
//! A line is `call RECORD LENT`, `batch RECORDS LENT`, `keep RECORDS LENT`,
//! `restore IMAGE LENT`, `judge SHEET NUMBER RECORDS`, `round IMAGE USED RECORDS LENT`,
//! `misfit RECORDS LENGTHS REPLIES SIZES NUMBERS` or, for operations,
//! `misfit RECORDS LENGTHS REPLIES SIZES NUMBERS KINDS COUNTS`. Bytes are in
//! hexadecimal, other numbers in decimal with commas, `-` for none. Lines that
//! begin with `#` are for the reader.

use crate::batch::Batch;
use crate::flat::Flat;
use crate::judging::Question;
use crate::keeping::{Keep, Restore};
use crate::operations::Operation;
use crate::plain::book::RECORD;
use crate::rounds::Round;
use crate::session::Call;

/// One line.
pub enum Entry {
    Operation(Operation),
    Judge(Question),
    Misfit(Flat),
    Round(Round),
}

fn listed(words: Vec<String>, between: &str) -> String {
    if words.is_empty() {
        return "-".to_string();
    }
    words.join(between)
}

fn hex(bytes: &[u8]) -> String {
    listed(bytes.iter().map(|b| format!("{b:02x}")).collect(), "")
}

fn decimal(numbers: &[u32]) -> String {
    listed(numbers.iter().map(u32::to_string).collect(), ",")
}

fn unhex(text: &str) -> Option<Vec<u8>> {
    if text == "-" {
        return Some(Vec::new());
    }
    if text.len() % 2 != 0 || !text.is_ascii() {
        return None;
    }
    let pairs = (0..text.len()).step_by(2).map(|at| &text[at..at + 2]);
    pairs
        .map(|pair| u8::from_str_radix(pair, 16).ok())
        .collect()
}

fn undecimal(text: &str) -> Option<Vec<u32>> {
    if text == "-" {
        return Some(Vec::new());
    }
    text.split(',').map(|word| word.parse().ok()).collect()
}

pub fn calls_text(calls: &[Call]) -> String {
    let calls = calls.iter().cloned().map(Operation::Call);
    operations_text(&calls.collect::<Vec<_>>())
}

pub fn operations_text(operations: &[Operation]) -> String {
    let mut text = String::new();
    for (at, operation) in operations.iter().enumerate() {
        let (records, lent) = operation.bytes();
        let (word, each) = match operation {
            Operation::Call(_) => ("call", records.len().max(1)),
            Operation::Batch(_) => ("batch", RECORD),
            Operation::Keep(_) => ("keep", RECORD),
            Operation::Restore(_) => ("restore", RECORD),
        };
        text += &format!("# {} {word}\n", at + 1);
        text += &for_reader(records, each);
        text += &format!("{word} {} {}\n", hex(records), hex(lent));
    }
    text
}

fn for_reader(records: &[u8], each: usize) -> String {
    let records = records.chunks(each);
    records
        .map(|record| format!("#   {}\n", record.escape_ascii()))
        .collect()
}

pub fn rounds_text(rounds: &[Round]) -> String {
    let mut text = String::new();
    for (at, round) in rounds.iter().enumerate() {
        let (records, lent) = (&round.batch.records, &round.batch.lent);
        text += &format!("# {} round, used {}\n", at + 1, round.used);
        text += &for_reader(round.used_records().unwrap_or_default(), RECORD);
        text += &format!("# batch\n{}", for_reader(records, RECORD));
        let (image, used) = (hex(&round.image), round.used);
        text += &format!("round {image} {used} {} {}\n", hex(records), hex(lent));
    }
    text
}

pub fn question_text(q: &Question) -> String {
    format!("judge {} {} {}\n", hex(&q.sheet), q.number, hex(&q.records))
}

pub fn misfit_text(f: &Flat) -> String {
    let (records, replies, numbers) = (hex(&f.records), hex(&f.replies), hex(&f.numbers));
    let (lengths, sizes) = (decimal(&f.lengths), decimal(&f.sizes));
    let more = match &f.kinds {
        None => String::new(),
        Some(kinds) => format!(" {} {}", hex(kinds), decimal(&f.counts)),
    };
    format!("misfit {records} {lengths} {replies} {sizes} {numbers}{more}\n")
}

fn misfit(words: [&str; 5]) -> Option<Flat> {
    let [records, lengths, replies, sizes, numbers] = words;
    Some(Flat {
        records: unhex(records)?,
        lengths: undecimal(lengths)?,
        replies: unhex(replies)?,
        sizes: undecimal(sizes)?,
        numbers: unhex(numbers)?,
        ..Flat::default()
    })
}

/// The operation of that word with these bytes.
fn operation(word: &str, records: Vec<u8>, lent: Vec<u8>) -> Option<Operation> {
    Some(match word {
        "call" => Operation::Call(Call {
            record: records,
            lent,
        }),
        "batch" => Operation::Batch(Batch { records, lent }),
        "keep" => Operation::Keep(Keep { records, lent }),
        "restore" => Operation::Restore(Restore {
            image: records,
            lent,
        }),
        _ => return None,
    })
}

/// The entry of a line, or nothing when it has none of the forms.
pub fn entry(line: &str) -> Option<Entry> {
    let words: Vec<&str> = line.split_whitespace().collect();
    match words[..] {
        [word, records, lent] => {
            operation(word, unhex(records)?, unhex(lent)?).map(Entry::Operation)
        }
        ["judge", sheet, number, records] => Some(Entry::Judge(Question {
            sheet: unhex(sheet)?,
            number: number.parse().ok()?,
            records: unhex(records)?,
        })),
        ["round", image, used, records, lent] => Some(Entry::Round(Round {
            image: unhex(image)?,
            used: used.parse().ok()?,
            batch: Batch {
                records: unhex(records)?,
                lent: unhex(lent)?,
            },
        })),
        ["misfit", a, b, c, d, e] => misfit([a, b, c, d, e]).map(Entry::Misfit),
        ["misfit", a, b, c, d, e, kinds, counts] => Some(Entry::Misfit(Flat {
            kinds: Some(unhex(kinds)?),
            counts: undecimal(counts)?,
            ..misfit([a, b, c, d, e])?
        })),
        _ => None,
    }
}

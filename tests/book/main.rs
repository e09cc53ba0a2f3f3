//! Runs stored sessions through the plain book and compares its replies, byte
//! for byte, with the stored ones.
//!
//! The arguments are the directory of the sessions (see `stored.rs`) and, where
//! they are to be compared too, that of the sessions with images (see `stored_images.rs`).

#![forbid(unsafe_code)]

mod images;
mod plain;
mod stored;
mod stored_images;

use std::path::Path;

use plain::book::{Book, RECORD};
use plain::reply;

fn main() {
    let directories: Vec<_> = std::env::args_os().skip(1).collect();
    let told = match &directories[..] {
        [sessions] => compare_all(Path::new(sessions)),
        [sessions, images] => compare_both(Path::new(sessions), Path::new(images)),
        _ => Err("book: give the directory of the sessions".to_string()),
    };
    match told {
        Ok(line) => println!("{line}"),
        Err(line) => {
            println!("{line}");
            std::process::exit(1);
        }
    }
}

fn compare_both(sessions: &Path, images: &Path) -> Result<String, String> {
    let of_sessions = compare_all(sessions)?;
    let of_images = images::compare_all(images)?;
    Ok(format!("{of_sessions}\n{of_images}"))
}

/// Every stored session; stops at the first difference.
fn compare_all(directory: &Path) -> Result<String, String> {
    let sessions = stored::sessions(directory).map_err(|why| format!("book: {why}"))?;
    let mut replies = 0;
    for session in &sessions {
        replies += compare(&session.name, &session.records, &session.replies)?;
    }
    let count = sessions.len();
    Ok(format!(
        "book: {count} sessions, {replies} replies, no difference"
    ))
}

/// One session with a fresh book. Gives how many replies were compared.
/// Records are numbered from 1.
fn compare(name: &str, records: &[u8], stored: &[u8]) -> Result<usize, String> {
    let mut book = Book::fresh();
    let mut left = stored;
    let mut count = 0;
    for record in records.chunks(RECORD) {
        count += 1;
        // Lent full of a byte no reply has, so that a column left unfilled shows.
        let mut given = [0xAA_u8; reply::LENGTH];
        book.call(record, &mut given);
        let (expected, rest) = left.split_at(left.len().min(reply::LENGTH));
        if given[..] != *expected {
            return Err(differ(name, count, &given, expected));
        }
        left = rest;
    }
    if left.is_empty() {
        Ok(count)
    } else {
        Err(format!(
            "book: {name}: {} stored bytes after the reply to record {count}, the last",
            left.len()
        ))
    }
}

fn differ(name: &str, count: usize, given: &[u8], expected: &[u8]) -> String {
    let given = String::from_utf8_lossy(given);
    let expected = String::from_utf8_lossy(expected);
    format!("book: {name}: record {count}: the book says {given:?}, stored is {expected:?}")
}

//! Stored sessions with images: a directory with `names.txt`,
//! which lists them one to a line, and for each NAME the file `NAME.txt`.
//!
//! In such a file a line at the margin says what is done, and the lines set in by
//! two spaces below it are bytes:
//! - `call RECORD`, below it the reply due;
//! - `keep`, below it the records due;
//! - `restore NUMBER`, below it the records of the image, and the number is the one
//!   due; `restore NUMBER less COUNT` leaves the last COUNT bytes away.
//!
//! A record is filled up with spaces to 127 bytes, a reply to 49, and the newline
//! ends it. Empty lines and those that begin with `#` are for the reader.

use std::path::Path;

use crate::plain::book::RECORD;
use crate::plain::reply;

pub struct StoredSession {
    pub name: String,
    pub steps: Vec<Step>,
}

/// What is done, with what is due.
pub enum Step {
    Call { record: Vec<u8>, reply: Vec<u8> },
    Keep { image: Vec<u8> },
    Restore { image: Vec<u8>, number: u8 },
}

impl Step {
    /// The number due. That of a refused call stands in its reply.
    pub fn number(&self) -> u8 {
        match self {
            Step::Call { reply, .. } if reply[0] == b'R' => {
                10 * (reply[2] - b'0') + (reply[3] - b'0')
            }
            Step::Restore { number, .. } => *number,
            _ => 0,
        }
    }
}

/// Every session that `names.txt` lists, of which there is at least one.
pub fn sessions(directory: &Path) -> Result<Vec<StoredSession>, String> {
    let names = read(&directory.join("names.txt"))?;
    let names = names.lines().map(str::trim).filter(|n| !n.is_empty());
    let sessions: Result<Vec<StoredSession>, String> =
        names.map(|n| session(directory, n)).collect();
    match sessions {
        Ok(none) if none.is_empty() => Err("names.txt lists no session".to_string()),
        told => told,
    }
}

fn read(path: &Path) -> Result<String, String> {
    std::fs::read_to_string(path).map_err(|error| format!("{}: {error}", path.display()))
}

fn session(directory: &Path, name: &str) -> Result<StoredSession, String> {
    let text = read(&directory.join(format!("{name}.txt")))?;
    let told = |line: &&str| !line.is_empty() && !line.starts_with('#');
    let lines: Vec<&str> = text.lines().filter(told).collect();
    let mut rest = &lines[..];
    let mut steps = Vec::new();
    while let Some((head, after)) = rest.split_first() {
        let count = after.iter().take_while(|l| l.starts_with("  ")).count();
        let (below, next) = after.split_at(count);
        let below: Vec<&str> = below.iter().map(|line| &line[2..]).collect();
        steps.push(step(head, &below).ok_or_else(|| format!("{name}: wrong: {head}"))?);
        rest = next;
    }
    Ok(StoredSession {
        name: name.to_string(),
        steps,
    })
}

/// The step of a line and those below it, or nothing where they have no such form.
fn step(head: &str, below: &[&str]) -> Option<Step> {
    if let Some(text) = head.strip_prefix("call ") {
        return Some(Step::Call {
            record: filled(text, RECORD)?,
            reply: match below {
                [reply] => filled(reply, reply::LENGTH)?,
                _ => return None,
            },
        });
    }
    let records: Option<Vec<Vec<u8>>> = below.iter().map(|text| filled(text, RECORD)).collect();
    let mut image = records?.concat();
    let words: Vec<&str> = head.split(' ').collect();
    let (number, less) = match words[..] {
        ["keep"] => return Some(Step::Keep { image }),
        ["restore", number] => (number, "0"),
        ["restore", number, "less", count] => (number, count),
        _ => return None,
    };
    image.truncate(image.len().checked_sub(less.parse().ok()?)?);
    let number = number.parse().ok()?;
    Some(Step::Restore { image, number })
}

/// The text filled up with spaces, and the newline; nothing where it has no room.
fn filled(text: &str, length: usize) -> Option<Vec<u8>> {
    if text.len() >= length {
        return None;
    }
    let mut bytes = text.as_bytes().to_vec();
    bytes.resize(length - 1, b' ');
    bytes.push(b'\n');
    Some(bytes)
}

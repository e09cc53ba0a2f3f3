//! Random sessions through the plain book and through the proved monitor,
//! compared call by call, operation by operation and round by round, byte for byte.
//!
//! `calls [COUNT] [SEED]`: at least COUNT calls; fails at the first difference,
//! when something has occurred that can't (refusal 7), and when something that
//! should have occurred didn't.
//! `calls stored DIRECTORY`: the stored sessions in batches.
//! `calls images DIRECTORY`: the stored sessions with images.
//! `calls replay FILE`: a failing session again.

mod acts;
mod batch;
mod compare;
mod cut;
mod file;
mod flat;
mod held;
mod image_session;
mod image_steps;
mod images;
mod judging;
mod keeping;
mod kinds;
mod language;
mod misfit;
mod near;
mod operations;
mod packed;
#[path = "../book/plain/mod.rs"]
mod plain;
mod random;
mod refuse;
mod replay;
mod rounds;
mod session;
mod spell;
mod spoil;
mod stage;
mod stand;
mod stored;
#[path = "../book/stored_images.rs"]
mod stored_image_sessions;
mod stored_images;
#[path = "../book/stored.rs"]
mod stored_sessions;
mod tally;
mod words;

use std::path::Path;

use kinds::KINDS;
use tally::Tally;

const COUNT: usize = 500_000;
const SEED: u64 = 1;

fn main() {
    let words: Vec<String> = std::env::args().skip(1).collect();
    let told = match words.first().map(String::as_str) {
        Some("replay") => path(words.get(1)).and_then(replay::replay),
        Some("stored") => path(words.get(1)).and_then(stored::compare_all),
        Some("images") => path(words.get(1)).and_then(stored_images::compare_all),
        _ => numbers(&words).and_then(|(count, seed)| run(count, seed)),
    };
    match told {
        Ok(line) => println!("{line}"),
        Err(line) => {
            println!("{line}");
            std::process::exit(1);
        }
    }
}

fn path(word: Option<&String>) -> Result<&Path, String> {
    word.map(Path::new).ok_or("calls: give a path".to_string())
}

/// The count and the seed.
fn numbers(words: &[String]) -> Result<(usize, u64), String> {
    let wrong = |_| "calls: give a count and a seed".to_string();
    let count = words
        .first()
        .map_or(Ok(COUNT), |word| word.parse().map_err(wrong))?;
    let seed = words
        .get(1)
        .map_or(Ok(SEED), |word| word.parse().map_err(wrong))?;
    Ok((count, seed))
}

/// Sessions until there are enough calls, and each kind was taken at least once.
fn run(count: usize, seed: u64) -> Result<String, String> {
    println!("calls: seed {seed}");
    let mut tally = Tally::default();
    while tally.calls < count || tally.sessions < KINDS.len() {
        session(seed, &mut tally)?;
    }
    tally.print();
    let missing = tally.missing();
    if !missing.is_empty() {
        return Err(format!("calls: never seen: {}", missing.join("; ")));
    }
    Ok("calls: no difference".to_string())
}

/// One session, made and compared.
fn session(seed: u64, tally: &mut Tally) -> Result<(), String> {
    let number = tally.sessions;
    let (kind, mut stage) = kinds::made(seed, number);
    tally.kind(kind);
    compare::compare(number, &mut stage, tally).map_err(|(why, text)| {
        let which = format!("seed {seed} session {number} ({kind})");
        kept(&which, &why, &text)
    })
}

/// Writes what failed to a file and says where.
fn kept(which: &str, why: &str, text: &str) -> String {
    let file = std::env::temp_dir().join(format!("calls-{}.txt", std::process::id()));
    let head = format!("# {which}\n# {}\n", why.replace('\n', "\n# "));
    match std::fs::write(&file, head + text) {
        Ok(()) => format!("calls: {which}: {why}\ncalls: replay {}", file.display()),
        Err(error) => format!("calls: {which}: {why}\ncalls: not kept: {error}"),
    }
}

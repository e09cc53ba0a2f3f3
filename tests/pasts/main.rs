//! Random pasts and lists of events: whether the monitor's follower says that the past matches, after every event, and the positions that it holds
//! at the end, against a matcher written from document 01 alone.
//!
//! `pasts [SEED]`; the seed is printed, and the same seed gives the same run. Exit status 1 at the first difference.

mod counts;
mod fixed;
mod generate;
mod long;
mod model;
mod probe;
// Its other choices serve the random sessions.
#[allow(dead_code)]
#[path = "../calls/random.rs"]
mod random;
mod tree;

use counts::Counts;
use probe::{Event, NAMES};
use random::Random;
use tree::Past;

const PASTS: usize = 30_000;
const LISTS: usize = 4;
/// What no answer is: a byte of `out` that a call did not write.
const UNWRITTEN: u8 = 9;

fn shown(events: &[Event]) -> String {
    let texts: Vec<String> = events
        .iter()
        .map(|e| {
            let names: Vec<&str> = e.iter().map(|r| NAMES[*r as usize]).collect();
            format!("<{}>", names.join(" "))
        })
        .collect();
    texts.join(", ")
}

/// Whether a past uses the upper positions of 32 too.
fn is_full(past: &Past) -> bool {
    (20..long::LEAST).contains(&tree::patterns(past))
}

/// Whether a past has more patterns than there were marks for once.
fn is_long(past: &Past) -> bool {
    tree::patterns(past) >= long::LEAST
}

fn has_star(past: &Past) -> bool {
    match past {
        Past::Pattern(_) | Past::Empty => false,
        Past::Sequence(parts) | Past::Either(parts) => parts.iter().any(has_star),
        Past::Star(_) => true,
        Past::Bracketed(inner) => has_star(inner),
    }
}

/// Whether a star stands over a part that can be empty; where `nested`, one that has a star in it.
fn star_over_empty(past: &Past, nested: bool) -> bool {
    match past {
        Past::Pattern(_) | Past::Empty => false,
        Past::Sequence(parts) | Past::Either(parts) => {
            parts.iter().any(|p| star_over_empty(p, nested))
        }
        Past::Star(inner) => {
            (model::can_be_empty(inner) && (!nested || has_star(inner)))
                || star_over_empty(inner, nested)
        }
        Past::Bracketed(inner) => star_over_empty(inner, nested),
    }
}

fn fail(seed: u64, text: &str, events: &[Event], what: &str) -> ! {
    println!("DIFFERENT, seed {}", seed);
    println!("  text:   {:?}", text);
    println!("  events: {}", shown(events));
    println!("  {}", what);
    std::process::exit(1);
}

/// One past against one list: every prefix.
fn compare(seed: u64, text: &str, past: &Past, events: &[Event], counts: &mut Counts) {
    let mut out = vec![UNWRITTEN; events.len() + 2];
    let number = probe::past(text.as_bytes(), &probe::coded(events), &mut out);
    if number != 0 {
        fail(
            seed,
            text,
            events,
            &format!("refused by {}, and should be taken", number),
        );
    }
    let reading = model::reading(past, events);
    let right = reading.matches;
    for (k, matches) in right.iter().enumerate() {
        if out[k] != *matches as u8 {
            let what = format!(
                "after {} events: {}, and should be {}",
                k, out[k], *matches as u8
            );
            fail(seed, text, events, &what);
        }
        counts.prefixes_matched += *matches as usize;
    }
    if out[events.len() + 1] != UNWRITTEN {
        fail(seed, text, events, "an answer beyond the list");
    }
    // of a single rule, the number that probe_commit makes is its set of positions
    let record = format!("{:126}", text);
    let marks = probe::commit(record.as_bytes(), &probe::coded(events), 1);
    if marks != reading.marks {
        let what = format!("positions {:#x}, and should be {:#x}", marks, reading.marks);
        fail(seed, text, events, &what);
    }
    tally(past, marks, &right, counts);
}

/// What a pair of a past and a list has shown: its positions at the end, and whether it matches.
fn tally(past: &Past, marks: u64, right: &[bool], counts: &mut Counts) {
    let matched = right[right.len() - 1];
    counts.positions += marks.count_ones() as usize;
    counts.upper += (marks >> 20 & 0xfff).count_ones() as usize;
    counts.high += (marks >> long::LEAST).count_ones() as usize;
    counts.highest += (marks >> long::MOST & 1) as usize;
    counts.pairs += 1;
    counts.long_pairs += is_long(past) as usize;
    counts.matched += matched as usize;
    counts.full_matched += (matched && is_full(past)) as usize;
    counts.long_matched += (matched && is_long(past)) as usize;
    counts.prefixes += right.len();
}

/// A past with its text.
fn next(random: &mut Random) -> (Past, String) {
    loop {
        let past = match random.below(100) {
            0..=14 => {
                let size = long::LEAST + random.below(long::MOST - long::LEAST + 1);
                long::past(random, size)
            }
            15..=39 => {
                let size = 4 + random.below(28);
                generate::past(random, size, true)
            }
            _ => {
                let size = 1 + random.below(8);
                generate::past(random, size, false)
            }
        };
        // A past that all but fills the line has room for few endings.
        let text = (0..20).find_map(|_| generate::line(random, &past));
        if let Some(text) = text {
            return (past, text);
        }
    }
}

fn count(past: &Past, counts: &mut Counts) {
    counts.pasts += 1;
    counts.over_empty += star_over_empty(past, false) as usize;
    counts.nested += star_over_empty(past, true) as usize;
    counts.full += is_full(past) as usize;
    counts.long += is_long(past) as usize;
    counts.most += (tree::patterns(past) == long::MOST) as usize;
}

fn main() {
    let seed = match std::env::args().nth(1) {
        Some(word) => word.parse().expect("the seed is a number"),
        None => 20_051_115,
    };
    println!("pasts: seed {}", seed);
    fixed::fixed(seed);
    let mut random = Random::new(seed);
    let mut counts = Counts::default();
    for _ in 0..PASTS {
        let (past, text) = next(&mut random);
        count(&past, &mut counts);
        for _ in 0..LISTS {
            let events = match is_long(&past) {
                true => generate::long_events(&mut random, &past),
                false => generate::events(&mut random, &past),
            };
            compare(seed, &text, &past, &events, &mut counts);
        }
    }
    counts.print();
    let missing = counts.missing();
    if !missing.is_empty() {
        println!("pasts: never seen: {}", missing.join("; "));
        std::process::exit(1);
    }
    println!("pasts: no difference");
}

//! What the calls say of texts that are refused, of events that end early, and of rows of patterns.

use crate::{fail, probe, UNWRITTEN};

/// A number that isn't the right one, or something written that should not be.
fn check(seed: u64, text: &str, events: &[u8], number: u32, due: &[u8]) {
    let mut out = vec![UNWRITTEN; due.len()];
    let told = probe::past(text.as_bytes(), events, &mut out);
    if told != number || out != due {
        let what = format!("{told}, {out:?}, and should be {number}, {due:?}");
        fail(seed, text, &[], &what);
    }
}

fn refused(seed: u64) {
    let spaces = format!("rule r:{};any;hold", " ".repeat(126));
    // One byte too long for a record's text.
    let many = format!("rule r:{};<>;hold", "<>".repeat(56));
    let texts: [(&str, u32); 12] = [
        ("", 4),
        ("rule r:;any;hold", 4),
        ("rule r:any**)(;any;hold", 4),
        ("role z under top", 4),
        ("rule r:<a b c d e>;any;hold", 4),
        ("rule any:any;any;hold", 4),
        (&spaces, 4),
        (&many, 4),
        ("rule a:<z>;any;hold", 5),
        ("rule r:<z>;any;hold", 6),
        ("rule r:any;<+z>;hold", 6),
        ("rule r:any;any;send <r>", 6),
    ];
    for (text, number) in texts {
        check(seed, text, &[0, 0], number, &[UNWRITTEN; 4]);
    }
}

fn lists(seed: u64) {
    let lists: [(&[u8], [u8; 4]); 6] = [
        (&[], [1, 9, 9, 9]),
        (&[0], [1, 1, 9, 9]),
        (&[0, 5, 0], [1, 1, 9, 9]),
        (&[1, 7, 1, 8, 0], [1, 1, 9, 9]),
        (&[0, 0, 4, 1, 2, 3], [1, 1, 1, 9]),
        (&[0, 0, 0, 0, 0], [1, 1, 1, 1]),
    ];
    for (events, due) in lists {
        check(seed, "rule r:any*;any;hold", events, 0, &due);
    }
}

/// A row of patterns that the act of no roles meets matches after as many of them, and never else. The row of 55 leaves one byte of a line.
fn rows(seed: u64) {
    for count in [31, 32, 33, 48, 55] {
        let text = format!("rule r:{};<>;hold", "<>".repeat(count));
        let due: Vec<u8> = (0..count + 2).map(|k| (k == count) as u8).collect();
        check(seed, &text, &vec![0; count + 1], 0, &due);
    }
}

pub fn fixed(seed: u64) {
    refused(seed);
    lists(seed);
    rows(seed);
}

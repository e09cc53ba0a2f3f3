//! Names, and words that look like names.

use crate::random::Random;

const RESERVED: [&str; 10] = [
    "role", "under", "rule", "any", "not", "or", "pass", "hold", "send", "anew",
];

/// Names that a careless reader might take for another name or a reserved word.
const TRICKY: [&str; 16] = [
    "a", "aa", "aaa", "aaaaaaaa", "aaaaaaab", "a-", "a--", "a0", "any1", "anyany", "o", "orr",
    "rol", "roles", "pas-s", "top-",
];

/// Words that aren't names: too long, or with a wrong first byte.
const WRONG: [&str; 8] = [
    "aaaaaaaaa",
    "undertop1",
    "1",
    "0a",
    "-",
    "-a",
    "9role",
    "rolerolerolerole",
];

const LETTERS: &[u8] = b"abcdefghijklmnopqrstuvwxyz";
const IN_WORD: &[u8] = b"abcdefghijklmnopqrstuvwxyz0123456789-";

/// A name: often of one letter, so that names meet again and lines stay short.
pub fn name(random: &mut Random) -> String {
    match random.below(10) {
        0..=4 => char::from(*random.pick(LETTERS)).to_string(),
        5 | 6 => random.pick(&TRICKY).to_string(),
        _ => long_name(random),
    }
}

/// A name of 2 to 8 bytes, often of 8.
pub fn long_name(random: &mut Random) -> String {
    let length = *random.pick(&[2, 3, 4, 5, 6, 7, 8, 8, 8, 8]);
    loop {
        let mut word = char::from(*random.pick(LETTERS)).to_string();
        while word.len() < length {
            word.push(char::from(*random.pick(IN_WORD)));
        }
        if !RESERVED.contains(&word.as_str()) {
            return word;
        }
    }
}

/// A word that stands for no name.
pub fn wrong_name(random: &mut Random) -> String {
    if random.chance(50) {
        return random.pick(&RESERVED).to_string();
    }
    random.pick(&WRONG).to_string()
}

/// Any token at all.
pub fn token(random: &mut Random) -> String {
    const SIGNS: &[u8] = b":;()[]<>+*#";
    match random.below(10) {
        0..=4 => char::from(*random.pick(SIGNS)).to_string(),
        5 | 6 => random.pick(&RESERVED).to_string(),
        7 => random
            .pick(&["0", "1", "2", "3", "4", "5", "11"])
            .to_string(),
        8 => wrong_name(random),
        _ => name(random),
    }
}

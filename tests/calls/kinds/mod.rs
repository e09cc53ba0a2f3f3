//! The kinds of session. Each fills a stage; the weights say how often each is taken.

mod bytes;
mod chains;
mod full;
mod general;
mod lengths;
mod long;
mod patterns;

use crate::random::Random;
use crate::stage::Stage;

/// A kind of session: its name, its weight, and what fills the stage.
type Kind = (&'static str, usize, fn(&mut Stage));

pub static KINDS: [Kind; 14] = [
    ("general", 40, general::general),
    ("chains", 10, chains::chains),
    ("committed after 64", 2, chains::committed_64),
    ("held after 64", 2, chains::held_64),
    ("unfit after 64", 2, chains::unfit_64),
    ("loops", 10, chains::loops),
    ("patterns", 10, patterns::patterns),
    ("row", 4, patterns::row),
    ("full", 10, full::full),
    ("wreck", 10, general::wreck),
    ("lengths", 2, lengths::lengths),
    ("bytes", 1, bytes::bytes),
    ("long", 3, long::long),
    ("longest", 1, long::longest),
];

/// The first sessions take each kind once; later ones take them by weight.
fn choose(random: &mut Random, session: usize) -> &'static Kind {
    if session < KINDS.len() {
        return &KINDS[session];
    }
    let mut left = random.below(KINDS.iter().map(|(_, weight, _)| weight).sum());
    let mut at = 0;
    while left >= KINDS[at].1 {
        left -= KINDS[at].1;
        at += 1;
    }
    &KINDS[at]
}

/// The session of that number of a run with that seed, and its kind's name.
pub fn made(seed: u64, session: usize) -> (&'static str, Stage) {
    let mut random = Random::of(seed, session as u64);
    let (name, _, fill) = choose(&mut random, session);
    let mut stage = Stage::new(random);
    fill(&mut stage);
    (name, stage)
}

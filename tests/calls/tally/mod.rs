//! What was seen, and what must have been seen.

mod batches;
mod calls;
mod demanded;
mod demanded_rounds;
mod images;
mod keeps;
mod restores;
mod rounds;
mod rounds_refused;
mod rounds_taken;
mod why;

pub use images::Watch;

use std::collections::{BTreeMap, BTreeSet};

use crate::flat::Flat;
use crate::judging::Question;
use crate::operations::HIGHEST_KIND;
use crate::plain::book::RECORD;
use crate::plain::restore::restored;
use crate::plain::tree::Name;

/// What must have been seen.
fn demanded() -> impl Iterator<Item = &'static str> {
    let rounds = demanded_rounds::DEMANDED.iter();
    demanded::DEMANDED.iter().chain(rounds).copied()
}

/// How many of the counts go no higher than `most`.
fn near(counts: &BTreeSet<usize>, most: usize) -> usize {
    counts.range(..=most).count()
}

#[derive(Default)]
pub struct Tally {
    pub calls: usize,
    pub sessions: usize,
    seen: BTreeMap<String, usize>,
    lengths: BTreeSet<usize>,
    sizes: BTreeSet<usize>,
    /// Of this session's calls: the rules of 32 patterns or more by name, and whether
    /// each is a row of 55.
    long: BTreeMap<Name, bool>,
}

impl Tally {
    fn count(&mut self, what: &str) {
        *self.seen.entry(what.to_string()).or_default() += 1;
    }

    pub fn kind(&mut self, name: &str) {
        self.sessions += 1;
        self.long.clear();
        self.count(&format!("kind {name}"));
    }

    /// What was refused as a whole.
    pub fn misfit(&mut self, misfit: &Flat) {
        let (counts, lengths) = (misfit.counts.len(), misfit.lengths.len());
        let what = match &misfit.kinds {
            None => "session that doesn't fit, 11",
            Some(kinds) if kinds.iter().any(|&kind| kind > HIGHEST_KIND) => {
                "operations with another kind, 11"
            }
            Some(kinds) if kinds.len() == lengths && counts > lengths => {
                "operations with a count too many, 11"
            }
            Some(kinds) if kinds.len() == lengths && counts < lengths => {
                "operations with a count too few, 11"
            }
            Some(_) => "operations that don't fit, 11",
        };
        self.count(what);
    }

    /// `answer` as the judge gives it: the refusal times 2^32, and 1 for yes.
    pub fn judged(&mut self, question: &Question, answer: u64) {
        if answer <= 1 && question.records.len() == 256 * RECORD {
            self.count("judge yes or no, of 256 records");
        }
        let image = restored(&question.sheet).is_some();
        if answer <= 1 && image {
            self.count("judge yes or no, the sheet an image");
        }
        match answer {
            0 => self.count("judge no"),
            1 => self.count("judge yes"),
            _ => self.count(&format!("judge {}", answer >> 32)),
        }
    }

    /// What was seen in a session with images.
    pub fn watched(&mut self, watch: &Watch) {
        watch.seen.iter().for_each(|what| self.count(what));
    }

    fn times(&self, what: &str) -> usize {
        self.seen.get(what).copied().unwrap_or(0)
    }

    pub fn print(&self) {
        println!("calls: {} calls in {} sessions", self.calls, self.sessions);
        for (what, times) in &self.seen {
            if let Some(kind) = what.strip_prefix("kind ") {
                println!("{times:9}  sessions of the kind {kind}");
            }
        }
        for what in demanded() {
            println!("{:9}  {what}", self.times(what));
        }
        println!(
            "{:9}  record lengths from 0 to 300",
            near(&self.lengths, 300)
        );
        println!("{:9}  reply sizes from 0 to 128", near(&self.sizes, 128));
    }

    /// What has occurred and can't: no record, in a call or in an image, has more than
    /// 63 patterns, so that nothing is ever refused by 7.
    pub fn forbidden(&self) -> Option<&'static str> {
        demanded::FORBIDDEN
            .into_iter()
            .find(|what| self.times(what) > 0)
    }

    /// What should have occurred and didn't.
    pub fn missing(&self) -> Vec<String> {
        let unseen = demanded().filter(|what| self.times(what) == 0);
        let mut missing: Vec<String> = unseen.map(str::to_string).collect();
        if near(&self.lengths, 300) < 301 {
            missing.push("a record length from 0 to 300".to_string());
        }
        if near(&self.sizes, 128) < 129 {
            missing.push("a reply size from 0 to 128".to_string());
        }
        missing
    }
}

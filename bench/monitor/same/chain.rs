//! Working an event: the chain of due rules, one response at a time.

use super::event::Event;
use super::matcher::Matcher;
use super::responses::{respond, Word};
use super::state::Monitor;

const MOST_RESPONSES: u8 = 64;

/// How the work ended; the number is the deciding rule's.
pub enum End {
    Committed,
    Held(usize),
    Unfit(usize),
    TooLong(usize),
}

/// The event in hand; the event that the chain was looked up for; the rules not yet consulted are those below `left`; the responses worked.
pub struct Work {
    pub event: Event,
    looked: Event,
    left: usize,
    pub worked: u8,
}

impl Monitor {
    /// Whether a rule is due: its past matches now, and the event meets its trigger.
    fn due(&self, looked: &Event, rule: usize) -> bool {
        if self.positions[rule] & self.sheet.ends[rule] == 0 {
            return false;
        }
        let row = &self.sheet.rows[rule];
        let matcher = Matcher {
            row,
            event: looked.ids(),
            above: &self.sheet.above,
        };
        matcher.meets(usize::from(row[1]))
    }

    /// One step: the last declared due rule's response is worked, or the work ends.
    fn step(&self, work: &mut Work) -> Option<End> {
        let mut rules = (0..work.left).rev();
        let Some(rule) = rules.find(|&rule| self.due(&work.looked, rule)) else {
            return Some(End::Committed);
        };
        if work.worked == MOST_RESPONSES {
            return Some(End::TooLong(rule));
        }
        work.worked += 1;
        work.left = rule;
        let (word, made) = respond(&self.sheet.rows[rule], &work.event);
        let Some(event) = made else {
            return Some(End::Unfit(rule));
        };
        work.event = event;
        match word {
            Word::Pass | Word::Send => None,
            Word::Hold => Some(End::Held(rule)),
            Word::Anew => {
                work.looked = event;
                work.left = self.sheet.rule_count;
                None
            }
        }
    }

    /// The whole work of an event. Nothing is committed here.
    pub fn work(&self, event: Event) -> (Work, End) {
        let mut work = Work {
            event,
            looked: event,
            left: self.sheet.rule_count,
            worked: 0,
        };
        loop {
            if let Some(end) = self.step(&mut work) {
                return (work, end);
            }
        }
    }
}

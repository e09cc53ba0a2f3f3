//! A straightforward fast monitor in plain Rust, to measure the proved one by: the same records in, the same replies out.
//!
//! Written as one would by hand: the state is changed in place, a rule is kept as a position automaton, names are packed in numbers, and an act is
//! answered with no allocation.

mod automaton;
mod image;
mod patterns;
mod reader;
mod reply;
mod roles;
mod rules;
mod text;
mod work;

use reader::{Line, Reader};
use roles::{Roles, MOST_ROLES};
use rules::Rule;
use work::End;

use crate::host;
use crate::session::{RECORD, REPLY};

const MOST_RULES: usize = 32;
const MOST_PATTERNS: usize = 63;

type Text = [u8; RECORD - 2];

/// `held[i]` is the positions of rule i, and `texts[i]` the line that declared it.
pub struct Monitor {
    roles: Roles,
    rules: Vec<Rule>,
    texts: [Text; MOST_RULES],
    held: [u64; MOST_RULES],
}

impl Monitor {
    pub fn fresh() -> Monitor {
        Monitor {
            roles: Roles::fresh(),
            rules: Vec::with_capacity(MOST_RULES),
            texts: [[0; RECORD - 2]; MOST_RULES],
            held: [0; MOST_RULES],
        }
    }

    /// One call: the refusal's number, or 0.
    pub fn call(&mut self, record: &[u8], buffer: &mut [u8]) -> u8 {
        if buffer.len() != REPLY {
            return 1;
        }
        match self.answer(record, buffer) {
            Ok(()) => 0,
            Err(number) => {
                reply::plain(buffer, b'R', number, reply::DASH);
                number
            }
        }
    }

    fn answer(&mut self, record: &[u8], buffer: &mut [u8]) -> Result<(), u8> {
        if record.len() != RECORD {
            return Err(2);
        }
        let text = &record[1..RECORD - 1];
        let bad = |bad, &byte: &u8| bad | !(32..=126).contains(&byte);
        if record[RECORD - 1] != b'\n' || text.iter().fold(false, bad) {
            return Err(3);
        }
        match record[0] {
            b'E' => self.offer(text, buffer),
            b'L' => self.declare(text, buffer),
            _ => Err(3),
        }
    }

    fn offer(&mut self, text: &[u8], buffer: &mut [u8]) -> Result<(), u8> {
        let act = self.roles.act(text)?;
        let (worked, end) = self.work(act);
        let (kind, rule) = match end {
            End::Committed(act) => {
                reply::committed(buffer, worked, &act, &self.roles);
                for (held, rule) in self.held.iter_mut().zip(&self.rules) {
                    *held = rule.past.step(*held, &act, &self.roles);
                }
                return Ok(());
            }
            End::Held(rule) => (b'H', rule),
            End::Unfit(rule) => (b'U', rule),
            End::TooLong(rule) => (b'T', rule),
        };
        reply::plain(buffer, kind, worked, self.rules[rule].name);
        Ok(())
    }

    fn declare(&mut self, text: &[u8], buffer: &mut [u8]) -> Result<(), u8> {
        let mut reader = Reader::new(text, &self.roles);
        let line = reader.line().ok_or(4)?;
        let unknown = reader.unknown;
        let name = match line {
            Line::Role { name, parent } => self.declare_role(name, parent)?,
            Line::Rule(rule) => self.declare_rule(rule, unknown, text)?,
        };
        reply::plain(buffer, b'D', 0, name);
        Ok(())
    }

    fn need_free(&self, name: u64) -> Result<(), u8> {
        let a_rule = self.rules.iter().any(|rule| rule.name == name);
        if a_rule || self.roles.find(name).is_some() {
            return Err(5);
        }
        Ok(())
    }

    fn declare_role(&mut self, name: u64, parent: u64) -> Result<u64, u8> {
        self.need_free(name)?;
        let parent = self.roles.find(parent).ok_or(6)?;
        if self.roles.count == MOST_ROLES {
            return Err(8);
        }
        self.roles.join(name, parent);
        Ok(name)
    }

    fn declare_rule(&mut self, rule: Rule, unknown: bool, text: &[u8]) -> Result<u64, u8> {
        self.need_free(rule.name)?;
        if unknown {
            return Err(6);
        }
        if rule.past.patterns.len() > MOST_PATTERNS {
            return Err(7);
        }
        if self.rules.len() == MOST_RULES {
            return Err(8);
        }
        let name = rule.name;
        self.held[self.rules.len()] = 1;
        self.texts[self.rules.len()].copy_from_slice(text);
        self.rules.push(rule);
        Ok(name)
    }

    /// The bytes of its state, those on the heap included.
    pub fn bytes(&self) -> usize {
        let inside: usize = self.rules.iter().map(Rule::heap).sum();
        std::mem::size_of::<Monitor>() + MOST_RULES * std::mem::size_of::<Rule>() + inside
    }
}

impl host::Monitor for Monitor {
    fn fresh() -> Monitor {
        Monitor::fresh()
    }

    fn call(&mut self, record: &[u8], reply: &mut [u8]) -> u8 {
        self.call(record, reply)
    }

    fn keep(&self, image: &mut [u8]) -> Result<u32, u8> {
        self.keep(image)
    }

    fn restore(&mut self, image: &[u8]) -> Result<(), u8> {
        self.restore(image)
    }
}

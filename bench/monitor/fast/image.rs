//! Images: a rule's line is kept as its text, which is written out again.

use super::reply::length;
use super::text::{next, Token};
use super::{Monitor, Text};
use crate::image::{mark_record, read, role_record, write, Imaged, Record, Writer};
use crate::session::RECORD;

impl Monitor {
    pub fn keep(&self, image: &mut [u8]) -> Result<u32, u8> {
        let (roles, rules) = (1..self.roles.count, 0..self.rules.len());
        let count = roles.len() + 2 * rules.len();
        let marks = rules.clone().map(|i| {
            let name = self.rules[i].name.to_be_bytes();
            mark_record(name, self.held[i])
        });
        let rules = rules.map(|i| rule_record(&self.texts[i]));
        let records = roles.map(|id| self.role(id)).chain(rules).chain(marks);
        write(image, count, records)
    }

    pub fn restore(&mut self, image: &[u8]) -> Result<(), u8> {
        *self = read(image).ok_or(12)?;
        Ok(())
    }

    fn role(&self, id: usize) -> Record {
        let parent = usize::from(self.roles.parents[id]);
        let [name, parent] = [id, parent].map(|id| self.roles.names[id]);
        let bytes = [name.to_be_bytes(), parent.to_be_bytes()];
        role_record(&bytes[0][..length(name)], &bytes[1][..length(parent)])
    }
}

/// A rule's line with one space between two neighbouring words and no other.
fn rule_record(text: &Text) -> Record {
    let mut out = Writer::new(b"L");
    let mut left = &text[..];
    let mut after = false;
    loop {
        match next(&mut left) {
            Token::Word(word) => {
                if after {
                    out.add(b" ");
                }
                out.add(word);
                after = true;
            }
            Token::Sign(sign) => {
                out.add(&[sign]);
                after = false;
            }
            Token::End | Token::Other => return out.record,
        }
    }
}

impl Imaged for Monitor {
    fn fresh() -> Monitor {
        Monitor::fresh()
    }

    fn take(&mut self, line: &Record) -> Option<()> {
        let mut reply = [0; 50];
        self.answer(&line[..RECORD], &mut reply).ok()
    }

    fn roles(&self) -> usize {
        self.roles.count
    }

    fn rules(&self) -> usize {
        self.rules.len()
    }

    fn rule(&self, i: usize) -> ([u8; 8], usize) {
        let rule = &self.rules[i];
        (rule.name.to_be_bytes(), rule.past.patterns.len())
    }

    fn mark(&mut self, i: usize, marks: u64) {
        self.held[i] = marks;
    }
}

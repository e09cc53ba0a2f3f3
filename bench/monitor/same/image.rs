//! Images: a rule's code is written out again as text.

use super::count::patterns;
use super::frame::{framed, Framed};
use super::names::length;
use super::state::{Monitor, Row, Sheet, CODE};
use crate::image::{mark_record, read, role_record, write, Imaged, Record, Writer};

impl Monitor {
    pub fn keep(&self, image: &mut [u8]) -> Result<u32, u8> {
        let sheet = &self.sheet;
        let (roles, rules) = (1..sheet.role_count, 0..sheet.rule_count);
        let count = roles.len() + 2 * rules.len();
        let marks = rules.clone().map(|i| self.mark(i));
        let rules = rules.map(|i| sheet.rule(i));
        let records = roles.map(|id| sheet.role(id)).chain(rules).chain(marks);
        write(image, count, records)
    }

    pub fn restore(&mut self, image: &[u8]) -> Result<(), u8> {
        *self = read(image).ok_or(12)?;
        Ok(())
    }

    fn mark(&self, i: usize) -> Record {
        mark_record(self.sheet.rule_names[i].to_be_bytes(), self.positions[i])
    }
}

impl Imaged for Monitor {
    fn fresh() -> Monitor {
        Monitor::fresh()
    }

    fn take(&mut self, line: &Record) -> Option<()> {
        let Ok(Framed::Line(text)) = framed(line) else {
            return None;
        };
        self.declare(text).ok()?;
        Some(())
    }

    fn roles(&self) -> usize {
        self.sheet.role_count
    }

    fn rules(&self) -> usize {
        self.sheet.rule_count
    }

    fn rule(&self, i: usize) -> ([u8; 8], usize) {
        let name = self.sheet.rule_names[i].to_be_bytes();
        (name, patterns(code_of(&self.sheet.rows[i])))
    }

    fn mark(&mut self, i: usize, marks: u64) {
        self.positions[i] = marks;
    }
}

impl Sheet {
    fn role(&self, id: usize) -> Record {
        let parent = usize::from(self.parents[id]);
        let [name, parent] = [id, parent].map(|id| self.names[id].to_be_bytes());
        role_record(&name[..length(&name)], &parent[..length(&parent)])
    }

    fn rule(&self, i: usize) -> Record {
        let mut out = Writer::new(b"Lrule ");
        add_name(&mut out, self.rule_names[i]);
        out.add(b":");
        let mut after = false;
        for &byte in code_of(&self.rows[i]) {
            let word = matches!(byte, b'0'..=b'9' | b'a'..=b'z' | 128..);
            if after && word {
                out.add(b" ");
            }
            after = word;
            match byte {
                128.. => add_name(&mut out, self.names[usize::from(byte - 128)]),
                _ => out.add(token(&byte)),
            }
        }
        out.record
    }
}

fn add_name(out: &mut Writer, name: u64) {
    let columns = name.to_be_bytes();
    out.add(&columns[..length(&columns)]);
}

fn code_of(row: &Row) -> &[u8] {
    &row[CODE..CODE + usize::from(row[0])]
}

/// The token that a byte of code below 128 stands for.
fn token(byte: &u8) -> &[u8] {
    match byte {
        b'a' => b"any",
        b'n' => b"not",
        b'o' => b"or",
        b'p' => b"pass",
        b'h' => b"hold",
        b's' => b"send",
        b'w' => b"anew",
        mark => std::slice::from_ref(mark),
    }
}

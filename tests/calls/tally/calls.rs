//! What is seen in a single call.

use super::Tally;
use crate::packed::MOST;
use crate::plain::book::RECORD;
use crate::plain::grammar;
use crate::plain::survey::patterns;
use crate::plain::tree::{Line, Past, RuleLine};
use crate::session::{Answer, Call};

/// Patterns side by side, and nothing else.
fn is_row(past: &Past) -> bool {
    match past {
        Past::Either(sides) if sides.len() == 1 => is_row(&sides[0]),
        Past::Side(parts) => parts.iter().all(|part| matches!(part, Past::Pattern(_))),
        _ => false,
    }
}

impl Tally {
    pub fn call(&mut self, call: &Call, answer: &Answer) {
        self.calls += 1;
        self.lengths.insert(call.record.len());
        self.sizes.insert(call.lent.len());
        if answer.number != 0 {
            self.count(&format!("refusal {}", answer.number));
        }
        // In row 1 there is no reply.
        if answer.number == 1 {
            return;
        }
        self.count(&format!("reply {}", char::from(answer.reply[0])));
        if call.record.len() == RECORD && call.record[0] == b'L' {
            self.line(call, answer.number);
        }
        if answer.number == 0 && call.record[0] == b'E' {
            self.act(call, &answer.reply);
        }
    }

    fn line(&mut self, call: &Call, number: u8) {
        let line = grammar::line(&call.record[1..RECORD - 1]);
        let count = match &line {
            Some(Line::Rule(rule)) => patterns(&rule.past),
            _ => 0,
        };
        if number == 0 && call.record[RECORD - 2] != b' ' {
            self.count("line that fills its 126 bytes taken");
        }
        match (line, number) {
            (Some(Line::Role { .. }), 8) => self.count("64 roles held, one more refused by 8"),
            (Some(Line::Rule(_)), 8) => self.count("32 rules held, one more refused by 8"),
            (Some(Line::Rule(rule)), 0) if count >= 31 => self.long_rule(rule, count),
            _ => {}
        }
    }

    /// A rule of many patterns is taken.
    fn long_rule(&mut self, rule: RuleLine, count: usize) {
        match count {
            31 => self.count("rule of 31 patterns taken"),
            32 => self.count("rule of 32 patterns taken"),
            35 => self.count("rule of 35 patterns taken"),
            MOST => self.count("rule of 55 patterns taken"),
            _ => {}
        }
        if count >= 32 {
            self.count("rule of 32 patterns or more taken");
            let row = count == MOST && is_row(&rule.past);
            self.long.insert(rule.name, row);
        }
    }

    /// An act is held by the rule of that name.
    fn held(&mut self, name: &[u8]) {
        let row = self.long.get(name).copied();
        if row.is_some() {
            self.count("rule of 32 patterns or more holds");
        }
        if row == Some(true) {
            self.count("rule of 55 patterns in a row holds");
        }
    }

    fn act(&mut self, call: &Call, reply: &[u8]) {
        let worked = match &reply[2..4] {
            b"00" => "00",
            b"64" => "64",
            _ => "01 to 63",
        };
        self.count(&format!("{} {worked}", char::from(reply[0])));
        if reply[0] == b'H' {
            self.held(reply[5..13].trim_ascii_end());
        }
        if reply[0] == b'C' {
            self.committed(call, reply);
        }
    }

    fn committed(&mut self, call: &Call, reply: &[u8]) {
        let offered = grammar::act(&call.record[1..RECORD - 1]);
        let committed = grammar::act(&reply[14..49]);
        if offered != committed {
            self.count("act changed and committed");
        }
        if reply[48] != b' ' {
            self.count("act of four names of 8 bytes committed");
        }
        match committed.map(|act| act.len()) {
            Some(0) => self.count("act of no roles committed"),
            Some(4) => self.count("act of four roles committed"),
            _ => {}
        }
    }
}

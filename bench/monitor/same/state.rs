//! The state, split by who changes it: lines change the sheet, events the positions.

use super::event::Event;
use super::names::pack;
use super::rules::moved;

pub const MOST_ROLES: usize = 64;
pub const MOST_RULES: usize = 32;

/// A rule's row: its code's length, where its trigger and its response stand in the row, and the code.
pub type Row = [u8; 128];

/// Where a row's code begins.
pub const CODE: usize = 3;

/// Of each role the roles that it is or is below, as a set.
pub type Above = [u64; MOST_ROLES];

pub struct Sheet {
    pub role_count: usize,
    pub rule_count: usize,
    pub names: [u64; MOST_ROLES],
    pub parents: [u8; MOST_ROLES],
    pub above: Above,
    pub rule_names: [u64; MOST_RULES],
    pub ends: [u64; MOST_RULES],
    pub rows: [Row; MOST_RULES],
}

pub struct Monitor {
    pub sheet: Sheet,
    pub positions: [u64; MOST_RULES],
}

impl Sheet {
    pub fn role_names(&self) -> &[u64] {
        &self.names[..self.role_count]
    }
}

impl Monitor {
    /// Top, which is its own parent and has itself alone above it, and no rule.
    pub fn fresh() -> Monitor {
        let mut sheet = Sheet {
            role_count: 1,
            rule_count: 0,
            names: [0; MOST_ROLES],
            parents: [0; MOST_ROLES],
            above: [0; MOST_ROLES],
            rule_names: [0; MOST_RULES],
            ends: [0; MOST_RULES],
            rows: [[0; 128]; MOST_RULES],
        };
        sheet.names[0] = pack(b"top");
        sheet.above[0] = 1;
        Monitor {
            sheet,
            positions: [0; MOST_RULES],
        }
    }

    /// Every rule's positions move on.
    pub fn commit(&mut self, event: &Event) {
        let rules = self.positions.iter_mut().zip(&self.sheet.rows);
        for (positions, row) in rules.take(self.sheet.rule_count) {
            *positions = moved(row, *positions, event, &self.sheet.above);
        }
    }
}

//! Roles and rules are declared, or refused in document 01's order.

use super::grammar::{line_kind, LineKind};
use super::lines::{role_line, rule_line, RoleLine, RuleLine};
use super::names::find;
use super::rules::compiled;
use super::state::{Monitor, Sheet, MOST_ROLES, MOST_RULES};

impl Sheet {
    fn is_taken(&self, name: u64) -> bool {
        let rule_names = &self.rule_names[..self.rule_count];
        find(self.role_names(), name).is_some() || find(rule_names, name).is_some()
    }
}

impl Monitor {
    /// The name that a line declares, or refusal 4 to 8.
    pub fn declare(&mut self, text: &[u8]) -> Result<u64, u8> {
        let names = self.sheet.role_names();
        match line_kind(text).ok_or(4)? {
            LineKind::Role => self.declare_role(role_line(text, names)),
            LineKind::Rule => self.declare_rule(rule_line(text, names)),
        }
    }

    fn declare_role(&mut self, line: RoleLine) -> Result<u64, u8> {
        let sheet = &mut self.sheet;
        if sheet.is_taken(line.name) {
            return Err(5);
        }
        let parent = line.parent.ok_or(6)?;
        let at = sheet.role_count;
        if at == MOST_ROLES {
            return Err(8);
        }
        sheet.names[at] = line.name;
        sheet.parents[at] = parent as u8;
        sheet.above[at] = sheet.above[parent] | 1 << at;
        sheet.role_count += 1;
        Ok(line.name)
    }

    fn declare_rule(&mut self, line: RuleLine) -> Result<u64, u8> {
        let sheet = &mut self.sheet;
        if sheet.is_taken(line.name) {
            return Err(5);
        }
        if line.body.unknown {
            return Err(6);
        }
        if !line.fits {
            return Err(7);
        }
        let at = sheet.rule_count;
        if at == MOST_RULES {
            return Err(8);
        }
        sheet.rule_names[at] = line.name;
        (sheet.rows[at], sheet.ends[at]) = compiled(&line.body);
        self.positions[at] = 1;
        sheet.rule_count += 1;
        Ok(line.name)
    }
}

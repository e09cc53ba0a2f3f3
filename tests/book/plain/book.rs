//! The plain book: the roles with their parents, the rules in declared order,
//! each with its start, and the full list of committed acts as role names.

use super::chain::{work, End, Stand};
use super::grammar;
use super::marks::Marks;
use super::reply;
use super::roles::Roles;
use super::rule::{Rule, Seen};
use super::survey::{patterns, roles_used};
use super::text::{class, tokens, Token};
use super::tree::{Act, Line, Name, RuleLine};

/// The length of a record.
pub const RECORD: usize = 128;

const MOST_ROLES: usize = 64;
const MOST_RULES: usize = 32;

/// Document 02, C-15: "Marks grow from 32 to 64 bits, so that 63 patterns fit beside
/// mark 0." Row 7 is for a past of more. That no line of 126 bytes has so many isn't
/// said here: the row is looked at all the same.
const MOST_PATTERNS: usize = 63;

#[derive(Clone)]
pub struct Book {
    roles: Roles,
    rules: Vec<Rule>,
    list: Vec<Act>,
}

/// What a record that isn't refused asks for.
enum Asked {
    Line(Line),
    Act(Act),
}

/// Row 3: the text of a record of 128 bytes, where byte 0 is one of the kinds.
pub fn framed<'a>(record: &'a [u8], kinds: &[u8]) -> Result<&'a [u8], u8> {
    let text = &record[1..RECORD - 1];
    let ends_well = record[RECORD - 1] == b'\n';
    if !kinds.contains(&record[0]) || !ends_well || text.iter().any(|&byte| class(byte) == 0) {
        return Err(3);
    }
    Ok(text)
}

impl Book {
    pub fn fresh() -> Book {
        Book {
            roles: Roles::fresh(),
            rules: Vec::new(),
            list: Vec::new(),
        }
    }

    pub fn roles(&self) -> &Roles {
        &self.roles
    }

    /// In declared order.
    pub fn rules(&self) -> &[Rule] {
        &self.rules
    }

    /// The committed acts; where an image from elsewhere gave the book, those
    /// since then.
    pub fn list(&self) -> &[Act] {
        &self.list
    }

    /// From now on the rules go by these marks, a set for each in order.
    pub fn give(&mut self, marks: Vec<Marks>) {
        for (rule, marks) in self.rules.iter_mut().zip(marks) {
            rule.give(marks);
        }
    }

    /// One call. The record may be any bytes and the reply buffer of any
    /// length. Gives the refusal number, or 0 when the record is taken.
    pub fn call(&mut self, record: &[u8], buffer: &mut [u8]) -> u8 {
        if buffer.len() != reply::LENGTH {
            return 1;
        }
        // Every refusal is found before anything changes.
        match self.read(record) {
            Err(number) => {
                reply::refused(buffer, number);
                return number;
            }
            Ok(Asked::Line(Line::Role { name, parent })) => {
                reply::declared(buffer, &name);
                self.roles.join(name, parent);
            }
            Ok(Asked::Line(Line::Rule(line))) => {
                reply::declared(buffer, &line.name);
                self.join(line, &record[1..RECORD - 1]);
            }
            Ok(Asked::Act(act)) => self.offer(act, buffer),
        }
        0
    }

    /// A rule joins last, with the text of its line. Its start is the length of
    /// the list.
    fn join(&mut self, line: RuleLine, text: &[u8]) {
        let found = tokens(text).unwrap_or_default();
        self.rules.push(Rule {
            line,
            tokens: found.iter().map(Token::bytes).collect(),
            seen: Seen::From(self.list.len()),
        });
    }

    /// An act joins the list only when the work ends committed, and then it
    /// is the act in hand at the end that joins.
    fn offer(&mut self, act: Act, buffer: &mut [u8]) {
        let stand = Stand {
            roles: &self.roles,
            rules: &self.rules,
            list: &self.list,
        };
        let (count, end) = work(&stand, act);
        reply::worked(buffer, count, &end);
        if let End::Committed(act) = end {
            for rule in &mut self.rules {
                rule.committed(&act, &self.roles);
            }
            self.list.push(act);
        }
    }

    /// Rows 2 to 8 in their order.
    fn read(&self, record: &[u8]) -> Result<Asked, u8> {
        if record.len() != RECORD {
            return Err(2);
        }
        let text = framed(record, b"LE")?;
        if record[0] == b'E' {
            return self.read_act(text).map(Asked::Act);
        }
        let line = grammar::line(text).ok_or(4)?;
        match &line {
            Line::Role { name, parent } => self.check_role(name, parent)?,
            Line::Rule(rule) => self.check_rule(rule)?,
        }
        Ok(Asked::Line(line))
    }

    /// Rows 4 and 6 for the text of an act.
    pub fn read_act(&self, text: &[u8]) -> Result<Act, u8> {
        let act = grammar::act(text).ok_or(4)?;
        self.need_roles(act.iter())?;
        Ok(act)
    }

    fn check_role(&self, name: &Name, parent: &Name) -> Result<(), u8> {
        self.need_free(name)?;
        self.need_roles(std::iter::once(parent))?;
        if self.roles.count() >= MOST_ROLES {
            return Err(8);
        }
        Ok(())
    }

    fn check_rule(&self, line: &RuleLine) -> Result<(), u8> {
        self.need_free(&line.name)?;
        self.need_roles(roles_used(line).into_iter())?;
        if patterns(&line.past) > MOST_PATTERNS {
            return Err(7);
        }
        if self.rules.len() >= MOST_RULES {
            return Err(8);
        }
        Ok(())
    }

    /// Row 5. Roles and rules share one set of names.
    fn need_free(&self, name: &Name) -> Result<(), u8> {
        let a_rule = self.rules.iter().any(|rule| rule.line.name == *name);
        if a_rule || self.roles.holds(name) {
            return Err(5);
        }
        Ok(())
    }

    /// Row 6.
    fn need_roles<'a>(&self, mut names: impl Iterator<Item = &'a Name>) -> Result<(), u8> {
        if names.all(|name| self.roles.holds(name)) {
            Ok(())
        } else {
            Err(6)
        }
    }
}

//! Lines read in one pass, a rule straight to its automaton. A name that is not held is noted and read on, since a text that is not in the language
//! is told first.

use super::automaton::{Automaton, Part, EMPTY};
use super::patterns::{Item, Pattern, Simple};
use super::roles::Roles;
use super::rules::{Response, Rule, Slot, Template};
use super::text::{name, next, Token};

pub enum Line {
    Role { name: u64, parent: u64 },
    Rule(Rule),
}

/// `ahead` is the token that comes next; `text` is what stands after it.
pub struct Reader<'a> {
    text: &'a [u8],
    ahead: Token<'a>,
    roles: &'a Roles,
    pub unknown: bool,
}

impl<'a> Reader<'a> {
    pub fn new(mut text: &'a [u8], roles: &'a Roles) -> Reader<'a> {
        let ahead = next(&mut text);
        Reader {
            text,
            ahead,
            roles,
            unknown: false,
        }
    }

    fn step(&mut self) -> Token<'a> {
        let token = self.ahead;
        self.ahead = next(&mut self.text);
        token
    }

    /// Takes a token if it is the next one, and says whether it was.
    fn take(&mut self, token: Token) -> bool {
        let there = self.ahead == token;
        if there {
            self.step();
        }
        there
    }

    fn sign(&mut self, sign: u8) -> bool {
        self.take(Token::Sign(sign))
    }

    fn need(&mut self, token: Token) -> Option<()> {
        self.take(token).then_some(())
    }

    fn name(&mut self) -> Option<u64> {
        match self.step() {
            Token::Word(word) => name(word),
            _ => None,
        }
    }

    fn role(&mut self) -> Option<u8> {
        let id = self.roles.find(self.name()?);
        self.unknown |= id.is_none();
        Some(id.unwrap_or(0))
    }

    pub fn line(&mut self) -> Option<Line> {
        let line = if self.take(Token::Word(b"role")) {
            let name = self.name()?;
            self.need(Token::Word(b"under"))?;
            let parent = self.name()?;
            Line::Role { name, parent }
        } else {
            Line::Rule(self.rule()?)
        };
        self.need(Token::End)?;
        Some(line)
    }

    fn rule(&mut self) -> Option<Rule> {
        self.need(Token::Word(b"rule"))?;
        let name = self.name()?;
        self.need(Token::Sign(b':'))?;
        let mut past = Automaton::new();
        let whole = self.past(&mut past)?;
        past.finish(whole);
        self.need(Token::Sign(b';'))?;
        let trigger = self.pattern()?;
        self.need(Token::Sign(b';'))?;
        let response = self.response()?;
        Some(Rule {
            name,
            past,
            trigger,
            response,
        })
    }

    fn past(&mut self, to: &mut Automaton) -> Option<Part> {
        let mut all = self.sequence(to)?;
        while self.sign(b'+') {
            let side = self.sequence(to)?;
            all = to.either(all, side);
        }
        Some(all)
    }

    fn sequence(&mut self, to: &mut Automaton) -> Option<Part> {
        let mut all = self.factor(to)?;
        while let Token::Sign(b'(' | b'[' | b'<') | Token::Word(b"any") = self.ahead {
            let factor = self.factor(to)?;
            all = to.in_order(all, factor);
        }
        Some(all)
    }

    fn factor(&mut self, to: &mut Automaton) -> Option<Part> {
        let mut factor = self.base(to)?;
        while self.sign(b'*') {
            factor = to.star(factor);
        }
        Some(factor)
    }

    fn base(&mut self, to: &mut Automaton) -> Option<Part> {
        if !self.sign(b'(') {
            let pattern = self.pattern()?;
            return Some(to.pattern(pattern));
        }
        if self.sign(b')') {
            return Some(EMPTY);
        }
        let past = self.past(to)?;
        self.need(Token::Sign(b')'))?;
        Some(past)
    }

    fn pattern(&mut self) -> Option<Pattern> {
        if !self.sign(b'[') {
            return Some(Pattern::Simple(self.simple()?));
        }
        let condition = self.condition()?;
        self.need(Token::Sign(b']'))?;
        Some(condition)
    }

    fn condition(&mut self) -> Option<Pattern> {
        let first = self.term()?;
        if self.ahead != Token::Word(b"or") {
            return Some(first);
        }
        let mut terms = vec![first];
        while self.take(Token::Word(b"or")) {
            terms.push(self.term()?);
        }
        Some(Pattern::Or(terms))
    }

    fn term(&mut self) -> Option<Pattern> {
        if self.take(Token::Word(b"not")) {
            return Some(Pattern::Not(Box::new(self.term()?)));
        }
        if self.sign(b'(') {
            let condition = self.condition()?;
            self.need(Token::Sign(b')'))?;
            return Some(condition);
        }
        Some(Pattern::Simple(self.simple()?))
    }

    fn simple(&mut self) -> Option<Simple> {
        let mut simple = Simple::default();
        if self.take(Token::Word(b"any")) {
            simple.rest = true;
            return Some(simple);
        }
        self.need(Token::Sign(b'<'))?;
        while !matches!(self.ahead, Token::Sign(b'*' | b'>')) {
            let under = self.sign(b'+');
            let role = self.role()?;
            *simple.items.get_mut(simple.len)? = Item { role, under };
            simple.len += 1;
        }
        simple.rest = self.sign(b'*');
        self.need(Token::Sign(b'>'))?;
        Some(simple)
    }

    fn response(&mut self) -> Option<Response> {
        match self.step() {
            Token::Word(b"pass") => Some(Response::Pass),
            Token::Word(b"hold") => Some(Response::Hold),
            Token::Word(b"send") => Some(Response::Send(self.template()?)),
            Token::Word(b"anew") => Some(Response::Anew(self.template()?)),
            _ => None,
        }
    }

    fn template(&mut self) -> Option<Template> {
        let mut template = Template {
            len: 0,
            slots: [Slot::Role(0); 4],
        };
        self.need(Token::Sign(b'<'))?;
        while !self.sign(b'>') {
            let slot = self.slot()?;
            *template.slots.get_mut(template.len)? = slot;
            template.len += 1;
        }
        Some(template)
    }

    fn slot(&mut self) -> Option<Slot> {
        if !self.sign(b'#') {
            return Some(Slot::Role(self.role()?));
        }
        match self.step() {
            Token::Word(&[digit @ b'1'..=b'4']) => Some(Slot::Place((digit - b'1') as usize)),
            _ => None,
        }
    }
}

//! The rule language: from a text to its tree. Each reader takes its part off
//! the front of the tokens, and says nothing when the text isn't in the
//! language. The next token always tells which form stands there, so no
//! reader ever goes back.

use super::text::{is_name, tokens, Token};
use super::tree::{
    Act, Condition, Item, Line, Name, Past, Response, RuleLine, Simple, Slot, Template,
};

/// Items, slots and the names of an act: zero to four.
const MOST: usize = 4;

struct Reader<'a> {
    rest: &'a [Token<'a>],
}

/// The names of an act text.
pub fn act(text: &[u8]) -> Option<Act> {
    let found = tokens(text)?;
    let mut reader = Reader { rest: &found };
    let mut names = Vec::new();
    while !reader.rest.is_empty() {
        names.push(reader.name()?);
    }
    if names.len() <= MOST {
        Some(names)
    } else {
        None
    }
}

/// A role line or a rule line.
pub fn line(text: &[u8]) -> Option<Line> {
    let found = tokens(text)?;
    let mut reader = Reader { rest: &found };
    let line = if reader.take_word(b"role") {
        reader.role_line()?
    } else {
        reader.rule_line()?
    };
    // Anything left over makes the whole text no line.
    if reader.rest.is_empty() {
        Some(line)
    } else {
        None
    }
}

impl<'a> Reader<'a> {
    fn next_is(&self, token: Token) -> bool {
        self.rest.first() == Some(&token)
    }

    fn step(&mut self) -> Option<Token<'a>> {
        let (&first, rest) = self.rest.split_first()?;
        self.rest = rest;
        Some(first)
    }

    /// Takes the token if it is the next one, and says whether it was.
    fn take(&mut self, token: Token) -> bool {
        let there = self.next_is(token);
        if there {
            self.rest = &self.rest[1..];
        }
        there
    }

    fn take_sign(&mut self, sign: u8) -> bool {
        self.take(Token::Sign(sign))
    }

    fn take_word(&mut self, word: &[u8]) -> bool {
        self.take(Token::Word(word))
    }

    fn need_sign(&mut self, sign: u8) -> Option<()> {
        if self.take_sign(sign) {
            Some(())
        } else {
            None
        }
    }

    fn need_word(&mut self, word: &[u8]) -> Option<()> {
        if self.take_word(word) {
            Some(())
        } else {
            None
        }
    }

    fn name(&mut self) -> Option<Name> {
        match self.step()? {
            Token::Word(word) if is_name(word) => Some(word.to_vec()),
            _ => None,
        }
    }

    fn role_line(&mut self) -> Option<Line> {
        let name = self.name()?;
        self.need_word(b"under")?;
        let parent = self.name()?;
        Some(Line::Role { name, parent })
    }

    fn rule_line(&mut self) -> Option<Line> {
        self.need_word(b"rule")?;
        let name = self.name()?;
        self.need_sign(b':')?;
        let past = self.past()?;
        self.need_sign(b';')?;
        let trigger = self.pattern()?;
        self.need_sign(b';')?;
        let response = self.response()?;
        Some(Line::Rule(RuleLine {
            name,
            past,
            trigger,
            response,
        }))
    }

    fn past(&mut self) -> Option<Past> {
        let mut sides = vec![self.sequence()?];
        while self.take_sign(b'+') {
            sides.push(self.sequence()?);
        }
        Some(Past::Either(sides))
    }

    fn sequence(&mut self) -> Option<Past> {
        let mut factors = vec![self.factor()?];
        while self.base_follows() {
            factors.push(self.factor()?);
        }
        Some(Past::Side(factors))
    }

    fn base_follows(&self) -> bool {
        self.next_is(Token::Sign(b'('))
            || self.next_is(Token::Sign(b'['))
            || self.next_is(Token::Sign(b'<'))
            || self.next_is(Token::Word(b"any"))
    }

    fn factor(&mut self) -> Option<Past> {
        let mut factor = self.base()?;
        while self.take_sign(b'*') {
            factor = Past::Star(Box::new(factor));
        }
        Some(factor)
    }

    fn base(&mut self) -> Option<Past> {
        if !self.take_sign(b'(') {
            return Some(Past::Pattern(self.pattern()?));
        }
        if self.take_sign(b')') {
            return Some(Past::Empty);
        }
        let past = self.past()?;
        self.need_sign(b')')?;
        Some(past)
    }

    fn pattern(&mut self) -> Option<Condition> {
        if !self.take_sign(b'[') {
            return Some(Condition::Simple(self.simple()?));
        }
        let condition = self.condition()?;
        self.need_sign(b']')?;
        Some(condition)
    }

    fn condition(&mut self) -> Option<Condition> {
        let mut terms = vec![self.term()?];
        while self.take_word(b"or") {
            terms.push(self.term()?);
        }
        Some(Condition::Or(terms))
    }

    /// The word not has one term after it, so it binds closer than or.
    fn term(&mut self) -> Option<Condition> {
        if self.take_word(b"not") {
            return Some(Condition::Not(Box::new(self.term()?)));
        }
        if self.take_sign(b'(') {
            let condition = self.condition()?;
            self.need_sign(b')')?;
            return Some(condition);
        }
        Some(Condition::Simple(self.simple()?))
    }

    fn simple(&mut self) -> Option<Simple> {
        if self.take_word(b"any") {
            let items = Vec::new();
            return Some(Simple { items, rest: true });
        }
        self.need_sign(b'<')?;
        let mut items = Vec::new();
        while !self.next_is(Token::Sign(b'*')) && !self.next_is(Token::Sign(b'>')) {
            let below = self.take_sign(b'+');
            let role = self.name()?;
            items.push(Item { role, below });
        }
        let rest = self.take_sign(b'*');
        self.need_sign(b'>')?;
        if items.len() <= MOST {
            Some(Simple { items, rest })
        } else {
            None
        }
    }

    fn response(&mut self) -> Option<Response> {
        match self.step()? {
            Token::Word(b"pass") => Some(Response::Pass),
            Token::Word(b"hold") => Some(Response::Hold),
            Token::Word(b"send") => Some(Response::Send(self.template()?)),
            Token::Word(b"anew") => Some(Response::Anew(self.template()?)),
            _ => None,
        }
    }

    fn template(&mut self) -> Option<Template> {
        self.need_sign(b'<')?;
        let mut slots = Vec::new();
        while !self.take_sign(b'>') {
            slots.push(self.slot()?);
        }
        if slots.len() <= MOST {
            Some(slots)
        } else {
            None
        }
    }

    fn slot(&mut self) -> Option<Slot> {
        if !self.take_sign(b'#') {
            return Some(Slot::Role(self.name()?));
        }
        match self.step()? {
            Token::Word(b"1") => Some(Slot::Place(1)),
            Token::Word(b"2") => Some(Slot::Place(2)),
            Token::Word(b"3") => Some(Slot::Place(3)),
            Token::Word(b"4") => Some(Slot::Place(4)),
            _ => None,
        }
    }
}

//! A session while it is made: the book steps along, so that the next record
//! can be chosen by what is held.

use crate::acts::{self, named};
use crate::language;
use crate::plain::book::Book;
use crate::plain::reply;
use crate::plain::tree::Act;
use crate::random::Random;
use crate::session::{step, Answer, Call};
use crate::spell::{record, text, tokens, Tokens};
use crate::words;

pub struct Stage {
    pub random: Random,
    pub book: Book,
    pub calls: Vec<Call>,
    pub answers: Vec<Answer>,
    /// The roles held, by name.
    pub roles: Vec<String>,
    /// Acts to offer next, the last one first.
    plan: Vec<Act>,
}

impl Stage {
    pub fn new(random: Random) -> Stage {
        Stage {
            random,
            book: Book::fresh(),
            calls: Vec::new(),
            answers: Vec::new(),
            roles: vec!["top".to_string()],
            plan: Vec::new(),
        }
    }

    /// One call with a reply buffer of that size.
    pub fn call(&mut self, record: Vec<u8>, size: usize) {
        let lent = self.random.bytes(size);
        let call = Call { record, lent };
        self.answers.push(step(&mut self.book, &call));
        self.calls.push(call);
        let names = self.book.roles().names().skip(self.roles.len());
        let new: Vec<String> = names
            .map(|n| String::from_utf8_lossy(n).into_owned())
            .collect();
        self.roles.extend(new);
    }

    pub fn say(&mut self, record: Vec<u8>) {
        self.call(record, reply::LENGTH);
    }

    /// A record of these tokens, unless they have no room.
    pub fn tell(&mut self, kind: u8, tokens: &Tokens) {
        if let Some(text) = text(&mut self.random, tokens) {
            self.say(record(kind, &text));
        }
    }

    /// A line written out, with single spaces.
    pub fn line(&mut self, text: &str) {
        self.say(record(b'L', text));
    }

    pub fn role_tokens(&mut self) -> Tokens {
        let name = words::name(&mut self.random);
        let parent = self.random.pick(&self.roles);
        tokens(&["role", &name, "under", parent])
    }

    /// A rule line that fits a record.
    pub fn rule_tokens(&mut self) -> Tokens {
        language::rule(&mut self.random, &self.roles)
    }

    fn next_act(&mut self) -> Act {
        // Acts out of the plan's turn are few, as they spoil what it leads to.
        if self.random.chance(90) {
            if let Some(act) = self.plan.pop() {
                return act;
            }
        }
        acts::act(&mut self.random, self.book.roles())
    }

    pub fn act_tokens(&mut self) -> Tokens {
        named(&self.next_act())
    }

    pub fn role(&mut self) {
        let made = self.role_tokens();
        self.tell(b'L', &made);
    }

    pub fn rule(&mut self) {
        let made = self.rule_tokens();
        self.tell(b'L', &made);
    }

    pub fn act(&mut self) {
        let made = self.act_tokens();
        self.tell(b'E', &made);
    }

    /// Offers what is planned, and nothing else.
    pub fn follow_plan(&mut self) {
        while let Some(act) = self.plan.pop() {
            self.tell(b'E', &named(&act));
        }
    }

    /// Plans acts that may lead one of the rules to work: the last declared,
    /// or any of them.
    pub fn lead(&mut self) {
        let rules = self.book.rules();
        let rule = match rules.last() {
            Some(last) if self.random.chance(60) => last,
            Some(_) => self.random.pick(rules),
            None => return,
        };
        self.plan = acts::leading(&mut self.random, self.book.roles(), rule);
        self.plan.reverse();
    }
}

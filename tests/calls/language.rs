//! Random lines of the rule language, as tokens.

use crate::random::Random;
use crate::spell::{text, Tokens};
use crate::words;

/// What a line is made of: the roles it may use, and how short its patterns are.
/// 0 is any pattern; above it patterns have few bytes so that many fit, and
/// this percentage of them no role.
pub struct Maker<'a> {
    pub random: &'a mut Random,
    pub roles: &'a [String],
    pub short: usize,
    pub out: Tokens,
}

/// How many roles, items or slots: often one, seldom four.
pub fn few(random: &mut Random) -> usize {
    *random.pick(&[0, 1, 1, 1, 1, 1, 2, 2, 3, 4])
}

/// A rule line of any name that fits a record.
pub fn rule(random: &mut Random, roles: &[String]) -> Tokens {
    let name = words::name(random);
    loop {
        let size = *random.pick(&[1, 1, 2, 2, 3, 4, 6]);
        let mut maker = Maker::new(random, roles);
        maker.rule_line(&name, size);
        let made = maker.out;
        if text(random, &made).is_some() {
            return made;
        }
    }
}

/// `size` as `count` parts, none of them 0.
fn parts(random: &mut Random, size: usize, count: usize) -> Vec<usize> {
    let mut parts = vec![1; count];
    for _ in count..size {
        parts[random.below(count)] += 1;
    }
    parts
}

impl<'a> Maker<'a> {
    pub fn new(random: &'a mut Random, roles: &'a [String]) -> Maker<'a> {
        Maker {
            random,
            roles,
            short: 0,
            out: Vec::new(),
        }
    }

    pub fn put(&mut self, token: &str) {
        self.out.push(token.to_string());
    }

    fn role(&mut self) {
        let role = self.random.pick(self.roles);
        self.out.push(role.clone());
    }

    /// A whole rule line whose past has about `size` patterns.
    pub fn rule_line(&mut self, name: &str, size: usize) {
        self.head(name);
        // Such a past can still match long after the rule is declared.
        if self.random.chance(35) {
            self.put("any");
            self.put("*");
        }
        self.past(size);
        self.tail();
    }

    pub fn head(&mut self, name: &str) {
        for token in ["rule", name, ":"] {
            self.put(token);
        }
    }

    /// The trigger and the response.
    pub fn tail(&mut self) {
        self.put(";");
        self.pattern();
        self.put(";");
        self.response();
    }

    pub fn past(&mut self, size: usize) {
        let sides = if self.random.chance(25) {
            self.random.between(2, 3)
        } else {
            1
        };
        let sizes = parts(self.random, size, sides.min(size));
        for (at, part) in sizes.into_iter().enumerate() {
            if at > 0 {
                self.put("+");
            }
            self.sequence(part);
        }
    }

    fn sequence(&mut self, size: usize) {
        let most = if self.short > 0 { 30 } else { 6 };
        let factors = self.random.between(1, most).min(size);
        for part in parts(self.random, size, factors) {
            self.factor(part);
        }
    }

    fn factor(&mut self, size: usize) {
        self.base(size);
        let percent = if self.short > 0 { 8 } else { 25 };
        while self.random.chance(percent) {
            self.put("*");
        }
    }

    fn base(&mut self, size: usize) {
        if size == 1 && (self.short > 0 || !self.random.chance(8)) {
            return self.pattern();
        }
        self.put("(");
        if size > 1 || self.random.chance(50) {
            self.past(size);
        }
        self.put(")");
    }

    pub fn pattern(&mut self) {
        if self.short > 0 {
            return self.short_pattern();
        }
        if self.random.chance(75) {
            return self.simple();
        }
        let depth = self.random.between(1, 3);
        self.put("[");
        self.condition(depth);
        self.put("]");
    }

    fn condition(&mut self, depth: usize) {
        self.term(depth);
        while self.random.chance(30) {
            self.put("or");
            self.term(depth);
        }
    }

    fn term(&mut self, depth: usize) {
        if self.random.chance(40) {
            self.put("not");
            return self.term(depth);
        }
        if depth == 0 || self.random.chance(60) {
            return self.simple();
        }
        self.put("(");
        self.condition(depth - 1);
        self.put(")");
    }

    /// A bracketed condition among them counts as one pattern.
    fn short_pattern(&mut self) {
        if self.random.chance(3) {
            let condition = *self.random.pick(&["[<>or<>]", "[not<>]", "[(any)]"]);
            return self.put(condition);
        }
        self.put("<");
        if !self.random.chance(self.short) {
            self.role();
        } else if self.random.chance(10) {
            self.put("*");
        }
        self.put(">");
    }

    fn simple(&mut self) {
        if self.random.chance(15) {
            return self.put("any");
        }
        self.put("<");
        for _ in 0..few(self.random) {
            if self.random.chance(35) {
                self.put("+");
            }
            self.role();
        }
        if self.random.chance(25) {
            self.put("*");
        }
        self.put(">");
    }

    fn response(&mut self) {
        match self.random.below(20) {
            0..=5 => self.put("pass"),
            6..=9 => self.put("hold"),
            10..=16 => self.template("send"),
            _ => self.template("anew"),
        }
    }

    fn template(&mut self, word: &str) {
        self.put(word);
        self.put("<");
        for _ in 0..few(self.random) {
            if self.random.chance(45) {
                self.role();
                continue;
            }
            self.put("#");
            let place = *self.random.pick(&["1", "1", "1", "1", "2", "2", "3", "4"]);
            self.put(place);
        }
        self.put(">");
    }
}

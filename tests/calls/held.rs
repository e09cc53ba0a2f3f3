//! Calls chosen by what a book holds: acts for its rules, and lines beside those
//! that it has.

use crate::acts::{self, named};
use crate::language;
use crate::plain::book::Book;
use crate::plain::reply;
use crate::plain::rule::Rule;
use crate::plain::survey::patterns;
use crate::random::Random;
use crate::session::Call;
use crate::spell::{record, text, tokens, Tokens};
use crate::words;

/// A call with a record of these tokens, unless they have no room.
fn call(random: &mut Random, kind: u8, tokens: &Tokens) -> Option<Call> {
    let text = text(random, tokens)?;
    Some(Call {
        record: record(kind, &text),
        lent: random.bytes(reply::LENGTH),
    })
}

/// A rule or a role by a line, beside those that an image brought.
pub fn line(random: &mut Random, book: &Book) -> Option<Call> {
    let names = book.roles().names();
    let names: Vec<String> = names
        .map(|name| String::from_utf8_lossy(name).into_owned())
        .collect();
    let made = if random.chance(70) {
        language::rule(random, &names)
    } else {
        let (name, parent) = (words::name(random), random.pick(&names));
        tokens(&["role", &name, "under", parent])
    };
    call(random, b'L', &made)
}

/// Acts that may lead one of the rules held to work; none where there is no rule.
pub fn acts(random: &mut Random, book: &Book) -> Vec<Call> {
    if book.rules().is_empty() {
        return Vec::new();
    }
    let rule = random.pick(book.rules());
    onward(random, book, rule)
}

/// Acts that may lead the rule of the longest past to work.
pub fn long_acts(random: &mut Random, book: &Book) -> Vec<Call> {
    let longest = |rule: &&Rule| patterns(&rule.line.past);
    let rule = book.rules().iter().max_by_key(longest);
    rule.map_or(Vec::new(), |rule| onward(random, book, rule))
}

fn onward(random: &mut Random, book: &Book, rule: &Rule) -> Vec<Call> {
    let marks = rule.marks(book.list(), book.roles());
    let acts = acts::onward(random, book.roles(), rule, &marks);
    let calls = acts.iter().map(named);
    calls.filter_map(|act| call(random, b'E', &act)).collect()
}

//! Lines and acts that are nearly in the language.

use crate::random::Random;
use crate::spell::{record, text, Tokens};
use crate::stage::Stage;
use crate::words;

/// The tokens and the kind of a valid record.
fn valid(stage: &mut Stage) -> (u8, Tokens) {
    match stage.random.below(10) {
        0..=2 => (b'L', stage.role_tokens()),
        3..=6 => (b'L', stage.rule_tokens()),
        _ => (b'E', stage.act_tokens()),
    }
}

/// A valid record, not yet handed over.
pub fn valid_record(stage: &mut Stage) -> Vec<u8> {
    let (kind, tokens) = valid(stage);
    let text = text(&mut stage.random, &tokens).unwrap_or_default();
    record(kind, &text)
}

/// A place that isn't one of 1 to 4, or a name or two more than there is room for.
fn overdo(random: &mut Random, tokens: &mut Tokens) {
    let aims = |token: &String| token == ">" || ["1", "2", "3", "4"].contains(&token.as_str());
    let found: Vec<usize> = (0..tokens.len()).filter(|&at| aims(&tokens[at])).collect();
    if found.is_empty() {
        return tokens.extend(vec!["top".to_string(); random.between(1, 4)]);
    }
    let at = *random.pick(&found);
    if tokens[at] == ">" {
        let more = vec!["top".to_string(); random.between(1, 4)];
        tokens.splice(at..at, more);
    } else {
        tokens[at] = random.pick(&["0", "5", "9", "11", "01", "1a"]).to_string();
    }
}

/// One token dropped, doubled, exchanged with another or with a new one.
fn spoil_tokens(random: &mut Random, tokens: &mut Tokens) {
    if random.chance(35) {
        return overdo(random, tokens);
    }
    let at = random.below(tokens.len() + 1);
    if at == tokens.len() {
        return tokens.push(words::token(random));
    }
    let word = tokens[at].starts_with(|c: char| c.is_ascii_lowercase());
    match random.below(8) {
        0 | 1 => drop(tokens.remove(at)),
        2 => tokens.insert(at, tokens[at].clone()),
        3 => {
            let other = random.below(tokens.len());
            tokens.swap(at, other);
        }
        4 => tokens[at] = words::token(random),
        5 => tokens.insert(at, words::token(random)),
        _ if word && random.chance(50) => tokens[at] = words::wrong_name(random),
        _ if word => tokens[at] = words::name(random),
        _ => tokens.truncate(at),
    }
}

/// A line or an act with a token wrong, or two.
pub fn near(stage: &mut Stage) {
    let (kind, mut tokens) = valid(stage);
    spoil_tokens(&mut stage.random, &mut tokens);
    if stage.random.chance(20) {
        spoil_tokens(&mut stage.random, &mut tokens);
    }
    stage.tell(kind, &tokens);
}

//! Images with their lines written otherwise, and with a line that a fresh
//! monitor refuses. All else of such an image is as it should be, so that the
//! line alone decides.

use super::parts::{add_rule, ends, rules};
use super::Records;
use crate::plain::book::RECORD;
use crate::plain::text::{tokens, Token};
use crate::random::Random;
use crate::spell::{record, text, Tokens};

/// Every line with other spaces between its tokens.
pub fn respaced(random: &mut Random, records: &mut Records) {
    let lines = ends(records).1;
    for line in &mut records[..lines] {
        let found = tokens(&line[1..RECORD - 1]).unwrap_or_default();
        let bytes = found.iter().map(Token::bytes);
        let words: Tokens = bytes
            .map(|token| String::from_utf8_lossy(&token).into_owned())
            .collect();
        if let Some(text) = text(random, &words) {
            *line = record(b'L', &text);
        }
    }
}

/// A role line behind the others.
fn add_role(records: &mut Records, text: &str) {
    let at = ends(records).0;
    records.insert(at, record(b'L', text));
}

fn add(records: &mut Records, text: &str) {
    add_rule(records, record(b'L', text), "zz-more");
}

/// A byte of class 0 among the spaces at a line's end, or in the newline's place.
pub fn refused_3(random: &mut Random, records: &mut Records) {
    let lines = ends(records).1;
    if lines > 0 {
        let at = random.below(lines);
        let place = *random.pick(&[RECORD - 2, RECORD - 1]);
        records[at][place] = *random.pick(b"\0\t\r\x1f\x7f\x80\xff");
    }
}

pub fn refused_4(random: &mut Random, records: &mut Records) {
    match random.below(5) {
        0 => add_role(records, "role zz-more under"),
        1 => add_role(records, ""),
        2 => add_role(records, "role zz-more under top !"),
        3 => add(records, "rule zz-more:any;any;hold hold"),
        _ => add(records, "rule zz-more:;any;hold"),
    }
}

/// A name taken: top, a role of the image or a rule of it.
pub fn refused_5(random: &mut Random, records: &mut Records) {
    let held = rules(records);
    if held.is_empty() || random.chance(50) {
        return add_role(records, "role top under top");
    }
    let name = String::from_utf8_lossy(&random.pick(&held).name).into_owned();
    let line = record(b'L', &format!("rule {name}:any;any;hold"));
    add_rule(records, line, &name);
}

pub fn refused_6(random: &mut Random, records: &mut Records) {
    match random.below(4) {
        0 => add_role(records, "role zz-more under zz-none"),
        1 => add(records, "rule zz-more:<zz-none>;any;hold"),
        2 => add(records, "rule zz-more:any;[not<+zz-none*>];hold"),
        _ => add(records, "rule zz-more:any;any;send<zz-none>"),
    }
}

/// Role lines until there are so many.
fn fill_roles(records: &mut Records, count: usize) {
    for number in ends(records).0..count {
        add_role(records, &format!("role zq{number} under top"));
    }
}

/// Rule lines until there are so many.
fn fill_rules(records: &mut Records, count: usize) {
    for number in rules(records).len()..count {
        let name = format!("zr{number}");
        let line = record(b'L', &format!("rule {name}:any;any;pass"));
        add_rule(records, line, &name);
    }
}

/// As many roles and rules as are held: top is none of the lines.
pub fn filled(random: &mut Random, records: &mut Records) {
    let which = random.below(4);
    if which != 0 {
        fill_roles(records, 63);
    }
    if which != 1 {
        fill_rules(records, 32);
    }
}

/// And one more.
pub fn refused_8(random: &mut Random, records: &mut Records) {
    if random.chance(50) {
        fill_roles(records, 64);
    } else {
        fill_rules(records, 33);
    }
}

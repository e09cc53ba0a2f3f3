//! Working an act: the chain of rules, and how the work ends.

use super::meets::meets;
use super::roles::Roles;
use super::rule::Rule;
use super::tree::{Act, Name, Response, Slot, Template};

/// The most responses worked for one act.
pub const MOST_WORKED: usize = 64;

/// How the work ends. The last three name the rule that decides.
pub enum End {
    Committed(Act),
    Held(Name),
    Unfit(Name),
    TooLong(Name),
}

/// What a chain is looked up in. None of it changes while an act is worked.
pub struct Stand<'a> {
    pub roles: &'a Roles,
    pub rules: &'a [Rule],
    pub list: &'a [Act],
}

/// Works an offered act to its end, and counts the responses worked.
pub fn work(stand: &Stand, offered: Act) -> (usize, End) {
    let mut act = offered;
    let mut worked = 0;
    loop {
        match work_chain(&look_up(stand, &act), act, &mut worked) {
            After::Ended(end) => return (worked, end),
            After::Anew(made) => act = made,
        }
    }
}

/// The rules whose past matches and whose trigger the act meets, the last
/// declared first. The trigger is asked first only because it costs less.
fn look_up<'a>(stand: &Stand<'a>, act: &Act) -> Vec<&'a Rule> {
    let mut rules: Vec<&Rule> = stand.rules.iter().collect();
    rules.reverse();
    rules.retain(|rule| {
        meets(act, &rule.line.trigger, stand.roles) && rule.matches(stand.list, stand.roles)
    });
    rules
}

/// What comes after one chain: the end, or a new chain for the act made.
enum After {
    Ended(End),
    Anew(Act),
}

/// The chain stays as it was looked up, so triggers aren't asked again after
/// a send.
fn work_chain(chain: &[&Rule], offered: Act, worked: &mut usize) -> After {
    let mut act = offered;
    for rule in chain {
        let name = &rule.line.name;
        if *worked == MOST_WORKED {
            return After::Ended(End::TooLong(name.clone()));
        }
        *worked += 1;
        let unfit = || After::Ended(End::Unfit(name.clone()));
        match &rule.line.response {
            Response::Pass => {}
            Response::Hold => return After::Ended(End::Held(name.clone())),
            Response::Send(template) => match fill(template, &act) {
                Some(made) => act = made,
                None => return unfit(),
            },
            Response::Anew(template) => {
                return fill(template, &act).map_or_else(unfit, After::Anew)
            }
        }
    }
    After::Ended(End::Committed(act))
}

/// The act that a template makes of an act, or nothing when the template
/// names a place beyond the act's length.
fn fill(template: &Template, act: &Act) -> Option<Act> {
    let slots = template.iter();
    slots
        .map(|slot| match slot {
            Slot::Role(name) => Some(name.clone()),
            Slot::Place(place) => act.get(place - 1).cloned(),
        })
        .collect()
}

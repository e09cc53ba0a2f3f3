//! Working an act: the chain of due rules.

use super::roles::Act;
use super::rules::Response;
use super::Monitor;

const MOST_WORKED: u8 = 64;

/// How the work ends; the number is the deciding rule's.
pub enum End {
    Committed(Act),
    Held(usize),
    Unfit(usize),
    TooLong(usize),
}

/// What comes after one chain: the end, or a new chain for the act made.
enum After {
    Ended(End),
    Anew(Act),
}

impl Monitor {
    /// How many responses were worked, and how the work ended.
    pub fn work(&self, offered: Act) -> (u8, End) {
        let ready = self.ready();
        let mut act = offered;
        let mut worked = 0;
        loop {
            match self.chain(ready, act, &mut worked) {
                After::Ended(end) => return (worked, end),
                After::Anew(made) => act = made,
            }
        }
    }

    /// The rules whose past matches now, as a set.
    fn ready(&self) -> u32 {
        let pairs = self.rules.iter().zip(&self.held).enumerate();
        pairs.fold(0, |set, (i, (rule, &held))| {
            set | (rule.past.matches(held) as u32) << i
        })
    }

    /// One chain. Triggers are judged for the act that it was looked up for, the last declared rule first.
    fn chain(&self, ready: u32, looked: Act, worked: &mut u8) -> After {
        let mut act = looked;
        let mut left = ready;
        while left != 0 {
            let i = 31 - left.leading_zeros() as usize;
            left ^= 1 << i;
            let rule = &self.rules[i];
            if !rule.trigger.meets(&looked, &self.roles) {
                continue;
            }
            if *worked == MOST_WORKED {
                return After::Ended(End::TooLong(i));
            }
            *worked += 1;
            let unfit = After::Ended(End::Unfit(i));
            match &rule.response {
                Response::Pass => {}
                Response::Hold => return After::Ended(End::Held(i)),
                Response::Send(template) => match template.fill(&act) {
                    Some(made) => act = made,
                    None => return unfit,
                },
                Response::Anew(template) => return template.fill(&act).map_or(unfit, After::Anew),
            }
        }
        After::Ended(End::Committed(act))
    }
}

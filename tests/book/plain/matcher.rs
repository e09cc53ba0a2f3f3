//! When a past matches a list of acts: Appendix A, read as sets of split
//! points. A split point is a place between two acts, 0 before the first and
//! the list's length after the last.

use super::meets::meets;
use super::roles::Roles;
use super::tree::{Act, Condition, Past};

/// A set of split points, each once, in rising order.
type Points = Vec<usize>;

/// Whether the past matches the whole list.
pub fn matches(past: &Past, acts: &[Act], roles: &Roles) -> bool {
    ends(past, acts, roles, &[0]).contains(&acts.len())
}

/// Every point `e` for which some point `s` of the starts has the past match
/// the acts from `s` up to `e`.
pub fn ends(past: &Past, acts: &[Act], roles: &Roles, starts: &[usize]) -> Points {
    match past {
        Past::Pattern(condition) => pattern_ends(condition, acts, roles, starts),
        Past::Empty => starts.to_vec(),
        Past::Side(parts) => parts.iter().fold(starts.to_vec(), |points, part| {
            // One part ends where the next one starts.
            ends(part, acts, roles, &points)
        }),
        Past::Either(sides) => {
            let reached = sides
                .iter()
                .flat_map(|side| ends(side, acts, roles, starts));
            set(reached.collect())
        }
        Past::Star(inside) => star_ends(inside, acts, roles, starts),
    }
}

fn set(mut points: Points) -> Points {
    points.sort_unstable();
    points.dedup();
    points
}

/// A pattern matches the lists of one act that meets it.
fn pattern_ends(pattern: &Condition, acts: &[Act], roles: &Roles, starts: &[usize]) -> Points {
    let fits = |&&point: &&usize| point < acts.len() && meets(&acts[point], pattern, roles);
    starts.iter().filter(fits).map(|point| point + 1).collect()
}

/// The smallest set that has the starts (the empty list) and, for each point
/// in it, the ends of the inside from there (the inside, then the star again).
/// Only points not met before are followed, so a round that matches the empty
/// list adds none and the loop stops.
pub fn star_ends(inside: &Past, acts: &[Act], roles: &Roles, starts: &[usize]) -> Points {
    let mut met = vec![false; acts.len() + 1];
    let mut reached = Points::new();
    let mut fresh = starts.to_vec();
    while !fresh.is_empty() {
        for &point in &fresh {
            met[point] = true;
        }
        reached.extend(&fresh);
        fresh = ends(inside, acts, roles, &fresh);
        fresh.retain(|&point| !met[point]);
    }
    set(reached)
}

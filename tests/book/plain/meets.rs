//! When an act meets a pattern.

use super::roles::Roles;
use super::tree::{Act, Condition, Item, Name, Simple};

/// Judged by the nesting of the condition.
pub fn meets(act: &Act, condition: &Condition, roles: &Roles) -> bool {
    match condition {
        Condition::Simple(simple) => meets_simple(act, simple, roles),
        Condition::Not(inside) => !meets(act, inside, roles),
        Condition::Or(terms) => terms.iter().any(|term| meets(act, term, roles)),
    }
}

/// Items and roles in turn; a `*` takes the roles left over, none included.
fn meets_simple(act: &Act, simple: &Simple, roles: &Roles) -> bool {
    let lengths_fit = if simple.rest {
        act.len() >= simple.items.len()
    } else {
        act.len() == simple.items.len()
    };
    let mut pairs = act.iter().zip(&simple.items);
    lengths_fit && pairs.all(|(role, item)| meets_item(role, item, roles))
}

fn meets_item(role: &Name, item: &Item, roles: &Roles) -> bool {
    if item.below {
        roles.below(role, &item.role)
    } else {
        *role == item.role
    }
}

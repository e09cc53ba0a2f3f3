//! The roles held, each with its parent.

use super::tree::Name;

/// A role, and the place of its parent among those held. `top` is held from
/// the start and is the one role without a parent.
#[derive(Clone)]
struct Role {
    name: Name,
    parent: Option<usize>,
}

#[derive(Clone)]
pub struct Roles {
    held: Vec<Role>,
}

impl Roles {
    pub fn fresh() -> Roles {
        let top = Role {
            name: b"top".to_vec(),
            parent: None,
        };
        Roles { held: vec![top] }
    }

    /// How many are held, top included.
    pub fn count(&self) -> usize {
        self.held.len()
    }

    /// In declared order, top first.
    pub fn names(&self) -> impl Iterator<Item = &Name> {
        self.held.iter().map(|role| &role.name)
    }

    /// In declared order without top, each with its parent.
    pub fn with_parents(&self) -> impl Iterator<Item = (&Name, &Name)> {
        self.held
            .iter()
            .filter_map(|r| Some((&r.name, &self.held[r.parent?].name)))
    }

    pub fn holds(&self, name: &[u8]) -> bool {
        self.place(name).is_some()
    }

    pub fn join(&mut self, name: Name, parent: Name) {
        let parent = self.place(&parent);
        self.held.push(Role { name, parent });
    }

    fn place(&self, name: &[u8]) -> Option<usize> {
        self.held.iter().position(|role| role.name == name)
    }

    /// Whether `low` is `high` or stands below it. A parent was always held
    /// before its child, so the way up comes to an end at top.
    pub fn below(&self, low: &[u8], high: &[u8]) -> bool {
        let mut at = self.place(low);
        while let Some(place) = at {
            if self.held[place].name == high {
                return true;
            }
            at = self.held[place].parent;
        }
        false
    }
}

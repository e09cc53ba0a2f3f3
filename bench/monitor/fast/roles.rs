//! The roles held, and acts as ids of roles.

use super::text::{name, next, pack, Token};

pub const MOST_ROLES: usize = 64;

/// The first `count` roles are held, with their parents. Bit p of `above[r]` says that role r is p or below it.
pub struct Roles {
    pub count: usize,
    pub names: [u64; MOST_ROLES],
    pub parents: [u8; MOST_ROLES],
    pub above: [u64; MOST_ROLES],
}

/// The first `len` ids count.
#[derive(Clone, Copy)]
pub struct Act {
    pub len: usize,
    pub ids: [u8; 4],
}

impl Roles {
    pub fn fresh() -> Roles {
        let mut roles = Roles {
            count: 1,
            names: [0; MOST_ROLES],
            parents: [0; MOST_ROLES],
            above: [0; MOST_ROLES],
        };
        roles.names[0] = pack(b"top");
        roles.above[0] = 1;
        roles
    }

    pub fn find(&self, name: u64) -> Option<u8> {
        let held = &self.names[..self.count];
        held.iter().position(|&n| n == name).map(|id| id as u8)
    }

    pub fn join(&mut self, name: u64, parent: u8) {
        self.names[self.count] = name;
        self.parents[self.count] = parent;
        self.above[self.count] = self.above[parent as usize] | 1 << self.count;
        self.count += 1;
    }

    /// The act that a text spells, or the refusal. A text that is no act is told before a role that is not held.
    pub fn act(&self, mut text: &[u8]) -> Result<Act, u8> {
        let mut names = [0; 4];
        let mut len = 0;
        loop {
            match next(&mut text) {
                Token::End => break,
                Token::Word(word) if len < 4 => names[len] = name(word).ok_or(4)?,
                _ => return Err(4),
            }
            len += 1;
        }
        let mut ids = [0; 4];
        for (id, name) in ids.iter_mut().zip(&names[..len]) {
            *id = self.find(*name).ok_or(6)?;
        }
        Ok(Act { len, ids })
    }
}

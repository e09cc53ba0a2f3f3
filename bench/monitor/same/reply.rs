//! The 50 bytes of a reply.

use super::names::{length, pack};

pub type Reply = [u8; 50];

/// The name in a reply that has none.
pub fn dash() -> u64 {
    pack(b"-")
}

/// A whole reply: its kind, its number, its name, and the names of roles.
pub fn reply(out: &mut Reply, kind: u8, number: u8, name: u64, roles: &[u64]) {
    out[..5].copy_from_slice(&[kind, b' ', b'0' + number / 10, b'0' + number % 10, b' ']);
    out[5..13].copy_from_slice(&name.to_be_bytes());
    out[13..49].fill(b' ');
    let mut at = 14;
    for role in roles {
        let columns = role.to_be_bytes();
        let length = length(&columns);
        out[at..at + length].copy_from_slice(&columns[..length]);
        at += length + 1;
    }
    out[49] = b'\n';
}

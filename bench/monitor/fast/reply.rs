//! The 50 bytes of a reply.

use super::roles::{Act, Roles};
use super::text::pack;

pub const DASH: u64 = pack(b"-");
const SPACES: u64 = pack(b"");

/// How many bytes a packed name has.
pub fn length(name: u64) -> usize {
    8 - ((name ^ SPACES).trailing_zeros() / 8) as usize
}

/// All of the buffer, which has 50 bytes, but for the roles of a committed act.
pub fn plain(buffer: &mut [u8], kind: u8, number: u8, name: u64) {
    buffer.fill(b' ');
    buffer[0] = kind;
    buffer[2] = b'0' + number / 10;
    buffer[3] = b'0' + number % 10;
    buffer[5..13].copy_from_slice(&name.to_be_bytes());
    buffer[49] = b'\n';
}

/// Each name is written with its padding, which the next one overwrites: the last of four ends at column 48 at most.
pub fn committed(buffer: &mut [u8], worked: u8, act: &Act, roles: &Roles) {
    plain(buffer, b'C', worked, DASH);
    let mut at = 14;
    for &id in &act.ids[..act.len] {
        let name = roles.names[id as usize];
        buffer[at..at + 8].copy_from_slice(&name.to_be_bytes());
        at += length(name) + 1;
    }
}

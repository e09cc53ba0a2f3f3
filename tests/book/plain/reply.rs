//! The reply: 50 bytes, filled the same way for every kind.

use super::chain::End;
use super::tree::Act;

/// The length of a reply.
pub const LENGTH: usize = 50;

/// Fills the whole buffer, which has 50 bytes.
fn fill(buffer: &mut [u8], kind: u8, number: usize, name: &[u8], tail: &[u8]) {
    buffer.fill(b' ');
    buffer[0] = kind;
    buffer[2] = b'0' + (number / 10) as u8;
    buffer[3] = b'0' + (number % 10) as u8;
    buffer[5..5 + name.len()].copy_from_slice(name);
    buffer[14..14 + tail.len()].copy_from_slice(tail);
    buffer[LENGTH - 1] = b'\n';
}

pub fn refused(buffer: &mut [u8], number: u8) {
    fill(buffer, b'R', usize::from(number), b"-", b"");
}

pub fn declared(buffer: &mut [u8], name: &[u8]) {
    fill(buffer, b'D', 0, name, b"");
}

pub fn worked(buffer: &mut [u8], count: usize, end: &End) {
    match end {
        End::Committed(act) => fill(buffer, b'C', count, b"-", &roles(act)),
        End::Held(rule) => fill(buffer, b'H', count, rule, b""),
        End::Unfit(rule) => fill(buffer, b'U', count, rule, b""),
        End::TooLong(rule) => fill(buffer, b'T', count, rule, b""),
    }
}

/// Four names of 8 bytes and the spaces between them are 35 bytes, which is
/// just what columns 14 to 48 hold.
fn roles(act: &Act) -> Vec<u8> {
    act.join(&b' ')
}

//! The frame of a record.

use super::classes::all_classed;

pub type Text = [u8; 126];

/// What a record says it is.
pub enum Framed<'a> {
    Line(&'a Text),
    Event(&'a Text),
}

/// The frame of any bytes, or refusal 2 or 3.
pub fn framed(bytes: &[u8]) -> Result<Framed<'_>, u8> {
    let record: &[u8; 128] = bytes.try_into().map_err(|_| 2)?;
    let [kind, text @ .., newline] = record;
    if *newline != b'\n' || !all_classed(text) {
        return Err(3);
    }
    match kind {
        b'L' => Ok(Framed::Line(text)),
        b'E' => Ok(Framed::Event(text)),
        _ => Err(3),
    }
}

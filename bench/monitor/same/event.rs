//! An event's text, read in one pass.

use super::ids::{id_of, UNHELD};
use super::tokens::{next, Token};
use super::words::WordKind;

/// The ids of an event's roles, of which the first `len` count.
#[derive(Clone, Copy)]
pub struct Event {
    len: usize,
    ids: [u8; 4],
}

impl Event {
    pub const EMPTY: Event = Event {
        len: 0,
        ids: [0; 4],
    };

    pub fn ids(&self) -> &[u8] {
        &self.ids[..self.len]
    }

    /// One more role, where there is room.
    pub fn push(&mut self, id: u8) -> Option<()> {
        *self.ids.get_mut(self.len)? = id;
        self.len += 1;
        Some(())
    }
}

/// The event, and whether a name in it is not held; None where the text is not in the language. A name that is not held does not end the pass, as what
/// follows may not be in the language, and that is told first.
fn read(text: &[u8], names: &[u64]) -> Option<(Event, bool)> {
    let mut event = Event::EMPTY;
    let mut unknown = false;
    let mut left = text;
    while let Some((token, after)) = next(left) {
        let Token::Word(WordKind::Name, word) = token else {
            return None;
        };
        let id = id_of(word, names);
        event.push(id)?;
        unknown |= id == UNHELD;
        left = after;
    }
    Some((event, unknown))
}

/// The event that a text says, or refusal 4 or 6.
pub fn event_line(text: &[u8], names: &[u64]) -> Result<Event, u8> {
    match read(text, names) {
        Some((event, false)) => Ok(event),
        Some((_, true)) => Err(6),
        None => Err(4),
    }
}

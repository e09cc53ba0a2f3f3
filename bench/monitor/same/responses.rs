//! A response over its code: its word, and the event that it makes of the event in hand.

use super::event::Event;
use super::state::Row;

pub enum Word {
    Pass,
    Hold,
    Send,
    Anew,
}

/// The event that a template makes, by its slots; none where it is unfit.
fn fill(mut slots: &[u8], event: &Event) -> Option<Event> {
    let mut made = Event::EMPTY;
    loop {
        slots = match slots {
            [b'#', digit, rest @ ..] => {
                let place = usize::from(digit - b'1');
                made.push(*event.ids().get(place)?)?;
                rest
            }
            [name @ 128..=255, rest @ ..] => {
                made.push(name - 128)?;
                rest
            }
            _ => return Some(made),
        };
    }
}

/// The response of a rule, and the event that it makes.
pub fn respond(row: &Row, event: &Event) -> (Word, Option<Event>) {
    match &row[usize::from(row[2] % 128)..] {
        [b'p', ..] => (Word::Pass, Some(*event)),
        [b'h', ..] => (Word::Hold, Some(*event)),
        [b's', _, slots @ ..] => (Word::Send, fill(slots, event)),
        [_, _, slots @ ..] => (Word::Anew, fill(slots, event)),
        _ => (Word::Hold, None),
    }
}

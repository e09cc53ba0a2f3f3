//! One call.

use super::chain::End;
use super::event::{event_line, Event};
use super::frame::{framed, Framed};
use super::reply::{dash, reply, Reply};
use super::state::Monitor;

impl Monitor {
    /// The refusal's number, or 0.
    pub fn call(&mut self, bytes: &[u8], out: &mut [u8]) -> u8 {
        let Ok(out) = <&mut Reply>::try_from(out) else {
            return 1;
        };
        match self.answer(bytes, out) {
            Ok(()) => 0,
            Err(number) => {
                reply(out, b'R', number, dash(), &[]);
                number
            }
        }
    }

    fn answer(&mut self, bytes: &[u8], out: &mut Reply) -> Result<(), u8> {
        match framed(bytes)? {
            Framed::Line(text) => {
                let name = self.declare(text)?;
                reply(out, b'D', 0, name, &[]);
            }
            Framed::Event(text) => {
                let event = event_line(text, self.sheet.role_names())?;
                self.event(event, out);
            }
        }
        Ok(())
    }

    /// An event is worked, and answered; and where it is committed, the positions move on.
    fn event(&mut self, event: Event, out: &mut Reply) {
        let (work, end) = self.work(event);
        let (kind, rule) = match end {
            End::Committed => {
                self.committed(&work.event, work.worked, out);
                return self.commit(&work.event);
            }
            End::Held(rule) => (b'H', rule),
            End::Unfit(rule) => (b'U', rule),
            End::TooLong(rule) => (b'T', rule),
        };
        reply(out, kind, work.worked, self.sheet.rule_names[rule], &[]);
    }

    fn committed(&self, event: &Event, worked: u8, out: &mut Reply) {
        let ids = event.ids();
        let mut names = [0; 4];
        for (name, &id) in names.iter_mut().zip(ids) {
            *name = self.sheet.names[usize::from(id) % 64];
        }
        reply(out, b'C', worked, dash(), &names[..ids.len()]);
    }
}

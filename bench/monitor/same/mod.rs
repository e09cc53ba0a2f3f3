//! A monitor in plain Rust that does what the proved one does (`crates/*/src`), function by function: what the proved one costs beside it is what its proof
//! has cost.
//!
//! The same is what is kept, in as many bytes: packed names, parents, of each role those above it as a set, of each rule a row of code with the places of its
//! trigger and its response, the positions at which its past may end and those that it holds. Nothing else is worked out beforehand; nothing is on the heap.
//! The same are the steps and their order: the frame; tokens, read afresh by each reader, and the kinds of words; an event read in one pass; a line recognized
//! first, and then read to ids and code, its patterns counted; the refusals; items until one is not met, conditions by their nesting, the walk over a past's
//! code for each event and what is put together of its parts; the chain, response by response; the columns of a reply; the records of an image, and its lines
//! taken like any others.
//!
//! The form differs where Rust without contracts would be written otherwise:
//! - Records, replies and rows are arrays, so that no length is asked again. Places in a row are counted from its first byte, and taken modulo its size where
//!   the proved one asks whether they are beyond the code.
//! - Classes of bytes are asked one by one, with no number between. Refusals and kinds of replies are their numbers and letters.
//! - Lists are loops also in the recognizers, in conditions, in a trigger's items and in templates; items go over the event's roles by an iterator.
//! - What no call leads to is not there: a pattern as a walk of its own, bounds for ids and for pattern numbers above those that a line has room for.
//! - A rule's row is made once no refusal is left. A step of the walk or of the chain changes in place what it goes on with. A reply's name is written with
//!   its padding.
//! - The digits of an image's marks are read by the standard library (`../image.rs`, which the monitor with tables uses too).

mod calls;
mod chain;
mod classes;
mod count;
mod declare;
mod encode;
mod event;
mod frame;
mod grammar;
mod ids;
mod image;
mod items;
mod lines;
mod matcher;
mod meets;
mod names;
mod reply;
mod responses;
mod rules;
mod state;
mod summary;
mod tokens;
mod walk;
mod words;

pub use state::Monitor;

use crate::host;

impl host::Monitor for Monitor {
    fn fresh() -> Monitor {
        Monitor::fresh()
    }

    fn call(&mut self, record: &[u8], reply: &mut [u8]) -> u8 {
        self.call(record, reply)
    }

    fn keep(&self, image: &mut [u8]) -> Result<u32, u8> {
        self.keep(image)
    }

    fn restore(&mut self, image: &[u8]) -> Result<(), u8> {
        self.restore(image)
    }
}

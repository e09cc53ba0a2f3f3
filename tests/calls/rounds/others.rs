//! Images for a round other than the one that the last left.

use super::run::{Images, Run};
use super::BUFFER;
use crate::images;
use crate::plain::book::RECORD;

/// An image buffer and its used number.
type Lent = (Vec<u8>, u32);

impl Run {
    /// Some other image, or none at all.
    pub(super) fn other(&mut self) -> Lent {
        match self.random.below(14) {
            0..=2 => self.own(),
            3 => self.elsewhere(),
            4 => (self.image.clone(), self.random.below(131) as u32),
            5..=7 => self.cut_or_longer(),
            8 => (self.random.bytes(BUFFER), self.random.below(131) as u32),
            _ => self.changed(),
        }
    }

    /// Whether the run may go on with these records, which are an image.
    pub(super) fn may_take(&self, records: &[u8]) -> bool {
        match self.images {
            Images::Last => *records == self.image[..self.used as usize * RECORD],
            Images::Own => images::is_own(&self.book, records),
            Images::Any => true,
        }
    }

    /// An image at the front of the buffer. What stood there before stays behind it,
    /// or other bytes. An image that the buffer hasn't room for is cut.
    fn put(&mut self, image: &[u8]) -> Lent {
        let mut buffer = if self.random.chance(30) {
            self.random.bytes(BUFFER)
        } else {
            self.image.clone()
        };
        let length = image.len().min(BUFFER);
        buffer[..length].copy_from_slice(&image[..length]);
        (buffer, image.len().div_ceil(RECORD) as u32)
    }

    fn own(&mut self) -> Lent {
        let image = images::own(&mut self.random, &self.book);
        self.put(&image)
    }

    fn elsewhere(&mut self) -> Lent {
        let image = images::elsewhere(&mut self.random);
        self.put(&image)
    }

    /// Some records fewer than the image has, or some of those behind it too.
    fn cut_or_longer(&mut self) -> Lent {
        let by = *self.random.pick(&[1, 1, 2, 7]);
        let used = if self.random.chance(50) {
            self.used.saturating_sub(by)
        } else {
            self.used + by
        };
        (self.image.clone(), used)
    }

    /// Some image changed, in the way whose turn it is or so that it is still one.
    fn changed(&mut self) -> Lent {
        let random = &mut self.random;
        let base = match random.below(4) {
            0 => images::own(random, &self.book),
            1 => images::elsewhere(random),
            _ => self.image[..self.used as usize * RECORD].to_vec(),
        };
        let image = match random.chance(65) {
            true => images::still_an_image(random, &base),
            false => images::changed(random, self.turn, &base),
        };
        self.put(&image)
    }
}

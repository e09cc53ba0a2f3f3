//! Keeping and restoring in a session: buffers to keep into, and images to restore.

use crate::held;
use crate::image_session::ImageSession;
use crate::images;
use crate::keeping::{Keep, Restore, MOST};
use crate::operations::Operation;
use crate::plain::book::RECORD;
use crate::plain::image::image;
use crate::plain::reply;
use crate::plain::restore::restored;
use crate::spell::record;

impl ImageSession {
    /// Buffers of about the image's length above all.
    pub fn keep(&mut self) {
        let due = image(self.book.now()).len();
        let any = self.random.below(2 * due + 300);
        let size = match self.random.below(12) {
            0..=4 => due,
            5 => due + 1,
            6 => due + 127,
            7 => due + 128,
            8 => MOST * RECORD,
            9 => due.saturating_sub(1),
            10 => 0,
            _ => any,
        };
        // Nobody looks at the record bytes: not at an act, not at an image.
        let records = match self.random.below(10) {
            0 => record(b'E', "top"),
            1 => images::elsewhere(&mut self.random),
            2 => self.random.bytes(3),
            _ => Vec::new(),
        };
        let lent = self.random.bytes(size);
        self.step(Operation::Keep(Keep { records, lent }));
    }

    pub fn restore(&mut self) {
        let image = self.chosen();
        let lent = match self.random.below(10) {
            0 => self.random.bytes(reply::LENGTH),
            1 => self.random.bytes(image.len()),
            _ => Vec::new(),
        };
        self.step(Operation::Restore(Restore { image, lent }));
    }

    /// An image with marks of a long past, acts that lead it on, and the image there;
    /// then maybe back to it in eight digits, which have half of the marks.
    pub fn go_on_long(&mut self) {
        let base = images::elsewhere(&mut self.random);
        let image = images::with_long_marks(&mut self.random, &base);
        self.restore_to(image);
        let acts = held::long_acts(&mut self.random, self.book.now());
        let most = self.random.between(1, 40);
        for call in acts.into_iter().take(most) {
            self.step(Operation::Call(call));
        }
        let image = self.keep_now();
        if self.random.chance(60) {
            let image = images::in_eight_digits(&mut self.random, &image);
            self.restore_to(image);
        }
    }

    fn restore_to(&mut self, image: Vec<u8>) {
        let lent = Vec::new();
        self.step(Operation::Restore(Restore { image, lent }));
    }

    /// The image is written into a buffer as long, and handed back.
    fn keep_now(&mut self) -> Vec<u8> {
        let image = image(self.book.now());
        let lent = self.random.bytes(image.len());
        let records = Vec::new();
        self.step(Operation::Keep(Keep { records, lent }));
        image
    }

    /// The image to return to.
    fn chosen(&mut self) -> Vec<u8> {
        let image = match self.random.below(11) {
            0..=2 => self.own(),
            3 => images::elsewhere(&mut self.random),
            5 => {
                let own = self.own();
                images::in_eight_digits(&mut self.random, &own)
            }
            4 if self.random.chance(30) => Vec::new(),
            _ => self.changed(),
        };
        if self.own_only && !images::is_own(&self.book, &image) && restored(&image).is_some() {
            return self.own();
        }
        image
    }

    /// An image that this session wrote. Where there is none, it writes one first.
    fn own(&mut self) -> Vec<u8> {
        if !self.book.kept().is_empty() {
            return images::own(&mut self.random, &self.book);
        }
        self.keep_now()
    }

    /// Some image changed in the way whose turn it is.
    fn changed(&mut self) -> Vec<u8> {
        let base = match self.random.below(4) {
            0 => image(self.book.now()),
            1 => images::elsewhere(&mut self.random),
            _ => self.own(),
        };
        self.turn += 1;
        images::changed(&mut self.random, self.turn, &base)
    }
}

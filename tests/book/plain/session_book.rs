//! The book of a session with images (document 02: places to return to): each image that keeping wrote
//! is remembered with the book of that moment.

use super::book::{Book, RECORD};
use super::image::image;
use super::restore::restored;

/// The number of bytes that are no image.
pub const NO_IMAGE: u8 = 12;

/// The number of a buffer too short to keep into.
pub const TOO_SHORT: u8 = 13;

pub struct SessionBook {
    book: Book,
    kept: Vec<Snapshot>,
    entered: bool,
}

/// An image written in this session, and the book of that moment.
pub struct Snapshot {
    pub image: Vec<u8>,
    book: Book,
}

impl SessionBook {
    pub fn fresh() -> SessionBook {
        SessionBook {
            book: Book::fresh(),
            kept: Vec::new(),
            entered: false,
        }
    }

    /// The book now.
    pub fn now(&self) -> &Book {
        &self.book
    }

    /// In the order of keeping, some of them equal maybe.
    pub fn kept(&self) -> &[Snapshot] {
        &self.kept
    }

    /// Whether an image from elsewhere has entered the session.
    pub fn entered(&self) -> bool {
        self.entered
    }

    /// One call, as the book takes it.
    pub fn call(&mut self, record: &[u8], buffer: &mut [u8]) -> u8 {
        self.book.call(record, buffer)
    }

    /// Keeping, into a lent buffer of any length. Gives the number and how many
    /// records were written.
    pub fn keep(&mut self, buffer: &mut [u8]) -> (u8, u32) {
        let image = image(&self.book);
        if buffer.len() < image.len() {
            return (TOO_SHORT, 0);
        }
        // What is lent behind the image stays as it is.
        buffer[..image.len()].copy_from_slice(&image);
        let records = image.len() / RECORD;
        self.kept.push(Snapshot {
            image,
            book: self.book.clone(),
        });
        (0, records as u32)
    }

    /// Returning to an image, which may be any bytes. Gives the number.
    pub fn restore(&mut self, image: &[u8]) -> u8 {
        // Of equal images any will do: what comes later follows from the marks,
        // which are the same. Only the last is looked for.
        let own = self.kept.iter().rfind(|snapshot| snapshot.image == image);
        match own {
            Some(snapshot) if !self.entered => self.book = snapshot.book.clone(),
            _ => match restored(image) {
                None => return NO_IMAGE,
                Some(book) => {
                    self.book = book;
                    self.entered = true;
                }
            },
        }
        0
    }
}

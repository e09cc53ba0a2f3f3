//! Images that a session itself wrote.

use crate::plain::session_book::SessionBook;
use crate::random::Random;

/// Some image that the session wrote, the last ones more often: they hold more.
/// It wrote at least one.
pub fn own(random: &mut Random, book: &SessionBook) -> Vec<u8> {
    let kept = book.kept();
    let most = *random.pick(&[2, 5, kept.len()]);
    let last = &kept[kept.len().saturating_sub(most)..];
    random.pick(last).image.clone()
}

pub fn is_own(book: &SessionBook, image: &[u8]) -> bool {
    // It is mostly one of the last.
    book.kept().iter().rev().any(|own| own.image == image)
}

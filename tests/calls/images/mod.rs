//! Images to return to: ways to change an image so that it is another one or no
//! image at all.

mod bytes;
mod digits;
mod elsewhere;
mod lines;
mod marks;
mod order;
mod own;
mod parts;

pub use elsewhere::{elsewhere, small};
pub use own::{is_own, own};

use crate::plain::book::RECORD;
use crate::random::Random;

/// The records of an image.
type Records = Vec<Vec<u8>>;

/// A way to change an image; where it has nothing to change it leaves the image
/// as it is.
type Way = fn(&mut Random, &mut Records);

/// Two stand here twice, as much follows on them. Rounds go through the ways with their
/// own turns of ten, so that the number of ways and ten have no divisor in common.
static WAYS: [Way; 51] = [
    lines::respaced,
    lines::refused_3,
    lines::refused_4,
    lines::refused_5,
    lines::refused_6,
    lines::refused_8,
    lines::filled,
    lines::filled,
    marks::others,
    marks::none,
    marks::all,
    marks::highest_alone,
    marks::zero_too,
    digits::eight,
    digits::mixed,
    digits::mixed,
    digits::eight_any,
    digits::none,
    digits::seven,
    digits::nine,
    digits::fifteen,
    digits::seventeen,
    digits::eight_and_eight,
    digits::exchanged,
    digits::small_letters,
    digits::small_upper,
    digits::edge,
    digits::space_inside,
    marks::above,
    marks::just_above,
    marks::above_eight,
    marks::upper_half,
    marks::shifted,
    marks::other_byte,
    marks::other_kind,
    marks::other_name,
    marks::name_moved,
    order::exchanged,
    order::role_after_rule,
    order::marks_early,
    order::marks_turned,
    order::act,
    order::doubled,
    order::whole_doubled,
    order::dropped,
    order::marks_more,
    order::marks_fewer,
    bytes::changed,
    bytes::cut,
    bytes::longer,
    bytes::random,
];

/// Those that give other marks which the pasts have.
static OTHER_MARKS: [Way; 6] = [
    digits::eight_any,
    marks::others,
    marks::none,
    marks::all,
    marks::highest_alone,
    marks::zero_too,
];

fn by(way: Way, random: &mut Random, image: &[u8]) -> Vec<u8> {
    let mut records: Records = image.chunks(RECORD).map(<[u8]>::to_vec).collect();
    way(random, &mut records);
    records.concat()
}

/// The image changed in the way whose turn it is.
pub fn changed(random: &mut Random, turn: usize, image: &[u8]) -> Vec<u8> {
    by(WAYS[turn % WAYS.len()], random, image)
}

/// The image with all its marks in eight digits; those above 31 are gone then.
pub fn in_eight_digits(random: &mut Random, image: &[u8]) -> Vec<u8> {
    by(digits::eight, random, image)
}

/// The image with marks from which a long past goes on, often those of eight digits.
pub fn with_long_marks(random: &mut Random, image: &[u8]) -> Vec<u8> {
    let ways: [Way; 4] = [
        digits::eight_any,
        digits::eight_any,
        marks::all,
        marks::highest_alone,
    ];
    by(*random.pick(&ways), random, image)
}

/// The image changed in such a way that it is still one, mostly.
pub fn still_an_image(random: &mut Random, image: &[u8]) -> Vec<u8> {
    let way = match random.below(10) {
        0..=3 => lines::respaced,
        4 => lines::filled,
        5 => digits::eight,
        6 => digits::mixed,
        _ => *random.pick(&OTHER_MARKS),
    };
    by(way, random, image)
}

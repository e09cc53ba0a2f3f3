//! Sessions of calls or of operations whose counts, sums or kinds don't fit: 11, and nothing written.

use crate::flat::Flat;
use crate::operations::HIGHEST_KIND;
use crate::random::Random;

/// One thing that doesn't fit. Sums that fit again after a turn of 32 bits don't fit either.
fn spoil(random: &mut Random, f: &mut Flat) {
    match random.below(8) {
        0 => f.lengths.push(0),
        1 => f.sizes.push(0),
        2 => f.numbers.push(200),
        3 => f.records.push(b'E'),
        4 => f.replies.push(7),
        5 => shift(random, &mut f.lengths),
        6 => shift(random, &mut f.sizes),
        _ => {
            f.lengths.extend([u32::MAX, 1]);
            f.sizes.extend([1, u32::MAX]);
            f.numbers.extend([201, 202]);
            // As many kinds and counts, so that the sums alone don't fit.
            f.counts.extend([u32::MAX, u32::MAX]);
            f.kinds.iter_mut().for_each(|kinds| kinds.extend([0, 1]));
        }
    }
}

/// One of the counts higher or lower by one, or high above.
fn shift(random: &mut Random, counts: &mut Vec<u32>) {
    let by = *random.pick(&[1, 1 << 31, u32::MAX]);
    if counts.is_empty() {
        return counts.push(by);
    }
    let at = random.below(counts.len());
    counts[at] = counts[at].wrapping_add(by);
}

/// What only operations have: a kind too many or too few, or one that is none of
/// the four; a count too many or too few.
fn spoil_operations(random: &mut Random, kinds: &mut Vec<u8>, counts: &mut Vec<u32>) {
    let at = random.below(kinds.len());
    match random.below(6) {
        0 => kinds.push(random.below(4) as u8),
        1 => drop(kinds.pop()),
        2 => counts.push(u32::MAX),
        3 => drop(counts.pop()),
        _ => kinds[at] = *random.pick(&[HIGHEST_KIND + 1, 128, 255]),
    }
}

/// What was asked, made so that it doesn't fit.
pub fn made(random: &mut Random, mut f: Flat) -> Flat {
    match &mut f.kinds {
        Some(kinds) if random.chance(50) => spoil_operations(random, kinds, &mut f.counts),
        _ => spoil(random, &mut f),
    }
    f
}

/// What is wrong with the answer to what doesn't fit.
pub fn wrong(f: &Flat) -> Option<String> {
    let given = f.clone().ask();
    if given.told != 11 {
        let told = given.told;
        return Some(format!("a session that doesn't fit gives {told}, not 11"));
    }
    let as_lent = f.replies[..] == given.replies[..]
        && f.numbers[..] == given.numbers[..]
        && f.counts[..] == given.counts[..];
    if as_lent {
        return None;
    }
    Some("a session that doesn't fit gives 11, but something is written".to_string())
}

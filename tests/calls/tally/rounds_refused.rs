//! What is seen in rounds that are refused.

use super::restores::lines;
use super::rounds::{used, Before};
use super::Tally;
use crate::batch;
use crate::keeping::MOST;
use crate::plain::book::RECORD;
use crate::plain::image::image;
use crate::plain::reply::LENGTH;
use crate::plain::restore::restored;
use crate::plain::session_book::NO_IMAGE;
use crate::rounds::{Outcome, Round, BUFFER, WRONG_BUFFER};

impl Tally {
    pub(super) fn round_refused(&mut self, before: &Before, round: &Round, number: u32) {
        let wrong_buffer = number == u32::from(WRONG_BUFFER);
        let no_image = number == u32::from(NO_IMAGE);
        // What is looked at later and would be due as well.
        let image_too = wrong_buffer && round.no_image();
        let batch_too = (wrong_buffer || no_image) && round.batch.turned_away();
        let by = match wrong_buffer {
            true if round.image.len() != BUFFER => " by size",
            true => " by used number",
            false => "",
        };
        let too = match (image_too, batch_too) {
            (false, false) => "alone",
            (true, false) => "with 12 due too",
            (false, true) => "with 11 due too",
            (true, true) => "with 12 and 11 due too",
        };
        self.count(&format!("round {number}{by} {too}"));
        if wrong_buffer {
            self.wrong_buffer(round);
        } else if no_image {
            self.no_image(before, round);
        } else {
            self.no_batch(before, round);
        }
    }

    fn wrong_buffer(&mut self, round: &Round) {
        let (size, used) = (round.image.len(), round.used as usize);
        // With 32 bits the used bytes come out as some that the buffer has.
        let turned = used > MOST && round.used.wrapping_mul(128) as usize <= BUFFER;
        let what = match size as isize - BUFFER as isize {
            -1 => "one byte less",
            1 => "one byte more",
            -128 => "a record less",
            128 if used == MOST + 1 => "a record more, all used",
            128 => "a record more",
            0 if used == MOST + 1 => "128 used",
            0 if used == MOST + 2 => "129 used",
            0 if used == u32::MAX as usize => "the highest used number",
            0 if turned => "used bytes that fit after a turn of 32 bits",
            0 => "a larger used number",
            _ if size == 0 => "no bytes",
            _ if size == used * RECORD => "just as long as the image",
            _ => return,
        };
        self.count(&format!("round 13: {what}"));
    }

    fn no_image(&mut self, before: &Before, round: &Round) {
        match before.left {
            Some(left) if left.image == round.image => self.other_number(left, round.used),
            Some(left) if left.used == round.used => {
                self.count("round 12: as many used as in the last image")
            }
            _ => {}
        }
    }

    /// The buffer is as the last round left it; the used number alone is wrong.
    fn other_number(&mut self, left: &Outcome, used: u32) {
        if used < left.used {
            return self.count("round 12: fewer used than there are");
        }
        let next = &left.image[left.used as usize * RECORD..][..RECORD];
        let old = matches!(next, [b'L' | b'M', .., b'\n']);
        self.count(match old {
            true => "round 12: more used than there are, old records behind",
            false => "round 12: more used than there are, other bytes behind",
        });
    }

    fn no_batch(&mut self, before: &Before, round: &Round) {
        let (records, replies) = (round.batch.records.len(), round.batch.lent.len());
        let count = records / RECORD;
        let what = match replies as isize - (count * LENGTH) as isize {
            _ if records % RECORD != 0 => "not whole records",
            _ if count == batch::MOST + 1 => "513 records",
            _ if count > batch::MOST => "more records",
            _ if replies == 0 => "no reply bytes",
            1 => "a reply byte more",
            -1 => "a reply byte less",
            50 => "replies for one more",
            _ => "reply bytes of another number",
        };
        self.count(&format!("round 11: {what}"));
        let lent = used(&round.image, round.used);
        if before.is_own(lent) {
            return;
        }
        self.count("round 11: with an image from elsewhere");
        // Keeping would write its lines in another way.
        if restored(lent).map_or(false, |book| lines(&image(&book)) != lines(lent)) {
            self.count("round 11: with other spaces in the image");
        }
    }
}

//! What is seen in rounds that are taken.

use super::restores::{digits, lines};
use super::rounds::{used, Before};
use super::Tally;
use crate::batch;
use crate::keeping::MOST;
use crate::plain::book::RECORD;
use crate::plain::image::image as kept;
use crate::plain::reply::LENGTH;
use crate::plain::restore::restored;
use crate::rounds::{Outcome, Round};

impl Tally {
    pub(super) fn round_taken(&mut self, before: &Before, round: &Round, outcome: &Outcome) {
        self.count("round taken");
        match round.batch.records.len() / RECORD {
            0 => self.count("round taken: no records"),
            batch::MOST => self.count("round taken: 512 records"),
            _ => {}
        }
        self.used_numbers(round.used as usize, outcome.used as usize);
        if round.used > 0 && before.goes_on(round) {
            self.gone_on(before, outcome);
        } else if before.left.is_some() {
            self.other_image(before, round, outcome);
        }
        self.old_records(before, round, outcome);
        self.marks(round, outcome);
        self.upper_half(outcome);
        self.worked(before, round, outcome);
        if outcome
            .replies
            .chunks(LENGTH)
            .any(|r| r.starts_with(b"R 07"))
        {
            self.count("round taken, refusal 7 inside");
        }
    }

    fn upper_half(&mut self, outcome: &Outcome) {
        let written = used(&outcome.image, outcome.used);
        let mut marks = written.chunks(RECORD).filter(|r| r[0] == b'M');
        if marks.any(|record| record[10..18] != *b"00000000") {
            self.count("round taken: a mark above 31 written");
        }
    }

    /// Before and after.
    fn used_numbers(&mut self, from: usize, to: usize) {
        match from {
            0 => self.count("round taken: none used"),
            MOST => self.count("round taken: 127 used"),
            _ => {}
        }
        if to > from {
            self.count("round taken: the image grows");
        }
        if to > from && to == MOST {
            self.count("round taken: the image grows to 127");
        }
        if to < MOST {
            self.count("round taken: bytes past the used records stay");
        }
    }

    /// With the image of the last.
    fn gone_on(&mut self, before: &Before, outcome: &Outcome) {
        self.count("round taken: the image of the last");
        if before.row >= 9 {
            self.count("round taken: the tenth or a later one of one session");
        }
        if before.entered {
            self.count("round taken: gone on after an image from elsewhere");
        }
        // A record taken shows what the monitor holds.
        let taken = outcome.replies.chunks(LENGTH).any(|r| r[0] != b'R');
        if taken && before.number != 0 {
            self.count(&format!("round {}, a record taken next", before.number));
        }
    }

    fn other_image(&mut self, before: &Before, round: &Round, outcome: &Outcome) {
        let image = used(&round.image, round.used);
        if before.is_own(image) {
            return self.count(match before.entered {
                false => "round taken: an own image other than the last",
                true => "round taken: an own image after one from elsewhere",
            });
        }
        self.count("round taken: an image from elsewhere");
        self.digits(image);
        let left = before.left.map(|left| used(&left.image, left.used));
        let as_kept = restored(image).map(|book| kept(&book));
        let other = |left: &[u8]| as_kept.map_or(false, |kept| kept != left);
        if left.map_or(false, |left| lines(left) == lines(image) && other(left)) {
            self.count("round taken: the last image with other marks");
        }
        let written = lines(used(&outcome.image, outcome.used));
        if lines(image).iter().all(|line| written.contains(line)) {
            return;
        }
        self.count("round taken: other spaces, lines written anew");
        if round.batch.records.is_empty() {
            self.count("round taken: no records, lines written anew");
        }
    }

    fn digits(&mut self, image: &[u8]) {
        let eight = digits(image);
        match eight.iter().filter(|&&eight| eight).count() {
            0 => {}
            count if count == eight.len() => self.count("round taken: eight digits"),
            _ => self.count("round taken: eight and sixteen digits mixed"),
        }
    }

    /// Records of the last image that stand behind a smaller one.
    fn old_records(&mut self, before: &Before, round: &Round, outcome: &Outcome) {
        let Some(left) = before.left else {
            return;
        };
        let behind = outcome.used as usize * RECORD..left.used as usize * RECORD;
        if !behind.is_empty() && round.image[behind.clone()] == left.image[behind] {
            self.count("round taken: a smaller image, old records behind it");
        }
    }

    /// The same lines as before with other marks.
    fn marks(&mut self, round: &Round, outcome: &Outcome) {
        let lent = used(&round.image, round.used);
        let written = used(&outcome.image, outcome.used);
        if lent.len() == written.len() && lent != written && lines(lent) == lines(written) {
            self.count("round taken: marks written anew");
        }
    }

    /// Acts that are worked by rules which the image brought.
    fn worked(&mut self, before: &Before, round: &Round, outcome: &Outcome) {
        let replies = || outcome.replies.chunks(LENGTH);
        let image = used(&round.image, round.used);
        let marks: Vec<&[u8]> = image.chunks(RECORD).filter(|r| r[0] == b'M').collect();
        let brought = |name: &[u8]| marks.iter().any(|record| record[1..9] == *name);
        let held = replies().any(|r| r[0] == b'H' && brought(&r[5..13]));
        // Without a line taken there are no other rules.
        let no_line = replies().all(|r| r[0] != b'D');
        let committed = no_line && replies().any(|r| r[0] == b'C' && r[2..4] != *b"00");
        let by = match before.entered || !before.is_own(image) {
            false => ["a rule of the image", "rules of the image"],
            true => ["a rule with given marks", "rules with given marks"],
        };
        if held {
            self.count(&format!("round taken: an act held by {}", by[0]));
        }
        if committed {
            self.count(&format!(
                "round taken: an act worked by {}, committed",
                by[1]
            ));
        }
    }
}

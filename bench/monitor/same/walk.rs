//! One pass over a past's code for one event.

use super::matcher::Matcher;
use super::summary::Summary;

/// Where a spelling ends, and what the pass found of it.
#[derive(Clone, Copy)]
pub struct Walk {
    pub end: usize,
    pub summary: Summary,
}

/// A row with the event, and the positions held before it.
#[derive(Clone, Copy)]
pub struct Step<'a> {
    pub matcher: Matcher<'a>,
    pub positions: u64,
}

impl Step<'_> {
    /// Where the stars from a place on end.
    fn stars_end(&self, at: usize) -> usize {
        let mut end = at;
        while self.matcher.byte(end) == b'*' {
            end += 1;
        }
        end
    }

    /// `()`, or a past in round brackets, from the bracket on.
    fn bracketed(&self, at: usize, next: usize) -> Walk {
        let inside = at + 1;
        if self.matcher.byte(inside) == b')' {
            return Walk {
                end: inside + 1,
                summary: Summary::nothing(next),
            };
        }
        let past = self.past(inside, next);
        Walk {
            end: past.end + 1,
            ..past
        }
    }

    /// The same with its stars. One says as much as many.
    fn factor(&self, at: usize, next: usize) -> Walk {
        let base = self.bracketed(at, next);
        let end = self.stars_end(base.end);
        if end == base.end {
            return base;
        }
        Walk {
            end,
            summary: base.summary.repeated(),
        }
    }

    /// One factor more.
    fn further(&self, walk: &mut Walk) {
        if self.matcher.byte(walk.end) == b'(' {
            let factor = self.factor(walk.end, walk.summary.next);
            walk.end = factor.end;
            walk.summary = walk.summary.in_order(factor.summary);
            return;
        }
        let (stars, met) = self.matcher.pattern(walk.end);
        walk.end = self.stars_end(stars);
        let starred = walk.end != stars;
        walk.summary = walk.summary.then_pattern(self.positions, met, starred);
    }

    /// Factors side by side.
    fn sequence(&self, at: usize, next: usize) -> Walk {
        let mut walk = Walk {
            end: at,
            summary: Summary::nothing(next),
        };
        loop {
            self.further(&mut walk);
            if !matches!(self.matcher.byte(walk.end), b'a' | b'<' | b'[' | b'(') {
                return walk;
            }
        }
    }

    /// A past, its patterns numbered from `next` on: sequences to choose from.
    pub fn past(&self, at: usize, next: usize) -> Walk {
        let mut walk = self.sequence(at, next);
        while self.matcher.byte(walk.end) == b'+' {
            let other = self.sequence(walk.end + 1, walk.summary.next);
            walk = Walk {
                end: other.end,
                summary: walk.summary.one_of(other.summary),
            };
        }
        walk
    }
}

//! What one pass over a past finds for one event, put together from what it finds of the parts.

/// Of a part of a past: the number of the pattern after it; whether it allows the empty list; whether a position held may end it; the patterns that may begin
/// it and that the event meets; those that the event leads to from a position held; those that may end it.
#[derive(Clone, Copy)]
pub struct Summary {
    pub next: usize,
    nullable: bool,
    ending: bool,
    first: u64,
    moved: u64,
    last: u64,
}

fn only_if(b: bool, set: u64) -> u64 {
    if b {
        set
    } else {
        0
    }
}

impl Summary {
    /// `()`, before the pattern numbered `next`.
    pub fn nothing(next: usize) -> Summary {
        Summary {
            next,
            nullable: true,
            ending: false,
            first: 0,
            moved: 0,
            last: 0,
        }
    }

    /// Side by side.
    pub fn in_order(self, second: Summary) -> Summary {
        let entered = second.moved | only_if(self.ending, second.first);
        Summary {
            next: second.next,
            nullable: self.nullable && second.nullable,
            ending: second.ending || second.nullable && self.ending,
            first: self.first | only_if(self.nullable, second.first),
            moved: self.moved | entered,
            last: second.last | only_if(second.nullable, self.last),
        }
    }

    /// The pattern numbered next, side by side after this, with a star or without, at the positions held; `met` says whether the event meets it.
    pub fn then_pattern(self, positions: u64, met: bool, starred: bool) -> Summary {
        // a line has no room for a pattern that has no bit
        let place = 1 << self.next;
        let held = positions & place != 0;
        let entered = only_if(met, place);
        let next = self.next + 1;
        let first = self.first | only_if(self.nullable, entered);
        if starred {
            let ending = held | self.ending;
            return Summary {
                next,
                nullable: self.nullable,
                ending,
                first,
                moved: self.moved | only_if(ending, entered),
                last: place | self.last,
            };
        }
        Summary {
            next,
            nullable: false,
            ending: held,
            first,
            moved: self.moved | only_if(self.ending, entered),
            last: place,
        }
    }

    /// Either.
    pub fn one_of(self, other: Summary) -> Summary {
        Summary {
            next: other.next,
            nullable: self.nullable || other.nullable,
            ending: self.ending || other.ending,
            first: self.first | other.first,
            moved: self.moved | other.moved,
            last: self.last | other.last,
        }
    }

    /// A star.
    pub fn repeated(self) -> Summary {
        Summary {
            nullable: true,
            moved: self.moved | only_if(self.ending, self.first),
            ..self
        }
    }

    /// The positions after the event, from those before it.
    pub fn moved_on(self, positions: u64) -> u64 {
        self.moved | only_if(positions & 1 == 1, self.first)
    }

    /// The positions at which the past may end, 0 where it allows the empty list.
    pub fn ends(self) -> u64 {
        self.last | u64::from(self.nullable)
    }
}

//! What a run has seen, and what it must have seen.

#[derive(Default)]
pub struct Counts {
    pub pasts: usize,
    pub over_empty: usize,
    pub nested: usize,
    pub full: usize,
    pub long: usize,
    /// Those with as many patterns as a line has room for.
    pub most: usize,
    pub pairs: usize,
    pub long_pairs: usize,
    pub matched: usize,
    pub full_matched: usize,
    pub long_matched: usize,
    pub prefixes: usize,
    pub prefixes_matched: usize,
    pub positions: usize,
    /// Of the positions those from 20 to 31, those from 32 on, and the highest that any past has.
    pub upper: usize,
    pub high: usize,
    pub highest: usize,
}

impl Counts {
    fn lines(&self) -> [(&'static str, usize); 19] {
        [
            ("  pasts", self.pasts),
            ("    with 20 to 31 patterns", self.full),
            ("    pasts with 32 to 55 patterns", self.long),
            ("    with 55 patterns", self.most),
            (
                "    with a star over a part that can be empty",
                self.over_empty,
            ),
            ("    with nested stars over such a part", self.nested),
            ("  pairs of a past and a list of events", self.pairs),
            ("    pairs with 32 to 55 patterns", self.long_pairs),
            ("    pairs matched", self.matched),
            ("    matched, with 20 to 31 patterns", self.full_matched),
            ("    matched, with 32 to 55 patterns", self.long_matched),
            ("    pairs not matched", self.pairs - self.matched),
            ("  prefixes compared", self.prefixes),
            ("    prefixes matched", self.prefixes_matched),
            (
                "    prefixes not matched",
                self.prefixes - self.prefixes_matched,
            ),
            ("  positions held at the end, all the same", self.positions),
            ("    of which 20 to 31", self.upper),
            ("    of which 32 to 55", self.high),
            ("    of which 55", self.highest),
        ]
    }

    pub fn print(&self) {
        for (what, times) in self.lines() {
            println!("{what:<46}{times:>9}");
        }
    }

    /// What never occurred.
    pub fn missing(&self) -> Vec<&'static str> {
        let lines = self.lines();
        let unseen = lines.into_iter().filter(|(_, times)| *times == 0);
        unseen.map(|(what, _)| what.trim()).collect()
    }
}

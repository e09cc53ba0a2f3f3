//! Calls or operations in the form that the library takes, and what it gives back.

use crate::session::Answer;
use crate::stand;

#[derive(Clone, Default)]
pub struct Flat {
    /// The kinds of the operations; nothing for a session of calls.
    pub kinds: Option<Vec<u8>>,
    pub records: Vec<u8>,
    pub lengths: Vec<u32>,
    pub replies: Vec<u8>,
    pub sizes: Vec<u32>,
    pub numbers: Vec<u8>,
    /// Of operations alone: how many records keeping wrote.
    pub counts: Vec<u32>,
}

/// What the library gives back: its number, and the buffers that it writes to.
pub struct Given {
    pub told: u32,
    pub replies: Box<[u8]>,
    pub numbers: Box<[u8]>,
    pub counts: Box<[u32]>,
}

impl Flat {
    /// One more: the record bytes that it has, and its reply buffer as lent.
    pub fn push(&mut self, records: &[u8], lent: &[u8]) {
        self.records.extend(records);
        self.lengths.push(records.len() as u32);
        self.replies.extend(lent);
        self.sizes.push(lent.len() as u32);
        // No number and no count is as high as these, so that one left unwritten shows.
        let at = self.numbers.len();
        self.numbers.push(200 + (at % 50) as u8);
        self.counts.push(4_000_000_000 + at as u32);
    }

    /// Each buffer is a block of just its length, so that a step out of one shows under valgrind.
    pub fn ask(self) -> Given {
        let records = self.records.into_boxed_slice();
        let lengths = self.lengths.into_boxed_slice();
        let mut replies = self.replies.into_boxed_slice();
        let sizes = self.sizes.into_boxed_slice();
        let mut numbers = self.numbers.into_boxed_slice();
        let mut counts = self.counts.into_boxed_slice();
        let told = match self.kinds.map(Vec::into_boxed_slice) {
            None => stand::session(&records, &lengths, &mut replies, &sizes, &mut numbers),
            Some(kinds) => stand::operations(
                &kinds,
                &records,
                &lengths,
                &mut replies,
                &sizes,
                &mut numbers,
                &mut counts,
            ),
        };
        Given {
            told,
            replies,
            numbers,
            counts,
        }
    }

    /// The library's answers, or the number by which the whole is refused.
    fn answers(mut self) -> Result<Vec<Answer>, u32> {
        if self.kinds.is_none() {
            // Calls have no counts of records.
            self.counts.fill(0);
        }
        let sizes = self.sizes.clone();
        let given = self.ask();
        if given.told != 0 {
            return Err(given.told);
        }
        // The parts make up the whole buffer, so no byte of it goes uncompared.
        let mut rest = &given.replies[..];
        let mut answers = Vec::new();
        for (at, &size) in sizes.iter().enumerate() {
            let (reply, after) = rest.split_at(size as usize);
            answers.push(Answer {
                number: given.numbers[at],
                reply: reply.to_vec(),
                count: given.counts[at],
            });
            rest = after;
        }
        Ok(answers)
    }

    /// The first place where the library answers differently, as `told` puts it:
    /// by the place, the answer due and the library's.
    pub fn difference(
        self,
        due: &[Answer],
        told: impl Fn(usize, &Answer, &Answer) -> String,
    ) -> Option<String> {
        let library = match self.answers() {
            Ok(library) => library,
            Err(number) => return Some(format!("the whole session is refused by {number}")),
        };
        assert_eq!(due.len(), library.len(), "an answer due to each");
        let at = due.iter().zip(&library).position(|(d, l)| d != l)?;
        Some(told(at, &due[at], &library[at]))
    }
}

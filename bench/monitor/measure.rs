//! The three monitors over the same session: first the same answers, then the times.

use crate::clock::Least;
use crate::session::{all_begin, Answers, Session};
use crate::{fast, host, proved, same};

/// Operations `from` .. `to` of a session are measured: the time of the first `to` less that of the first `from`, for each of `count` parts. Each reply of
/// theirs must begin with `reply`.
pub struct Case<'a> {
    pub name: &'a str,
    pub session: &'a Session,
    pub from: usize,
    pub to: usize,
    pub count: usize,
    pub reply: &'a str,
}

/// The three monitors, in the order of the table's columns.
pub const MONITORS: [fn(&Session, usize, &mut Answers); 3] = [
    proved::run,
    |session, count, answers| drop(host::run::<fast::Monitor>(session, count, answers)),
    |session, count, answers| drop(host::run::<same::Monitor>(session, count, answers)),
];

/// The nanoseconds of one part, by each monitor.
pub type Cost = [f64; 3];

/// How long to go on with one case, in nanoseconds, and how many rounds it has at the least.
const ENOUGH: f64 = 3e9;
const ROUNDS: usize = 6;

/// Stops the program where the answers of two monitors differ: nothing is timed that is not the same work.
fn alike(name: &str, session: &Session, ours: &Answers, theirs: &Answers) {
    let differ = |&k: &usize| {
        let replies = session.replies(k..k + 1);
        ours.numbers[k] != theirs.numbers[k]
            || ours.counts[k] != theirs.counts[k]
            || ours.replies[replies.clone()] != theirs.replies[replies]
    };
    if ours.replies != theirs.replies
        || ours.numbers != theirs.numbers
        || ours.counts != theirs.counts
    {
        let k = (0..session.len()).find(differ).unwrap_or(session.len());
        panic!("{name}: the answers to operation {k} differ");
    }
}

/// The answers to the first `count` operations, which are the same from all three.
pub fn compare(name: &str, session: &Session, count: usize) -> Answers {
    let [ours, tables, theirs] = MONITORS.map(|run| {
        let mut answers = session.answers();
        run(session, count, &mut answers);
        answers
    });
    alike(&format!("{name}, with tables"), session, &ours, &tables);
    alike(
        &format!("{name}, of the same steps"),
        session,
        &ours,
        &theirs,
    );
    ours
}

impl Case<'_> {
    fn check(&self) {
        let answers = compare(self.name, self.session, self.to);
        let replies = self.session.replies(self.from..self.to);
        let alike = all_begin(&answers.replies[replies], self.reply);
        assert!(alike, "{}: not every reply is {}", self.name, self.reply);
    }

    /// The least times of several rounds. Each round has all six runs, so that what slows the machine for a while slows all.
    pub fn cost(&self) -> Cost {
        self.check();
        let mut answers = self.session.answers();
        let mut least = [(); 3].map(|()| [Least::new(), Least::new()]);
        let (mut spent, mut rounds) = (0.0, 0);
        while rounds < ROUNDS || spent < ENOUGH {
            for (run, [before, after]) in MONITORS.iter().zip(&mut least) {
                spent += before.take(|| run(self.session, self.from, &mut answers));
                spent += after.take(|| run(self.session, self.to, &mut answers));
            }
            rounds += 1;
        }
        least.map(|[before, after]| after.beyond(&before, self.count))
    }
}

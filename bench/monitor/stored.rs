//! Sessions on which the three monitors are compared before anything is measured.

use crate::measure::compare;
use crate::session::{all_begin, Session};
use crate::sheets;

/// Every stored session, which has what no sheet here has, refusals above all; and two sheets.
pub fn compare_all(directory: &str) {
    let mut sessions = 0;
    for entry in std::fs::read_dir(directory).expect(directory) {
        let path = entry.expect(directory).path();
        if path.extension().map_or(true, |e| e != "rec") {
            continue;
        }
        let session = Session::of_bytes(&std::fs::read(&path).expect(directory));
        compare(&path.display().to_string(), &session, session.len());
        sessions += 1;
    }
    assert!(sessions > 0, "{directory}: no session");
    println!("{sessions} stored sessions: the same replies from all three");
    compare_asked("heavy");
    compare_asked("long");
}

/// The acts of an offer, and `z` after runs of every length up to 39: every rule of the sheet has it for a trigger.
fn asking(acts: &[&'static str]) -> Vec<&'static str> {
    let mut plain = acts.iter().copied().cycle();
    let mut asking = Vec::new();
    for run in (0..40).cycle().take(400) {
        asking.extend(plain.by_ref().take(run));
        asking.push("z");
    }
    asking
}

/// A sheet whose rules no act that is measured meets, with acts among those that meet them all: such an act is held by the last of the rules whose past
/// matches, so that the positions show.
fn compare_asked(name: &str) {
    let offer = sheets::offer(name);
    let acts = asking(offer.acts);
    let session = Session::new(&offer.sheet, &acts, acts.len());
    let answers = compare(name, &session, session.len());
    let replies = answers.replies.chunks(50);
    let held = replies.filter(|reply| all_begin(reply, "H 01")).count();
    assert!(held > 0, "{name}: no act is held");
    println!("{name}, {held} acts held: the same replies from all three");
}

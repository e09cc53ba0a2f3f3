//! What is measured, row by row.

use crate::measure::Case;
use crate::session::{records, Kind, Session, RECORD, REPLY};
use crate::sheets::{offer, Offer};
use crate::{fast, host, layout, proved, same, table};

/// The most records of a batch, and the bytes of the largest image.
const BATCH: usize = 512;
const IMAGE: usize = 127 * RECORD;

/// One row: `count` acts, after the sheet and `before` acts.
fn acts(name: &str, sheet: &str, before: usize, count: usize) {
    let offer = offer(sheet);
    let from = offer.sheet.len() + before;
    let case = Case {
        name,
        session: &Session::new(&offer.sheet, offer.acts, before + count),
        from,
        to: from + count,
        count,
        reply: offer.reply,
    };
    table::row(name, case.cost());
}

/// One row: the rule lines of a sheet.
fn rules(name: &str, sheet: &str) {
    let sheet = offer(sheet).sheet;
    let rule = |line: &String| line.starts_with("Lrule");
    let from = sheet.iter().position(rule).expect("a rule");
    let case = Case {
        name,
        session: &Session::new(&sheet, &[], 0),
        from,
        to: sheet.len(),
        count: sheet.len() - from,
        reply: "D 00",
    };
    table::row(name, case.cost());
}

/// A sheet, and then batches of its acts.
pub fn batches(offer: &Offer, count: usize) -> Session {
    let mut session = Session::new(&offer.sheet, &[], 0);
    let records = records(&[], offer.acts, BATCH);
    for _ in 0..count {
        session.add(Kind::Batch, &records, BATCH * REPLY);
    }
    session
}

/// One row: the acts of a sheet in batches.
fn batch(name: &str, sheet: &str, count: usize) {
    let offer = offer(sheet);
    let from = offer.sheet.len();
    let case = Case {
        name,
        session: &batches(&offer, count),
        from,
        to: from + count,
        count: count * BATCH,
        reply: offer.reply,
    };
    table::row(name, case.cost());
}

/// A sheet and its acts; and then, again and again, the image that they leave is restored and kept.
pub fn images(offer: &Offer, count: usize) -> Session {
    let mut session = Session::new(&offer.sheet, offer.acts, offer.acts.len());
    session.add(Kind::Keep, &[], IMAGE);
    let mut answers = session.answers();
    proved::run(&session, session.len(), &mut answers);
    let kept = session.len() - 1;
    let image = &answers.replies[session.replies(kept..kept + 1)];
    let image = &image[..answers.counts[kept] as usize * RECORD];
    for _ in 0..count {
        session.add(Kind::Restore, image, 0);
        session.add(Kind::Keep, &[], image.len());
    }
    session
}

/// One row: the image of a sheet is restored and kept.
fn image(name: &str, sheet: &str, count: usize) {
    let session = images(&offer(sheet), count);
    let case = Case {
        name,
        session: &session,
        from: session.len() - 2 * count,
        to: session.len(),
        count,
        reply: "",
    };
    table::row(name, case.cost());
}

/// One row: the state that a sheet leaves. No act makes it larger.
fn state(name: &str, sheet: &str) {
    let session = Session::new(&offer(sheet).sheet, &[], 0);
    let tables: fast::Monitor = host::run(&session, session.len(), &mut session.answers());
    let same = std::mem::size_of::<same::Monitor>();
    table::sizes(name, [layout::STATE, tables.bytes(), same]);
}

pub fn all() {
    table::head();
    acts("no rule, an act", "bare", 0, 10_000);
    acts("light, an act", "light", 0, 10_000);
    acts("light, an act held", "held", 0, 10_000);
    acts("light, an act sent on", "sent", 0, 10_000);
    acts("heavy, an act", "heavy", 200, 1_000);
    acts("long, an act", "long", 200, 1_000);
    acts("worst, an act", "worst", 0, 2);
    acts("nested, an act", "nested", 0, 2);
    batch("light, an act of a batch", "light", 20);
    acts("light, after 1,000 acts", "light", 1_000, 2_000);
    acts("light, after 10,000 acts", "light", 10_000, 10_000);
    acts("light, after 100,000 acts", "light", 100_000, 50_000);
    acts("light, after 1,000,000 acts", "light", 1_000_000, 250_000);
    rules("light, a rule line", "light");
    rules("heavy, a rule line", "heavy");
    rules("long, a rule line", "long");
    image("full, restored and kept", "full", 20);
    state("light, the state", "light");
    state("heavy, the state", "heavy");
    state("long, the state", "long");
}

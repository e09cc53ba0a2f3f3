//! One session through the book and the library: its calls, questions to the judge
//! about it, the same calls as operations, with images kept and restored between them,
//! some that don't fit, and the same calls in rounds.

use crate::cut::cut;
use crate::file;
use crate::flat::Flat;
use crate::image_session;
use crate::images;
use crate::judging;
use crate::kinds::KINDS;
use crate::misfit;
use crate::operations::{self, Operation};
use crate::rounds;
use crate::session::{self, Call};
use crate::stage::Stage;
use crate::tally::Tally;

/// Why it failed, and the text by which it is replayed.
pub type Failed = (String, String);

/// The session of that number, as it was made.
pub fn compare(number: usize, stage: &mut Stage, tally: &mut Tally) -> Result<(), Failed> {
    compare_calls(stage, tally)?;
    compare_judge(stage, tally)?;
    compare_misfit(stage, session::flat(&stage.calls), tally)?;
    compare_operations(number, stage, tally)?;
    compare_image_sessions(number, stage, tally)?;
    compare_runs(number, stage, tally)?;
    // What the book and the library agree on may still be what can't be. The calls are kept; it may have been seen in a session with other operations among them.
    match tally.forbidden() {
        Some(what) => Err((
            format!("seen, and it can't be: {what}"),
            file::calls_text(&stage.calls),
        )),
        None => Ok(()),
    }
}

fn compare_calls(stage: &Stage, tally: &mut Tally) -> Result<(), Failed> {
    if let Some(why) = session::difference(&stage.calls, &stage.answers) {
        return Err((why, file::calls_text(&stage.calls)));
    }
    for (call, answer) in stage.calls.iter().zip(&stage.answers) {
        tally.call(call, answer);
    }
    Ok(())
}

fn compare_judge(stage: &mut Stage, tally: &mut Tally) -> Result<(), Failed> {
    for question in judging::questions(&mut stage.random, &stage.calls) {
        if let Some(why) = judging::difference(&question) {
            return Err((why, file::question_text(&question)));
        }
        tally.judged(&question, judging::by_book(&question));
    }
    Ok(())
}

fn compare_operations(number: usize, stage: &mut Stage, tally: &mut Tally) -> Result<(), Failed> {
    let operations = cut(&mut stage.random, number, &stage.calls);
    let answers = operations::by_book(&operations);
    if let Some(why) = operations::difference(&operations, &answers) {
        return Err((why, file::operations_text(&operations)));
    }
    tally.operations(&operations, &answers);
    compare_misfit(stage, operations::flat(&operations), tally)
}

/// Images come in between, so the calls may meet another monitor than the one
/// that they were made for. A small session has few calls and many images.
fn compare_image_sessions(
    number: usize,
    stage: &mut Stage,
    tally: &mut Tally,
) -> Result<(), Failed> {
    let operations = cut(&mut stage.random, number, &stage.calls);
    compare_image_session(number, stage, operations, 8, tally)?;
    let small = images::small(&mut stage.random).calls;
    let operations = small.into_iter().map(Operation::Call).collect();
    compare_image_session(number, stage, operations, 50, tally)
}

fn compare_image_session(
    number: usize,
    stage: &mut Stage,
    operations: Vec<Operation>,
    steps: usize,
    tally: &mut Tally,
) -> Result<(), Failed> {
    let made = image_session::made(&mut stage.random, number, operations, steps);
    if let Some(why) = operations::difference(&made.operations, &made.answers) {
        return Err((why, file::operations_text(&made.operations)));
    }
    tally.operations(&made.operations, &made.answers);
    tally.watched(&made.watch);
    compare_misfit(stage, operations::flat(&made.operations), tally)
}

/// Rounds over one image buffer: of the session's own calls for every third one, of
/// a small session with many odd rounds for the others; both for one of each kind.
fn compare_runs(number: usize, stage: &mut Stage, tally: &mut Tally) -> Result<(), Failed> {
    let both = number < KINDS.len();
    if both || number % 3 == 0 {
        let own = stage.calls.clone();
        compare_run(number, stage, &own, 8, tally)?;
    }
    if both || number % 3 != 0 {
        let small = images::small(&mut stage.random).calls;
        compare_run(number, stage, &small, 32, tally)?;
    }
    Ok(())
}

fn compare_run(
    number: usize,
    stage: &mut Stage,
    calls: &[Call],
    steps: usize,
    tally: &mut Tally,
) -> Result<(), Failed> {
    let operations = cut(&mut stage.random, number, calls);
    let made = rounds::made(&mut stage.random, number, &operations, steps);
    if let Some(why) = rounds::difference(&made.rounds, &made.due) {
        return Err((why, file::rounds_text(&made.rounds)));
    }
    tally.rounds(&made.rounds, &made.due);
    Ok(())
}

fn compare_misfit(stage: &mut Stage, fitting: Flat, tally: &mut Tally) -> Result<(), Failed> {
    let misfit = misfit::made(&mut stage.random, fitting);
    if let Some(why) = misfit::wrong(&misfit) {
        return Err((why, file::misfit_text(&misfit)));
    }
    tally.misfit(&misfit);
    Ok(())
}

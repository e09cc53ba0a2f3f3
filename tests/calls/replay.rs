//! What failed, once more from its file.

use std::path::Path;

use crate::file::{entry, Entry};
use crate::judging;
use crate::misfit;
use crate::operations::{self, Operation};
use crate::rounds;
use crate::session::{self, Call};

/// Runs a file; says the first difference, or that there is none.
pub fn replay(path: &Path) -> Result<String, String> {
    let wrong = |why: String| format!("calls: {}: {why}", path.display());
    let text = std::fs::read_to_string(path).map_err(|error| wrong(error.to_string()))?;
    let (mut operations, mut rounds) = (Vec::new(), Vec::new());
    for (at, line) in text.lines().enumerate() {
        if line.starts_with('#') {
            continue;
        }
        let read = entry(line).ok_or_else(|| wrong(format!("line {} is of no form", at + 1)))?;
        let apart = match read {
            Entry::Operation(operation) => {
                operations.push(operation);
                None
            }
            Entry::Judge(question) => judging::difference(&question),
            Entry::Misfit(flat) => misfit::wrong(&flat),
            Entry::Round(round) => {
                rounds.push(round);
                None
            }
        };
        apart.map_or(Ok(()), Err)?;
    }
    difference(&operations).map_or(Ok(()), Err)?;
    rounds::difference(&rounds, &rounds::by_book(&rounds)).map_or(Ok(()), Err)?;
    Ok("calls: no difference".to_string())
}

/// Where all are single calls, they are tried as a session of calls too.
fn difference(operations: &[Operation]) -> Option<String> {
    let calls: Option<Vec<Call>> = operations.iter().map(single).collect();
    let apart = calls.and_then(|calls| session::difference(&calls, &session::by_book(&calls)));
    apart.or_else(|| operations::difference(operations, &operations::by_book(operations)))
}

fn single(operation: &Operation) -> Option<Call> {
    match operation {
        Operation::Call(call) => Some(call.clone()),
        _ => None,
    }
}

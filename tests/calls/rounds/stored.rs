//! A stored session as a host runs it: from one call to the next goes nothing but
//! the image and the used number that the library itself left.

use super::BUFFER;
use crate::operations::Operation;
use crate::session::Answer;
use crate::stand;

/// The first batch, counted from 1, whose number or replies are not those due. A
/// single call, of a last record that is too short, is no batch and is passed over.
pub fn stored_difference(operations: &[Operation], due: &[Answer]) -> Option<String> {
    let mut image = vec![0xAA; BUFFER];
    let mut used = 0;
    for (at, (operation, due)) in operations.iter().zip(due).enumerate() {
        let Operation::Batch(batch) = operation else {
            continue;
        };
        let mut replies = batch.lent.clone();
        let told = stand::run(&mut image, used, &batch.records, &mut replies);
        let library = Answer::new((told >> 32) as u8, replies);
        if library != *due {
            return Some(format!("round {}: {}", at + 1, batch.shown(due, &library)));
        }
        used = told as u32;
    }
    None
}

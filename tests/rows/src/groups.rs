//! Rows of groups: members, queues, votes, promises, and the ledger and the service over them.

mod batches;
mod ledgers;
mod members;
mod numbers;
mod plans;
mod promises;
mod queues;
mod seats;
mod takers;
mod votes;

use crate::words::{Answered, RowFault};
use std::alloc::Global;

/// What a row of one of these tables answers.
pub fn answer(alloc: Global, table: &str, rest: &str) -> Answered {
    match table {
        "plan" => members::planned(alloc, rest),
        "member" => members::told(alloc, rest),
        "known" => members::known(alloc, rest),
        "fits" => members::fitting(alloc, rest),
        "queue" => queues::queued(alloc, rest),
        "votes" => votes::counted(alloc, rest),
        "decision" => votes::decided(alloc, rest),
        "request" => promises::requested(alloc, rest),
        "promise" => promises::promised(alloc, rest),
        "acts" => ledgers::brought(alloc, rest),
        "disbands" => ledgers::disbanded(alloc, rest),
        "forward" => ledgers::forwarded(alloc, rest),
        "stray" => ledgers::stray(alloc, rest),
        "same" => ledgers::compared(alloc, rest),
        "batches" => batches::offered(alloc, rest),
        "taken" => takers::taken(alloc, rest),
        _ => Err(RowFault::BadRow),
    }
}

//! Rows of whole runs, over devices in memory that fail or lie, and of audits of the disks that runs leave.

mod audits;
mod devices;
pub mod lies;
mod runs;
mod statuses;
mod texts;
mod told;

use crate::words::{Answered, RowFault};
use std::alloc::Global;

/// What a row of one of these tables answers.
pub fn answer(alloc: Global, table: &str, rest: &str) -> Answered {
    match table {
        "replay" => runs::replayed(alloc, rest),
        "links" => runs::linked(alloc, rest),
        "paxos" => runs::decided(alloc, rest),
        "words" => runs::asked(alloc, rest),
        "status" => statuses::printed(alloc, rest),
        "audit" => audits::audited(alloc, rest),
        "keeps" => audits::kept(alloc, rest),
        _ => Err(RowFault::BadRow),
    }
}

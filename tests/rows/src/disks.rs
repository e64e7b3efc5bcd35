//! Rows of journals on two disks in memory, and of a node over them.

pub mod content;
pub mod desk;
pub mod desks;
mod heard;
mod posts;
mod records;
mod watched;

use crate::words::{Answered, RowFault};
use std::alloc::Global;

/// What a row of one of these tables answers.
pub fn answer(alloc: Global, table: &str, rest: &str) -> Answered {
    match table {
        "disks" => desks::done(alloc, rest),
        "node" => posts::done(alloc, rest),
        _ => Err(RowFault::BadRow),
    }
}

//! Rows of the devices themselves: disks, streams and journals in memory, and those of the system.

mod fabrics;
mod files;
mod folders;
mod memory;
mod pairs;

use crate::words::{Answered, RowFault};

/// What a row of one of these tables answers.
pub fn answer(rt: &HostRuntime, table: &str, rest: &str) -> Answered {
    let alloc = rt.alloc();
    match table {
        "mem-disk" => memory::stopped(alloc, rest),
        "lying-disk" => memory::lied(alloc, rest),
        "mem-fabric" => fabrics::in_memory(alloc, rest),
        "lying-fabric" => fabrics::lied(alloc, rest),
        "tcp" => fabrics::over_tcp(rt, rest),
        "endpoints" => folders::endpoints(rt, rest),
        "file" => files::moved(alloc, rest),
        "shelf" => folders::kept(rt, rest),
        "pair" => pairs::done(alloc, rest),
        _ => Err(RowFault::BadRow),
    }
}

//! The devices of a run, in memory.
use crate::runs::lies::{held, lies};
use crate::runs::texts::{Row, numbers, registry_text, schedule_text};
use crate::words::RowFault;
use spl_edge::{DeviceError, Disk, MemSink, MemSource, Pair, Shelf, Sink};
use spl_memory::{LyingDisk, LyingFabric};
use std::alloc::Global;

pub fn registry_of(alloc: Global, row: &Row) -> Result<MemSource, RowFault> {
    let failing = numbers(alloc, row.words, "registry-reads=")?;
    Ok(MemSource::new(registry_text(alloc, row)?, failing))
}

pub fn schedule_of(alloc: Global, row: &Row) -> Result<MemSource, RowFault> {
    let failing = numbers(alloc, row.words, "reads=")?;
    Ok(MemSource::new(schedule_text(alloc, row)?, failing))
}

pub fn sink_of(alloc: Global, row: &Row) -> Result<MemSink, RowFault> {
    let failing = numbers(alloc, row.words, "writes=")?;
    Ok(MemSink::new(alloc, failing))
}

/// A sink that has no memory.
#[derive(Drop)]
pub struct FullSink;

impl Sink for FullSink {
    ghost view = { _ };

    fn write(&mut self, _piece: &[u8]) -> Result<usize, DeviceError> {
        Err(DeviceError::NoMemory)
    }
}

/// The names before what a row says of a disk.
#[derive(Clone, Copy)]
struct Names {
    fails: &'static str,
    lies: &'static str,
    holds: &'static str,
}

const D00A: Names = Names {
    fails: "d00a=",
    lies: "d00a-lie=",
    holds: "d00a-holds=",
};

const D00B: Names = Names {
    fails: "d00b=",
    lies: "d00b-lie=",
    holds: "d00b-holds=",
};

const D01A: Names = Names {
    fails: "d01a=",
    lies: "d01a-lie=",
    holds: "d01a-holds=",
};

const D01B: Names = Names {
    fails: "d01b=",
    lies: "d01b-lie=",
    holds: "d01b-holds=",
};

/// A disk. The bytes that it holds before were written by its first call.
fn disk_of(alloc: Global, words: &[&str], names: Names) -> Result<LyingDisk, RowFault> {
    let failing = numbers(alloc, words, names.fails)?;
    let lies = lies(alloc, words, names.lies)?;
    let bytes = held(alloc, words, names.holds)?;
    let mut disk = LyingDisk::new(alloc, failing, lies);
    if !bytes.is_empty() && disk.write_at(0, &bytes).is_err() {
        return Err(RowFault::BadRow);
    }
    Ok(disk)
}

fn pair_of(
    alloc: Global,
    words: &[&str],
    first: Names,
    second: Names,
) -> Result<Pair<LyingDisk>, RowFault> {
    let first = disk_of(alloc, words, first)?;
    let second = disk_of(alloc, words, second)?;
    Ok(Pair { first, second })
}

/// The disks of the node at a position. Of those after the second node a row says nothing.
fn pair_at(alloc: Global, words: &[&str], position: usize) -> Result<Pair<LyingDisk>, RowFault> {
    match position {
        0 => pair_of(alloc, words, D00A, D00B),
        1 => pair_of(alloc, words, D01A, D01B),
        _ => pair_of(alloc, &[], D00A, D00B),
    }
}

/// The disks of sixteen nodes, which tell nothing.
pub fn lying_shelf(alloc: Global, row: &Row) -> Result<Shelf<LyingDisk>, RowFault> {
    let mut pairs = Vec::new(alloc);
    for position in 0..16 {
        pairs.push(pair_at(alloc, row.words, position)?)?;
    }
    Ok(Shelf { pairs })
}

/// A fabric that tells nothing.
pub fn lying_fabric(alloc: Global, row: &Row) -> Result<LyingFabric, RowFault> {
    let failing = numbers(alloc, row.words, "link=")?;
    let lies = lies(alloc, row.words, "link-lie=")?;
    Ok(LyingFabric::new(alloc, failing, lies))
}

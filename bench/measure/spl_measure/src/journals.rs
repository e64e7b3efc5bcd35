//! Journals on disks in memory: records appended, written anew and read.
use crate::Fault;
use spl_trial::{Contents, Kept, PlainDisk, PlainDisks, Row};
use std::alloc::Global;

/// How many records a journal has that is read, where they aren't more bytes than these.
const RECORDS: usize = 10_000;
const BYTES: usize = 6_000_000;

fn blank(alloc: Global) -> PlainDisks {
    PlainDisks {
        first: PlainDisk::blank(alloc),
        second: PlainDisk::blank(alloc),
    }
}

fn row(alloc: Global, bytes: &[u8]) -> Result<Row, Fault> {
    Row::new(Vec::from_slice(alloc, bytes)?).ok_or(Fault::Malformed)
}

fn filled(alloc: Global, disks: &mut PlainDisks, bytes: &[u8], times: u32) -> Result<Kept, Fault> {
    let row = row(alloc, bytes)?;
    let mut kept = Kept::format(alloc, disks)?;
    for _ in 0..times {
        kept = kept.append(alloc, disks, &row)?;
    }
    Ok(kept)
}

/// Appends the record again and again, and tells how many bytes the journal has then.
pub(crate) fn append(alloc: Global, bytes: &[u8], times: u32) -> Result<u64, Fault> {
    let mut disks = blank(alloc);
    let kept = filled(alloc, &mut disks, bytes, times)?;
    Ok(kept.pairing().len())
}

/// Writes records of these bytes anew, again and again, and tells how many bytes the journal has then. The first four bytes
/// are how many of those after them each record has.
pub(crate) fn checkpoint(alloc: Global, bytes: &[u8], times: u32) -> Result<u64, Fault> {
    let [a, b, c, d, bytes @ ..] = bytes else {
        return Err(Fault::Malformed);
    };
    let each = u32::from_be_bytes([*a, *b, *c, *d]);
    let mut contents = Contents::new(alloc);
    for piece in bytes.chunks(each.max(1) as usize) {
        contents = contents.with(alloc, &row(alloc, piece)?)?;
    }
    let mut disks = blank(alloc);
    let mut kept = Kept::format(alloc, &mut disks)?;
    for _ in 0..times {
        kept = kept.checkpoint(alloc, &mut disks, &contents)?;
    }
    Ok(kept.pairing().len())
}

/// Reads a journal of many such records again and again, and tells how many bytes it has.
pub(crate) fn walk(alloc: Global, bytes: &[u8], times: u32) -> Result<u64, Fault> {
    let mut disks = blank(alloc);
    let number = RECORDS.min(BYTES / bytes.len().max(1));
    let mut kept = filled(alloc, &mut disks, bytes, number as u32)?;
    for _ in 0..times {
        kept = Kept::reopen(alloc, &mut disks)?;
    }
    Ok(kept.pairing().len())
}

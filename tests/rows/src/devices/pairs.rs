//! A journal on two disks whose calls fail by their numbers. A row has what is done there, in turn.
use crate::disks::content::{content, told};
use crate::disks::desk::{Desk, fault_text};
use crate::words::{Answered, RowFault, add, long, made, numbers, words};
use spl_edge::{Disk, Pair};
use spl_journal::{JournalFault, Records};
use spl_memory::LyingDisk;
use spl_snapshot::Packed;
use std::alloc::{AllocError, Global};

/// A state that packs into one record, of the byte 07.
struct OneRecord;

impl Packed for OneRecord {
    ghost packed = { _ };

    fn pack(&self, alloc: Global) -> Result<Records, AllocError> {
        let mut records = Records::new(alloc);
        records.push(alloc, &[7])?;
        Ok(records)
    }
}

/// A disk of these bytes, which its first call wrote.
fn disk_of(alloc: Global, calls: &str, word: &str) -> Result<LyingDisk, RowFault> {
    let mut disk = LyingDisk::new(alloc, numbers(alloc, calls)?, Vec::new(alloc));
    match disk.write_at(0, &content(alloc, word)?) {
        Ok(()) => Ok(disk),
        Err(_) => Err(RowFault::BadRow),
    }
}

fn bytes_text(alloc: Global, disks: &Pair<LyingDisk>) -> Answered {
    let mut text = told(alloc, disks.first.bytes())?;
    add(
        &mut text,
        " and ",
        told(alloc, disks.second.bytes())?.as_str(),
    )?;
    Ok(text)
}

/// How many records the journal that counts has, and how long each is.
fn sizes_text(alloc: Global, desk: &mut Desk<LyingDisk>) -> Answered {
    let records = match desk.read(alloc) {
        Ok(records) => records,
        Err(fault) => return fault_text(alloc, fault),
    };
    let mut text = format!(in alloc; "{} records", records.as_slice().len())?;
    for record in records.as_slice() {
        let size = format!(in alloc; "{}", record.bytes().len())?;
        add(&mut text, " ", size.as_str())?;
    }
    Ok(text)
}

fn keep_all(alloc: Global, desk: &mut Desk<LyingDisk>, times: u32) -> Result<(), JournalFault> {
    let record = vec![in alloc; 1u8; 16_000]?;
    for _ in 0..times {
        desk.keep(alloc, &record, &OneRecord)?;
    }
    Ok(())
}

/// Keeps records of 16,000 bytes, with a checkpoint of one record where there is no room for more.
fn keep(alloc: Global, desk: &mut Desk<LyingDisk>, times: u32) -> Answered {
    match keep_all(alloc, desk, times) {
        Ok(()) => made(String::from_str(alloc, "kept")),
        Err(fault) => fault_text(alloc, fault),
    }
}

fn step(alloc: Global, desk: &mut Desk<LyingDisk>, word: &str) -> Answered {
    let (name, rest) = word.split_once('=').unwrap_or((word, ""));
    match name {
        "keep" => keep(alloc, desk, long(rest)?),
        "sizes" => sizes_text(alloc, desk),
        "bytes" => bytes_text(alloc, &desk.disks),
        _ => desk.step(alloc, name, rest),
    }
}

/// What each step answers over two disks of these bytes, whose calls of these numbers fail: FAILING FIRST FAILING SECOND
/// STEP .., where a step is keep=TIMES, sizes, bytes, or one of a desk.
pub fn done(alloc: Global, text: &str) -> Answered {
    let all = words(alloc, text)?;
    let [first_calls, first, second_calls, second, steps @ ..] = all.as_slice() else {
        return Err(RowFault::BadRow);
    };
    let mut desk = Desk::new(Pair {
        first: disk_of(alloc, first_calls, first)?,
        second: disk_of(alloc, second_calls, second)?,
    });
    let mut told = String::new(alloc);
    for word in steps {
        add(&mut told, ", ", step(alloc, &mut desk, word)?.as_str())?;
    }
    Ok(told)
}

//! Disks in memory. A row has what is done on one, in turn.
use crate::disks::desks::fill;
use crate::runs::lies::lie;
use crate::words::{Answered, RowFault, add, halves, long, made, number, numbers, text_of, words};
use spl_edge::{DeviceError, Disk, StopDisk};
use spl_memory::{LyingDisk, MemDisk};
use std::alloc::Global;

/// The most bytes that a step reads.
const MOST: usize = 64;

/// The text of a call's answer, which is a text itself.
pub fn call_text(alloc: Global, done: Result<String, DeviceError>) -> Answered {
    match done {
        Ok(text) => Ok(text),
        Err(DeviceError::NoMemory) => Err(RowFault::NoMemory),
        Err(fault) => made(format!(in alloc; "{fault:?}")),
    }
}

/// The text of a call that answers nothing.
fn done_text(alloc: Global, done: Result<(), DeviceError>) -> Answered {
    match done {
        Ok(()) => made(String::from_str(alloc, "ok")),
        Err(fault) => call_text(alloc, Err(fault)),
    }
}

/// How many bytes came, and which.
pub fn taken_text(alloc: Global, done: Result<usize, DeviceError>, bytes: &[u8]) -> Answered {
    let count = match done {
        Ok(count) => count,
        Err(fault) => return call_text(alloc, Err(fault)),
    };
    let text = text_of(alloc, bytes.get(..count).ok_or(RowFault::BadRow)?)?;
    if text.is_empty() {
        return made(format!(in alloc; "{count}"));
    }
    made(format!(in alloc; "{count} {}", text.as_str()))
}

/// A buffer of so many bytes, with a dot in each.
pub fn buffer(alloc: Global, word: &str) -> Result<Vec<u8>, RowFault> {
    let size = long(word)? as usize;
    if MOST < size {
        return Err(RowFault::BadRow);
    }
    Ok(vec![in alloc; b'.'; size]?)
}

fn read<D: Disk>(alloc: Global, disk: &mut D, rest: &str) -> Answered {
    let (at, size) = halves(rest, ':')?;
    let at = number(at)?;
    let mut bytes = buffer(alloc, size)?;
    let done = disk.read(at, &mut bytes);
    taken_text(alloc, done, &bytes)
}

fn write<D: Disk>(alloc: Global, disk: &mut D, rest: &str) -> Answered {
    let (at, text) = halves(rest, ':')?;
    done_text(alloc, disk.write_at(number(at)?, text.as_bytes()))
}

/// What a step answers on any disk: write=AT:TEXT, read=AT:SIZE, cut=LENGTH or sync.
pub fn step<D: Disk>(alloc: Global, disk: &mut D, word: &str) -> Answered {
    let (name, rest) = word.split_once('=').unwrap_or((word, ""));
    match name {
        "write" => write(alloc, disk, rest),
        "read" => read(alloc, disk, rest),
        "cut" => done_text(alloc, disk.cut(number(rest)?)),
        "sync" => done_text(alloc, disk.sync()),
        _ => Err(RowFault::BadRow),
    }
}

fn arm(alloc: Global, disk: &mut MemDisk, name: &str, call: u32) -> Answered {
    if name == "stop" {
        disk.stop_after(call);
    } else {
        disk.fail_at(call);
    }
    made(String::from_str(alloc, "armed"))
}

/// What a step answers on a disk that is made to stop: stop=CALLS, fail=CALL, pick=FILL, or one of any disk.
fn stopping_step(alloc: Global, disk: &mut MemDisk, word: &str) -> Answered {
    let (name, rest) = word.split_once('=').unwrap_or((word, ""));
    match name {
        "stop" | "fail" => arm(alloc, disk, name, long(rest)?),
        "pick" => {
            disk.pick(alloc, fill(alloc, rest)?)?;
            made(String::from_str(alloc, "picked"))
        }
        _ => step(alloc, disk, word),
    }
}

/// What each step answers on a disk that is made to stop: FAILING STEP ..
pub fn stopped(alloc: Global, text: &str) -> Answered {
    let all = words(alloc, text)?;
    let [calls, steps @ ..] = all.as_slice() else {
        return Err(RowFault::BadRow);
    };
    let mut disk = MemDisk::new(alloc, numbers(alloc, calls)?);
    let mut told = String::new(alloc);
    for word in steps {
        add(
            &mut told,
            ", ",
            stopping_step(alloc, &mut disk, word)?.as_str(),
        )?;
    }
    Ok(told)
}

/// What each step answers on any disk.
pub fn steps<D: Disk>(alloc: Global, disk: &mut D, words: &[&str]) -> Answered {
    let mut told = String::new(alloc);
    for word in words {
        add(&mut told, ", ", step(alloc, disk, word)?.as_str())?;
    }
    Ok(told)
}

/// What each step answers on a disk of which a byte changes with a call: CALL@OFFSET:BYTE STEP ..
pub fn lied(alloc: Global, text: &str) -> Answered {
    let all = words(alloc, text)?;
    let [word, words @ ..] = all.as_slice() else {
        return Err(RowFault::BadRow);
    };
    let lies = vec![in alloc; lie(alloc, word)?]?;
    let mut disk = LyingDisk::new(alloc, Vec::new(alloc), lies);
    steps(alloc, &mut disk, words)
}

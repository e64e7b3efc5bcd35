//! A journal on two disks that are stopped. A row has what is done there, in turn.
use crate::disks::content::{content, told};
use crate::disks::desk::Desk;
use crate::disks::watched::{WatchedDisk, WatchedDisks};
use crate::words::{Answered, RowFault, add, bytes, halves, long, words};
use spl_edge::Fill;
use std::alloc::Global;

/// The fill of a word: old, new or a byte in hex.
pub fn fill(alloc: Global, word: &str) -> Result<Fill, RowFault> {
    match word {
        "old" => Ok(Fill::Old),
        "new" => Ok(Fill::New),
        _ => match bytes(alloc, word)?.as_slice() {
            [byte] => Ok(Fill::Byte(*byte)),
            _ => Err(RowFault::BadRow),
        },
    }
}

/// The text of all bytes of two disks.
pub fn bytes_text(alloc: Global, disks: &mut WatchedDisks) -> Answered {
    let (first, second) = (disks.first.bytes(alloc), disks.second.bytes(alloc));
    let (Ok(first), Ok(second)) = (first, second) else {
        return Err(RowFault::BadRow);
    };
    let mut text = told(alloc, &first)?;
    add(&mut text, " and ", told(alloc, &second)?.as_str())?;
    Ok(text)
}

fn disk_of(alloc: Global, word: &str) -> Result<WatchedDisk, RowFault> {
    WatchedDisk::of(alloc, &content(alloc, word)?)
        .ok()
        .ok_or(RowFault::NoMemory)
}

/// Two disks of the bytes of two words.
pub fn disks_of(alloc: Global, first: &str, second: &str) -> Result<WatchedDisks, RowFault> {
    Ok(WatchedDisks {
        first: disk_of(alloc, first)?,
        second: disk_of(alloc, second)?,
    })
}

fn stop(alloc: Global, disks: &mut WatchedDisks, text: &str) -> Answered {
    let (first, second) = halves(text, ',')?;
    disks.first.stop_after(long(first)?);
    disks.second.stop_after(long(second)?);
    Ok(String::from_str(alloc, "armed")?)
}

fn pick(alloc: Global, desk: &mut Desk<WatchedDisk>, word: &str) -> Answered {
    let fill = fill(alloc, word)?;
    desk.forget();
    desk.disks.first.pick(alloc, fill)?;
    desk.disks.second.pick(alloc, fill)?;
    Ok(String::from_str(alloc, "picked")?)
}

fn step(alloc: Global, desk: &mut Desk<WatchedDisk>, word: &str) -> Answered {
    let (name, rest) = word.split_once('=').unwrap_or((word, ""));
    match name {
        "stop" => stop(alloc, &mut desk.disks, rest),
        "pick" => pick(alloc, desk, rest),
        "bytes" => bytes_text(alloc, &mut desk.disks),
        _ => desk.step(alloc, name, rest),
    }
}

/// What each step answers over two disks of these bytes: FIRST SECOND STEP .., where a step is stop=CALLS,CALLS (of each
/// disk), pick=FILL, bytes, or one of a desk.
pub fn done(alloc: Global, text: &str) -> Answered {
    let all = words(alloc, text)?;
    let [first, second, steps @ ..] = all.as_slice() else {
        return Err(RowFault::BadRow);
    };
    let mut desk = Desk::new(disks_of(alloc, first, second)?);
    let mut told = String::new(alloc);
    for word in steps {
        add(&mut told, ", ", step(alloc, &mut desk, word)?.as_str())?;
    }
    Ok(told)
}

//! Whole runs. A row of `replay` and `links` has the nodes of the registry with commas between them, words on what breaks,
//! a |, and the schedule, in which ; stands for a line feed; one space after the | is no part of it. A row of `paxos` has in
//! place of the nodes the numbers of members and of faults.
//!
//! | word | what it says |
//! |---|---|
//! | `registry-reads=2`, `reads=2`, `writes=1` | the reads of the registry and of the schedule, and the writes that fail, by their numbers with commas between them |
//! | `full` | the sink has no memory |
//! | `d00a=5` | the calls that fail of a disk of the first two nodes, by its name in `links`; in `replay` of the first disk of the first node, and in `paxos` of the disk of m1, by the same name |
//! | `d00a-lie=6@0:00` | with its call 6 the byte at the offset 0 of a disk becomes 00 |
//! | `d00a-holds=00` | the bytes that a disk holds before, which its first call wrote |
//! | `link=1` | the calls of the fabric that fail |
//! | `link-lie=2@6:04` | at its call 2 the byte at the offset 6 of what is taken becomes 04 |
//! | `times=500` | how often the lines of the row stand in the schedule |
//! | `comments=2047x3,5` | lines of so many # before them, and how many, and so with `registry-comments` in the registry |
use crate::runs::devices::{
    FullSink, lying_fabric, lying_shelf, registry_of, schedule_of, sink_of,
};
use crate::runs::texts::{Row, numbers};
use crate::runs::told::told;
use crate::words::{Answered, RowFault, halves, words};
use spl_app::splinter;
use spl_memory::{blank_fabric, blank_shelf, failing_bench};
use spl_edge::{Disk, Fabric, Shelf};
use std::alloc::Global;

/// The names of words that a row of `replay` or `paxos` may have.
const REPLAY: [&str; 7] = [
    "registry-reads=",
    "reads=",
    "writes=",
    "d00a=",
    "times=",
    "comments=",
    "registry-comments=",
];

/// The names of words that a row of `links` may have.
const LINKS: [&str; 20] = [
    "registry-reads=",
    "reads=",
    "writes=",
    "times=",
    "comments=",
    "registry-comments=",
    "link=",
    "link-lie=",
    "d00a=",
    "d00b=",
    "d01a=",
    "d01b=",
    "d00a-lie=",
    "d00b-lie=",
    "d01a-lie=",
    "d01b-lie=",
    "d00a-holds=",
    "d00b-holds=",
    "d01a-holds=",
    "d01b-holds=",
];

fn texts(alloc: Global, words: &[&str]) -> Result<Vec<String>, RowFault> {
    let mut all = Vec::new(alloc);
    for word in words {
        all.push(String::from_str(alloc, word)?)?;
    }
    Ok(all)
}

/// What a run over this shelf and this fabric gives.
fn over<E: Disk, F: Fabric>(
    alloc: Global,
    command: &[&str],
    row: &Row,
    shelf: &mut Shelf<E>,
    fabric: &mut F,
) -> Answered {
    let command = texts(alloc, command)?;
    let mut registry = registry_of(alloc, row)?;
    let mut schedule = schedule_of(alloc, row)?;
    let mut out = sink_of(alloc, row)?;
    let mut disks = failing_bench(alloc, numbers(alloc, row.words, "d00a=")?)?;
    if row.words.contains(&"full") {
        let status = splinter(
            alloc,
            &command,
            &mut registry,
            &mut schedule,
            &mut FullSink,
            &mut disks,
            shelf,
            fabric,
        );
        return told(alloc, &status, &[]);
    }
    let status = splinter(
        alloc,
        &command,
        &mut registry,
        &mut schedule,
        &mut out,
        &mut disks,
        shelf,
        fabric,
    );
    told(alloc, &status, out.bytes())
}

/// A run over devices that tell what they hold.
fn over_telling(alloc: Global, command: &[&str], row: &Row) -> Answered {
    let failing = numbers(alloc, row.words, "link=")?;
    let mut shelf = blank_shelf(alloc)?;
    let mut fabric = blank_fabric(alloc, failing);
    over(alloc, command, row, &mut shelf, &mut fabric)
}

/// A run over devices that don't.
fn over_lying(alloc: Global, command: &[&str], row: &Row) -> Answered {
    let mut fabric = lying_fabric(alloc, row)?;
    let mut shelf = lying_shelf(alloc, row)?;
    over(alloc, command, row, &mut shelf, &mut fabric)
}

/// Whether a row says nothing that devices which tell don't do.
fn may_tell(words: &[&str]) -> bool {
    !words.iter().any(|word| word.starts_with("d0") || word.starts_with("link-lie="))
}

fn ran(alloc: Global, command: &[&str], row: &Row) -> Answered {
    if may_tell(row.words) {
        over_telling(alloc, command, row)
    } else {
        over_lying(alloc, command, row)
    }
}

/// Whether a word has one of these names, or is full.
fn is_known(word: &str, names: &[&str]) -> bool {
    word == "full" || names.iter().any(|name| word.starts_with(*name))
}

/// The words before the |, and the schedule after it.
fn parts<'a>(text: &'a str) -> Result<(&'a str, &'a str), RowFault> {
    let (head, rest) = halves(text, '|')?;
    Ok((head, rest.strip_prefix(' ').unwrap_or(rest)))
}

/// What a run of this command gives, in which words of these names may stand.
fn row_ran(alloc: Global, command: &[&str], names: &[&str], text: &str) -> Answered {
    let (head, schedule) = parts(text)?;
    let all = words(alloc, head)?;
    let [nodes, words @ ..] = all.as_slice() else {
        return Err(RowFault::BadRow);
    };
    if !words.iter().all(|word| is_known(word, names)) {
        return Err(RowFault::BadRow);
    }
    let row = Row {
        nodes,
        words,
        schedule,
    };
    ran(alloc, command, &row)
}

/// What a run of a schedule gives.
pub fn replayed(alloc: Global, text: &str) -> Answered {
    row_ran(alloc, &["replay", "registry", "schedule"], &REPLAY, text)
}

/// What a run over links gives.
pub fn linked(alloc: Global, text: &str) -> Answered {
    let command = ["links", "registry", "schedule", "folder"];
    row_ran(alloc, &command, &LINKS, text)
}

/// What a run of a schedule of Paxos Commit gives. There is a registry beside it.
pub fn decided(alloc: Global, text: &str) -> Answered {
    let (head, schedule) = parts(text)?;
    let all = words(alloc, head)?;
    let [members, faults, words @ ..] = all.as_slice() else {
        return Err(RowFault::BadRow);
    };
    if !words.iter().all(|word| is_known(word, &REPLAY)) {
        return Err(RowFault::BadRow);
    }
    let row = Row {
        nodes: "alpha",
        words,
        schedule,
    };
    ran(alloc, &["paxos", members, faults, "schedule"], &row)
}

/// What a run of these words gives over alpha and an empty schedule: WORD ..
pub fn asked(alloc: Global, text: &str) -> Answered {
    let command = words(alloc, text)?;
    let row = Row {
        nodes: "alpha",
        words: &[],
        schedule: "",
    };
    ran(alloc, &command, &row)
}

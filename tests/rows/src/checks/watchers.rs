//! Lines of watchers, and what they are answered.
use crate::words::{Answered, RowFault, halves, long, made, text_of};
use spl_agree::Place;
use spl_delta::{WatchAnswer, WatchLine, read_watch};
use spl_sched::LineFault;
use std::alloc::Global;

fn line_text(alloc: Global, line: &WatchLine) -> Answered {
    match line {
        WatchLine::Watch {
            node,
            circuit,
            name,
            place,
        } => {
            let node = text_of(alloc, node.bytes())?;
            let circuit = text_of(alloc, circuit.bytes())?;
            let name = text_of(alloc, name.bytes())?;
            let place = place.0;
            made(format!(in alloc; "{circuit}, at {node} {name} watches from {place}"))
        }
        WatchLine::Pull {
            node,
            circuit,
            name,
            count,
        } => {
            let node = text_of(alloc, node.bytes())?;
            let circuit = text_of(alloc, circuit.bytes())?;
            let name = text_of(alloc, name.bytes())?;
            made(format!(in alloc; "{circuit}, at {node} {name} takes {count}"))
        }
    }
}

/// What the line of a watcher says.
pub fn said(alloc: Global, text: &str) -> Answered {
    match read_watch(alloc, text.as_bytes()) {
        Ok(line) => line_text(alloc, &line),
        Err(LineFault::BadLine) => made(format!(in alloc; "bad line")),
        Err(LineFault::NoMemory) => Err(RowFault::NoMemory),
    }
}

fn plain_answer(name: &str) -> Result<WatchAnswer, RowFault> {
    Ok(match name {
        "down" => WatchAnswer::Down,
        "no-circuit" => WatchAnswer::NoCircuit,
        "not-active" => WatchAnswer::NotActive,
        "name-taken" => WatchAnswer::NameTaken,
        "no-watcher" => WatchAnswer::NoWatcher,
        "wrong-circuit" => WatchAnswer::WrongCircuit,
        "too-many-watchers" => WatchAnswer::TooManyWatchers,
        _ => return Err(RowFault::BadRow),
    })
}

fn answer(text: &str) -> Result<WatchAnswer, RowFault> {
    let Ok((name, rest)) = halves(text, ' ') else {
        return plain_answer(text);
    };
    match name {
        "watching" => Ok(WatchAnswer::Watching(Place(long(rest)?))),
        "bad-place" => Ok(WatchAnswer::BadPlace {
            committed: Place(long(rest)?),
        }),
        _ => Err(RowFault::BadRow),
    }
}

/// The text of an answer without deltas: its name, and the number that it has.
pub fn printed(alloc: Global, text: &str) -> Answered {
    let text = answer(text)?.text(alloc)?;
    text_of(alloc, text.bytes())
}

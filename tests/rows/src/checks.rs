//! Rows of the parts below a run: lines, byte forms, definitions, batches, states, answers, frames, parts and registries.

mod answers;
mod batches;
mod definitions;
mod devices;
mod forms;
mod frames;
mod generated;
mod lines;
mod parts;
mod proofs;
mod registries;
mod runs;
mod states;
mod watchers;

use crate::words::{Answered, RowFault};
pub use proofs::Latest;
use std::alloc::Global;

/// What a row of one of these tables answers, after the rows before it.
pub fn answer(alloc: Global, latest: &mut Latest, table: &str, rest: &str) -> Answered {
    match table {
        "line" => lines::said(alloc, rest),
        "names" => lines::named(alloc, rest),
        "form" => forms::read(alloc, rest),
        "cuts" => forms::cuts(alloc, rest),
        "changes" => forms::changes(alloc, rest),
        "definition" => definitions::judged(alloc, rest),
        "same-definition" => definitions::compared(alloc, rest),
        "member" => definitions::service_at(alloc, rest),
        "route" => definitions::routed(alloc, rest),
        "batch" => batches::judged(alloc, rest),
        "same-batch" => batches::compared(alloc, rest),
        "execute" => batches::executed(alloc, rest),
        "answer" => answers::printed(alloc, rest),
        "frames" => frames::framed(alloc, rest),
        "stream" => frames::streamed(alloc, rest),
        "frame" => frames::written(alloc, rest),
        "hello" => frames::greeted(alloc, rest),
        "bodies" => parts::cut(alloc, rest),
        "joined" => parts::joined(alloc, rest),
        "roots" => states::roots(alloc, rest),
        "digest" => states::digest(alloc, rest),
        "value" => states::value(alloc, rest),
        "under" => states::under(alloc, rest),
        "copy" => states::copied(alloc, rest),
        "sha256" => states::sha256(alloc, rest),
        "prove" => proofs::proved(alloc, rest),
        "accept" => proofs::accepted(alloc, latest, rest),
        "check" => proofs::checked(alloc, rest),
        "check-changes" => proofs::changed(alloc, rest),
        "watch-line" => watchers::said(alloc, rest),
        "watch-answer" => watchers::printed(alloc, rest),
        "registry" => registries::read(alloc, rest),
        "source" => devices::taken(alloc, rest),
        "sink" => devices::kept(alloc, rest),
        "generated" => generated::summed(alloc, rest),
        _ => Err(RowFault::BadRow),
    }
}

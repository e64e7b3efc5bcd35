//! The texts of answers, written as often as asked.
use crate::Fault;
use spl_agree::Place;
use spl_answer::append_text;
use spl_base::{Boxed, Listing, Reader};
use spl_circuit::{Definition, Lifecycle, Mark, valid_definitions_have_a_form};
use spl_command::{Batch, Verdict, execute};
use spl_state::State;
use spl_wire::Answer;
use std::alloc::Global;

// Writes the answer again and again, and tells how many bytes that were.
fn written(alloc: Global, answer: &Answer, times: u32) -> Result<u64, Fault> {
    let mut done = 0u64;
    let mut out = Vec::new(alloc);
    for _ in 0..times {
        out.clear();
        append_text(answer, &mut out)?;
        done = done.saturating_add(out.len() as u64);
    }
    Ok(done)
}

/// The detail of the definition at the prefix, which its first member proposed and accepted; 0 bytes
/// where it breaks a rule.
pub(crate) fn detail(alloc: Global, bytes: &[u8], times: u32) -> Result<u64, Fault> {
    let definition = Definition::read(alloc, &mut Reader::new(bytes))?;
    if let Some(_) = definition.fault() {
        return Ok(0);
    }
    valid_definitions_have_a_form();
    let hash = definition.hash(alloc)?;
    let requester = definition.members.get(0).copied();
    let mut accepted = Listing::new(alloc);
    if let Some(node) = requester {
        accepted.push(node)?;
    }
    let answer = Answer::Detail {
        definition: Boxed::new(alloc, definition)?,
        hash: Boxed::new(alloc, hash)?,
        lifecycle: Lifecycle::Proposed,
        mark: Mark::Open,
        accepted,
        requester: Boxed::new(alloc, requester)?,
    };
    written(alloc, &answer, times)
}

/// The receipt of the batch at the prefix on an empty state; 0 bytes where it is none.
pub(crate) fn receipt(alloc: Global, bytes: &[u8], times: u32) -> Result<u64, Fault> {
    let batch = Batch::read(alloc, &mut Reader::new(bytes))?;
    if batch.fault().is_some() {
        return Ok(0);
    }
    let Verdict::Valid(receipts) = execute(alloc, &State::new(), &batch)? else {
        return Ok(0);
    };
    let answer = Answer::Receipt {
        batch: batch.id,
        place: Place(1),
        receipts,
    };
    written(alloc, &answer, times)
}

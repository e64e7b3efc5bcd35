//! Batches. A row has a line that submits one, or form and the bytes of one.
use crate::checks::states::state;
use crate::words::{Answered, RowFault, Telling, bytes, halves, made, receipts_text, state_text};
use spl_base::{Malformed, Reader, Value, Writer};
use spl_command::{Batch, Receipts, Verdict, apply_receipts, execute};
use spl_state::{Draft, State};
use std::alloc::Global;

/// The batch of a row.
fn batch(alloc: Global, text: &str) -> Result<Batch, RowFault> {
    let Some(hex) = text.strip_prefix("form ") else {
        return crate::words::batch(alloc, text);
    };
    let bytes = bytes(alloc, hex)?;
    let mut reader = Reader::new(&bytes);
    match Batch::read(alloc, &mut reader) {
        Ok(batch) => Ok(batch),
        Err(Malformed::NoMemory) => Err(RowFault::NoMemory),
        Err(_) => Err(RowFault::BadRow),
    }
}

fn judged_text(alloc: Global, batch: &Batch) -> Answered {
    if let Some(rule) = batch.fault() {
        return made(format!(in alloc; "breaks rule {rule}"));
    }
    let mut writer = Writer::new(alloc);
    batch.write(alloc, &mut writer)?;
    made(format!(in alloc; "good, {} bytes", writer.bytes().len()))
}

/// The first broken rule, or how many bytes the batch's form has: BATCH.
pub fn judged(alloc: Global, text: &str) -> Answered {
    let batch = batch(alloc, text)?;
    judged_text(alloc, &batch)
}

fn compared_with(alloc: Global, batch: &Batch, line: &str) -> Answered {
    let other = self::batch(alloc, line)?;
    let copy = other.copy(alloc)?;
    let same = if batch.same(&copy) {
        "equal"
    } else {
        "different"
    };
    made(String::from_str(alloc, same))
}

/// Whether a batch and the copy of another are equal: BATCH / BATCH.
pub fn compared(alloc: Global, text: &str) -> Answered {
    let (line, other) = halves(text, '/')?;
    let batch = batch(alloc, line.trim())?;
    compared_with(alloc, &batch, other.trim())
}

/// The text of a state after the receipts.
fn left_text(alloc: Global, state: State, receipts: &Receipts) -> Answered {
    let mut draft = Draft::new(alloc, state);
    apply_receipts(&mut draft, receipts)?;
    state_text(alloc, &draft.finish())
}

/// What a batch is on a state, and the state that it leaves.
fn executed_text(alloc: Global, state: State, batch: &Batch) -> Answered {
    let mut told = Telling::new(alloc);
    match execute(alloc, &state, batch)? {
        Verdict::Valid(receipts) => {
            told.tell("", receipts_text(alloc, &receipts));
            told.tell("\n  ", left_text(alloc, state, &receipts));
        }
        Verdict::Invalid { transaction, cause } => {
            told.tell(
                "",
                made(format!(in alloc; "cause {cause} in transaction {transaction}")),
            );
            told.tell("\n  ", state_text(alloc, &state));
        }
    }
    told.finish()
}

fn executed_on(alloc: Global, words: &str, batch: &Batch) -> Answered {
    if let Some(rule) = batch.fault() {
        return made(format!(in alloc; "breaks rule {rule}"));
    }
    executed_text(alloc, state(alloc, words)?, batch)
}

/// What a batch is on a state, and the state that it leaves: WORD .. / BATCH, with the words of a state.
pub fn executed(alloc: Global, text: &str) -> Answered {
    let (words, line) = halves(text, '/')?;
    let batch = batch(alloc, line.trim())?;
    executed_on(alloc, words, &batch)
}

//! The batches of a circuit. A row has the words of lines that submit one, after the circuit, with / between them.
use crate::words::{
    Answered, RowFault, Telling, batch, halves, hex_text, made, number, receipts_text, state_text,
};
use spl_agree::{Agreed, Reason, Renew};
use spl_base::BatchId;
use spl_command::Batch;
use spl_scabbard::Service;
use spl_state::RunCache;
use std::alloc::Global;

/// The batch of the words after a circuit.
pub fn batch_of(alloc: Global, words: &str) -> Result<Batch, RowFault> {
    let line = format!(in alloc; "submit alpha Ab3dE-00001 {}", words.trim())?;
    batch(alloc, line.as_str())
}

/// The reason against a batch, which is applied where there is none.
pub fn offer(
    alloc: Global,
    service: &mut Service,
    batch: Batch,
) -> Result<Option<Reason>, RowFault> {
    if service.history().len() >= 100 {
        return Err(RowFault::BadRow);
    }
    if let Some(reason) = service.check(alloc, &batch)? {
        return Ok(Some(reason));
    }
    service.apply(alloc, batch)?;
    Ok(None)
}

fn answer(alloc: Global, service: &mut Service, words: &str) -> Answered {
    match offer(alloc, service, batch_of(alloc, words)?)? {
        Some(reason) => made(format!(in alloc; "refused {} {}", reason.code, reason.at)),
        None => made(format!(in alloc; "taken")),
    }
}

fn tell_answers(alloc: Global, told: &mut Telling, service: &mut Service, batches: &str) {
    for words in batches.split('/') {
        told.tell(", ", answer(alloc, service, words));
    }
}

fn tell_history(alloc: Global, told: &mut Telling, service: &Service) {
    told.tell("\n  ", made(format!(in alloc; "history")));
    for id in service.history().as_slice() {
        told.tell(" ", made(format!(in alloc; "{}", id.0)));
    }
}

fn place_text(alloc: Global, service: &Service, id: BatchId) -> Answered {
    match service.place_of(id) {
        Some(place) => made(format!(in alloc; "{} at {}", id.0, place.0)),
        None => made(format!(in alloc; "{} nowhere", id.0)),
    }
}

/// The place of each batch and what it did.
fn tell_kept(alloc: Global, told: &mut Telling, service: &Service, ids: &str) {
    for word in ids.split(',') {
        match number(word) {
            Ok(id) => {
                told.tell("\n  ", place_text(alloc, service, BatchId(id)));
                if let Some(receipts) = service.receipt(BatchId(id)) {
                    told.tell(", ", receipts_text(alloc, receipts));
                }
            }
            Err(fault) => told.tell("", Err(fault)),
        }
    }
}

/// The state, its root, and its root once it is made anew.
fn tell_left(alloc: Global, told: &mut Telling, service: &mut Service) {
    told.tell("\n  state ", state_text(alloc, service.state()));
    told.tell("\n  root ", hex_text(alloc, &service.root()));
    service.renew(&mut RunCache::new());
    told.tell(", renewed ", hex_text(alloc, &service.root()));
}

/// What each batch is answered, the history, what is kept of ids, and what is left: ID,ID .. BATCH / BATCH ..
pub fn offered(alloc: Global, text: &str) -> Answered {
    let (ids, batches) = halves(text, ' ')?;
    let mut service = Service::new(alloc);
    let mut told = Telling::new(alloc);
    tell_answers(alloc, &mut told, &mut service, batches);
    tell_history(alloc, &mut told, &service);
    tell_kept(alloc, &mut told, &service, ids);
    tell_left(alloc, &mut told, &mut service);
    told.finish()
}

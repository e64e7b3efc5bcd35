//! The texts of receipts and of states, in the words of a schedule's line.
use crate::words::answer::{Answered, RowFault, add, text_of};
use spl_command::{Receipt, Receipts, StateChange, StateEvent};
use spl_state::{Address, Prefix, State};
use std::alloc::Global;

fn set_text(alloc: Global, address: &Address, value: &[u8]) -> Answered {
    let address = hex::encode(alloc, address.0.as_slice())?;
    let value = hex::encode(alloc, value)?;
    Ok(format!(in alloc; "{}={}", address.as_str(), value.as_str())?)
}

fn change_text(alloc: Global, change: &StateChange) -> Answered {
    match change {
        StateChange::Set(address, value) => {
            let entry = set_text(alloc, address, value.bytes())?;
            Ok(format!(in alloc; "set:{}", entry.as_str())?)
        }
        StateChange::Delete(address) => {
            let address = hex::encode(alloc, address.0.as_slice())?;
            Ok(format!(in alloc; "del:{}", address.as_str())?)
        }
    }
}

fn event_text(alloc: Global, event: &StateEvent) -> Answered {
    let kind = text_of(alloc, event.kind.bytes())?;
    let data = hex::encode(alloc, event.data.bytes())?;
    Ok(format!(in alloc; "event:{}={}", kind.as_str(), data.as_str())?)
}

fn add_receipt(alloc: Global, text: &mut String, receipt: &Receipt) -> Result<(), RowFault> {
    add(text, " ", "tx")?;
    for change in receipt.changes.as_slice() {
        add(text, " ", change_text(alloc, change)?.as_str())?;
    }
    for event in receipt.events.as_slice() {
        add(text, " ", event_text(alloc, event)?.as_str())?;
    }
    for data in receipt.returned.as_slice() {
        let data = hex::encode(alloc, data.bytes())?;
        add(text, " data:", data.as_str())?;
    }
    Ok(())
}

/// What each transaction did: its changes, its events and the data that it returned.
pub fn receipts_text(alloc: Global, receipts: &Receipts) -> Answered {
    let mut text = String::new(alloc);
    for receipt in receipts.as_slice() {
        add_receipt(alloc, &mut text, receipt)?;
    }
    Ok(text)
}

/// The addresses with their values, in address order; - is none.
pub fn state_text(alloc: Global, state: &State) -> Answered {
    let Some(all) = Prefix::read(b"") else {
        return Err(RowFault::BadRow);
    };
    let mut text = String::new(alloc);
    for address in state.under(alloc, &all)? {
        let value = state.get(&address).unwrap_or(b"");
        add(&mut text, " ", set_text(alloc, &address, value)?.as_str())?;
    }
    if text.is_empty() {
        text.push_str("-")?;
    }
    Ok(text)
}

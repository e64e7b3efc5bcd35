//! The words of a row.
use crate::words::answer::RowFault;
use hex::FromHexError;
use spl_agree::Reason;
use spl_base::{CircuitId, NodeId, ServiceId, Value};
use spl_circuit::Definition;
use spl_command::Batch;
use spl_sched::{Line, Step, read_line};
use spl_state::Address;
use spl_wire::Event;
use std::alloc::Global;

/// The words between spaces.
pub fn words<'a>(alloc: Global, text: &'a str) -> Result<Vec<&'a str>, RowFault> {
    let mut all = Vec::new(alloc);
    for word in text.split(' ') {
        if !word.is_empty() {
            all.push(word)?;
        }
    }
    Ok(all)
}

/// What stands before and after a sign.
pub fn halves<'a>(word: &'a str, sign: char) -> Result<(&'a str, &'a str), RowFault> {
    word.split_once(sign).ok_or(RowFault::BadRow)
}

/// A word's name, and what stands after its first :, if anything does.
pub fn name_and_rest<'a>(word: &'a str) -> (&'a str, &'a str) {
    word.split_once(':').unwrap_or((word, ""))
}

/// A number in decimal.
pub fn number(word: &str) -> Result<u64, RowFault> {
    word.parse::<u64>().ok().ok_or(RowFault::BadRow)
}

pub fn long(word: &str) -> Result<u32, RowFault> {
    word.parse::<u32>().ok().ok_or(RowFault::BadRow)
}

pub fn byte(word: &str) -> Result<u8, RowFault> {
    word.parse::<u8>().ok().ok_or(RowFault::BadRow)
}

/// The numbers between commas; - is none.
pub fn numbers(alloc: Global, word: &str) -> Result<Vec<u64>, RowFault> {
    let mut all = Vec::new(alloc);
    if word == "-" {
        return Ok(all);
    }
    for part in word.split(',') {
        all.push(number(part)?)?;
    }
    Ok(all)
}

/// A code and a transaction, as in 11:2.
pub fn reason(word: &str) -> Result<Reason, RowFault> {
    let (code, at) = halves(word, ':')?;
    Ok(Reason {
        code: byte(code)?,
        at: byte(at)?,
    })
}

/// Bytes in hex; - is none.
pub fn bytes(alloc: Global, word: &str) -> Result<Vec<u8>, RowFault> {
    if word == "-" {
        return Ok(Vec::new(alloc));
    }
    match hex::decode(alloc, word.as_bytes()) {
        Ok(bytes) => Ok(bytes),
        Err(FromHexError::OutOfMemory) => Err(RowFault::NoMemory),
        Err(_) => Err(RowFault::BadRow),
    }
}

/// The 35 bytes of an address.
pub fn address(alloc: Global, word: &str) -> Result<Address, RowFault> {
    let found = bytes(alloc, word)?;
    if found.len() != 35 {
        return Err(RowFault::BadRow);
    }
    let mut all = [0u8; 35];
    all.copy_from_slice(&found);
    Ok(Address(all))
}

pub fn node(word: &str) -> Result<NodeId, RowFault> {
    NodeId::read(word.as_bytes()).ok_or(RowFault::BadRow)
}

pub fn service(word: &str) -> Result<ServiceId, RowFault> {
    ServiceId::read(word.as_bytes()).ok_or(RowFault::BadRow)
}

pub fn circuit(word: &str) -> Result<CircuitId, RowFault> {
    CircuitId::read(word.as_bytes()).ok_or(RowFault::BadRow)
}

/// The nodes between commas; - is none.
pub fn nodes(alloc: Global, word: &str) -> Result<Vec<NodeId>, RowFault> {
    let mut all = Vec::new(alloc);
    if word == "-" {
        return Ok(all);
    }
    for part in word.split(',') {
        all.push(node(part)?)?;
    }
    Ok(all)
}

/// The event that a line of a schedule names.
pub fn event(alloc: Global, text: &str) -> Result<Event, RowFault> {
    match read_line(alloc, text.as_bytes()) {
        Ok(Line::Step(Step::At { event, .. })) => Ok(event),
        Err(spl_sched::LineFault::NoMemory) => Err(RowFault::NoMemory),
        _ => Err(RowFault::BadRow),
    }
}

/// The definition of a line that proposes one.
pub fn definition(alloc: Global, line: &str) -> Result<Definition, RowFault> {
    match event(alloc, line)? {
        Event::Propose(definition) => Ok(definition.get().copy(alloc)?),
        _ => Err(RowFault::BadRow),
    }
}

/// The batch of a line that submits one.
pub fn batch(alloc: Global, line: &str) -> Result<Batch, RowFault> {
    match event(alloc, line)? {
        Event::Submit(batch) => Ok(batch.get().copy(alloc)?),
        _ => Err(RowFault::BadRow),
    }
}

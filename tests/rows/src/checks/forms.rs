//! Byte forms: a row has the kind of a value and bytes in hex.
use crate::checks::runs::Runs;
use crate::words::{Answered, RowFault, bytes, halves, made};
use spl_base::{Malformed, Reader};
use spl_circuit::{Act, Definition};
use spl_command::Batch;
use spl_proof::Proof;
use spl_wire::{Message, Record};
use std::alloc::Global;

/// What stands at the front of the bytes.
#[derive(Clone, Copy, PartialEq, Eq)]
enum Kind {
    Definition,
    Act,
    Batch,
    Message,
    Record,
    /// A proof, which all of the bytes are.
    Proof,
}

fn kind_of(word: &str) -> Result<Kind, RowFault> {
    match word {
        "definition" => Ok(Kind::Definition),
        "act" => Ok(Kind::Act),
        "batch" => Ok(Kind::Batch),
        "message" => Ok(Kind::Message),
        "record" => Ok(Kind::Record),
        "proof" => Ok(Kind::Proof),
        _ => Err(RowFault::BadRow),
    }
}

fn definition_size(alloc: Global, bytes: &[u8]) -> Result<usize, Malformed> {
    let mut reader = Reader::new(bytes);
    Definition::read(alloc, &mut reader)?;
    Ok(reader.place())
}

fn act_size(alloc: Global, bytes: &[u8]) -> Result<usize, Malformed> {
    let mut reader = Reader::new(bytes);
    Act::read(alloc, &mut reader)?;
    Ok(reader.place())
}

fn batch_size(alloc: Global, bytes: &[u8]) -> Result<usize, Malformed> {
    let mut reader = Reader::new(bytes);
    Batch::read(alloc, &mut reader)?;
    Ok(reader.place())
}

fn message_size(alloc: Global, bytes: &[u8]) -> Result<usize, Malformed> {
    let (_, size) = Message::read(alloc, bytes)?;
    Ok(size)
}

fn record_size(alloc: Global, bytes: &[u8]) -> Result<usize, Malformed> {
    let (_, size) = Record::read(alloc, bytes)?;
    Ok(size)
}

fn proof_size(alloc: Global, bytes: &[u8]) -> Result<usize, Malformed> {
    Proof::read(alloc, bytes)?;
    Ok(bytes.len())
}

/// How many bytes a value takes.
fn taken(alloc: Global, kind: Kind, bytes: &[u8]) -> Result<usize, Malformed> {
    match kind {
        Kind::Definition => definition_size(alloc, bytes),
        Kind::Act => act_size(alloc, bytes),
        Kind::Batch => batch_size(alloc, bytes),
        Kind::Message => message_size(alloc, bytes),
        Kind::Record => record_size(alloc, bytes),
        Kind::Proof => proof_size(alloc, bytes),
    }
}

/// How many bytes a value takes, or where its first unreadable field begins.
#[derive(Clone, Copy, PartialEq, Eq)]
enum Size {
    Bytes(usize),
    MalformedAt(usize),
}

fn size_of(alloc: Global, kind: Kind, bytes: &[u8]) -> Result<Size, RowFault> {
    match taken(alloc, kind, bytes) {
        Ok(size) => Ok(Size::Bytes(size)),
        Err(Malformed::At { at }) => Ok(Size::MalformedAt(at)),
        Err(Malformed::NoMemory) => Err(RowFault::NoMemory),
    }
}

fn size_text(alloc: Global, size: Size) -> Answered {
    match size {
        Size::Bytes(size) => made(format!(in alloc; "{size} bytes")),
        Size::MalformedAt(at) => made(format!(in alloc; "malformed at {at}")),
    }
}

/// Whether a message, a record or a proof that takes all of the bytes is written back as it was.
fn is_written_back(alloc: Global, kind: Kind, bytes: &[u8]) -> Result<bool, Malformed> {
    match kind {
        Kind::Message => {
            let (message, size) = Message::read(alloc, bytes)?;
            Ok(message.write(alloc)?.bytes() == &bytes[..size.min(bytes.len())])
        }
        Kind::Record => {
            let (record, size) = Record::read(alloc, bytes)?;
            Ok(record.write(alloc)?.bytes() == &bytes[..size.min(bytes.len())])
        }
        Kind::Proof => {
            let proof = Proof::read(alloc, bytes)?;
            Ok(proof.write(alloc)?.bytes() == bytes)
        }
        _ => Ok(false),
    }
}

/// How many bytes the value takes, or where its first unreadable field begins: KIND HEX.
pub fn read(alloc: Global, text: &str) -> Answered {
    let (kind, hex) = halves(text, ' ')?;
    let kind = kind_of(kind)?;
    let bytes = bytes(alloc, hex)?;
    let size = size_text(alloc, size_of(alloc, kind, &bytes)?)?;
    if let Ok(true) = is_written_back(alloc, kind, &bytes) {
        return made(format!(in alloc; "{size}, written back"));
    }
    Ok(size)
}

/// The same of the first bytes, by how many they are.
pub fn cuts(alloc: Global, text: &str) -> Answered {
    let (kind, hex) = halves(text, ' ')?;
    let kind = kind_of(kind)?;
    let bytes = bytes(alloc, hex)?;
    let mut runs = Runs::new(alloc, "\n  ");
    for size in 0..=bytes.len() {
        let found = size_of(alloc, kind, &bytes[..size])?;
        runs.add(alloc, size, size_text(alloc, found)?)?;
    }
    Ok(runs.finish(alloc)?)
}

/// What each byte at a place gives.
fn changes_at(alloc: Global, kind: Kind, bytes: &mut [u8], at: usize) -> Answered {
    let mut runs = Runs::new(alloc, ", ");
    let Some(kept) = bytes.get(at).copied() else {
        return Err(RowFault::BadRow);
    };
    let mut latest = None;
    for byte in 0..=255u8 {
        if let Some(changed) = bytes.get_mut(at) {
            *changed = byte;
        }
        let size = size_of(alloc, kind, bytes)?;
        // Most bytes give what the one before them gave, and a text takes long to make.
        if latest == Some(size) {
            runs.again(byte as usize);
        } else {
            runs.add(alloc, byte as usize, size_text(alloc, size)?)?;
            latest = Some(size);
        }
    }
    if let Some(changed) = bytes.get_mut(at) {
        *changed = kept;
    }
    Ok(runs.finish(alloc)?)
}

/// The same with each other byte at each place: places, and bytes with what they give.
pub fn changes(alloc: Global, text: &str) -> Answered {
    let (kind, hex) = halves(text, ' ')?;
    let kind = kind_of(kind)?;
    let mut bytes = bytes(alloc, hex)?;
    let mut runs = Runs::new(alloc, "\n  ");
    for at in 0..bytes.len() {
        let answer = changes_at(alloc, kind, &mut bytes, at)?;
        runs.add(alloc, at, answer)?;
    }
    Ok(runs.finish(alloc)?)
}

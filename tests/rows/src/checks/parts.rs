//! Messages in bodies, and bodies joined to messages.
use crate::words::{Answered, RowFault, Telling, bytes, made, number, words};
use spl_base::{Malformed, Piece};
use spl_fragments::{JoinFault, Joiner, split};
use spl_wire::Message;
use std::alloc::Global;

/// Adds bytes in hex, or one byte and how often it comes, as in 00*16382.
fn add_bytes(alloc: Global, all: &mut Vec<u8>, word: &str) -> Result<(), RowFault> {
    let (hex, times) = word.split_once('*').unwrap_or((word, "1"));
    for _ in 0..number(times)? {
        all.extend_from_slice(&bytes(alloc, hex)?)?;
    }
    Ok(())
}

/// Bytes in parts with a + between them.
fn long_bytes(alloc: Global, word: &str) -> Result<Vec<u8>, RowFault> {
    let mut all = Vec::new(alloc);
    for part in word.split('+') {
        add_bytes(alloc, &mut all, part)?;
    }
    Ok(all)
}

fn message(alloc: Global, bytes: &[u8]) -> Result<Message, RowFault> {
    match Message::read(alloc, bytes) {
        Ok((message, size)) if size == bytes.len() => Ok(message),
        Err(Malformed::NoMemory) => Err(RowFault::NoMemory),
        _ => Err(RowFault::BadRow),
    }
}

fn body_text(alloc: Global, body: &Piece) -> Answered {
    match body.bytes() {
        [] => Err(RowFault::BadRow),
        [tag, ..] => made(format!(in alloc; "{} bytes from {tag:02x}", body.bytes().len())),
    }
}

/// The bodies of a message, each by its length and its first byte: BYTES.
pub fn cut(alloc: Global, text: &str) -> Answered {
    let message = message(alloc, &long_bytes(alloc, text)?)?;
    let bodies = split(alloc, &message)?;
    let mut told = Telling::new(alloc);
    for body in bodies.as_slice() {
        told.tell(", ", body_text(alloc, body));
    }
    told.finish()
}

fn taken_text(alloc: Global, joiner: &mut Joiner, body: &[u8]) -> Answered {
    match joiner.take(alloc, body) {
        Ok(None) => made(String::from_str(alloc, "none")),
        Ok(Some(message)) => {
            let size = message.write(alloc)?.bytes().len();
            made(format!(in alloc; "message of {size} bytes"))
        }
        Err(JoinFault::NoMemory) => Err(RowFault::NoMemory),
        Err(fault) => made(format!(in alloc; "{fault:?}")),
    }
}

/// What a joiner answers to each body: BYTES BYTES ..
pub fn joined(alloc: Global, text: &str) -> Answered {
    let mut joiner = Joiner::new(alloc);
    let mut told = Telling::new(alloc);
    for word in words(alloc, text)? {
        let body = long_bytes(alloc, word)?;
        told.tell(", ", taken_text(alloc, &mut joiner, &body));
    }
    told.finish()
}

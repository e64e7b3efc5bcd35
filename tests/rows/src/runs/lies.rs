//! What devices do wrong, in the words of a row.
use crate::words::{RowFault, bytes, halves, long, number};
use spl_memory::Lie;
use std::alloc::Global;

fn one_byte(alloc: Global, word: &str) -> Result<u8, RowFault> {
    match bytes(alloc, word)?.as_slice() {
        [byte] => Ok(*byte),
        _ => Err(RowFault::BadRow),
    }
}

/// A byte that changes with a call: CALL@OFFSET:BYTE.
pub fn lie(alloc: Global, word: &str) -> Result<Lie, RowFault> {
    let (call, rest) = halves(word, '@')?;
    let (offset, byte) = halves(rest, ':')?;
    Ok(Lie {
        call: number(call)?,
        offset: long(offset)? as usize,
        byte: one_byte(alloc, byte)?,
    })
}

/// The lies that stand after a name.
pub fn lies(alloc: Global, words: &[&str], name: &str) -> Result<Vec<Lie>, RowFault> {
    let mut all = Vec::new(alloc);
    for word in words {
        if let Some(text) = word.strip_prefix(name) {
            all.push(lie(alloc, text)?)?;
        }
    }
    Ok(all)
}

/// The bytes that stand after a name, in hex.
pub fn held(alloc: Global, words: &[&str], name: &str) -> Result<Vec<u8>, RowFault> {
    let mut all = Vec::new(alloc);
    for word in words {
        if let Some(text) = word.strip_prefix(name) {
            all.extend_from_slice(&bytes(alloc, text)?)?;
        }
    }
    Ok(all)
}

//! Bytes in rows: parts with + between them, each HEX or HEXxTIMES, and changes after them, /cut=LENGTH or /AT=HEX.
use crate::words::{Answered, RowFault, bytes, halves, hex_text, long};
use sha2::{Digest, Sha256};
use std::alloc::Global;

/// The most bytes that a row tells in full.
const MOST: usize = 300;

fn put_part(alloc: Global, found: &mut Vec<u8>, part: &str) -> Result<(), RowFault> {
    let (hex, times) = part.split_once('x').unwrap_or((part, "1"));
    let piece = bytes(alloc, hex)?;
    for _ in 0..long(times)? {
        found.extend_from_slice(&piece)?;
    }
    Ok(())
}

fn put_at(alloc: Global, found: &mut [u8], at: usize, hex: &str) -> Result<(), RowFault> {
    for (place, byte) in found.iter_mut().skip(at).zip(bytes(alloc, hex)?) {
        *place = byte;
    }
    Ok(())
}

fn change(alloc: Global, found: &mut Vec<u8>, change: &str) -> Result<(), RowFault> {
    let (at, what) = halves(change, '=')?;
    if at == "cut" {
        found.truncate(long(what)? as usize);
        return Ok(());
    }
    put_at(alloc, found, long(at)? as usize, what)
}

/// The bytes of a word.
pub fn content(alloc: Global, word: &str) -> Result<Vec<u8>, RowFault> {
    let mut found = Vec::new(alloc);
    let mut words = word.split('/');
    for part in words.next().unwrap_or("").split('+') {
        put_part(alloc, &mut found, part)?;
    }
    for word in words {
        change(alloc, &mut found, word)?;
    }
    Ok(found)
}

/// The text of bytes: in hex where they are few, and otherwise their length and SHA-256.
pub fn told(alloc: Global, bytes: &[u8]) -> Answered {
    if bytes.len() <= MOST {
        return hex_text(alloc, bytes);
    }
    let digest = hex_text(alloc, &Sha256::digest(bytes))?;
    Ok(format!(in alloc; "{} bytes {}", bytes.len(), digest.as_str())?)
}

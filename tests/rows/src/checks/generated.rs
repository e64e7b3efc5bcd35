//! Schedules that are made from a number.
use crate::words::{Answered, RowFault, halves, hex_text, made, number, text_of};
use sha2::{Digest, Sha256};
use spl_gen::{MOST_BATCHES, schedule};
use std::alloc::Global;

/// In which line the first batch is submitted, counted from 0.
const FIRST_BATCH: usize = 18;

fn batches(word: &str) -> Result<u16, RowFault> {
    match word.parse::<u16>() {
        Ok(n) => Ok(n),
        Err(_) => Err(RowFault::BadRow),
    }
}

/// How many bytes and lines a generated schedule has, their digest, and the line that submits the first batch: N SEED.
pub fn summed(alloc: Global, text: &str) -> Answered {
    let (n, seed) = halves(text, ' ')?;
    let n = batches(n)?;
    if n < 1 || MOST_BATCHES < n {
        return Err(RowFault::BadRow);
    }
    let schedule = schedule(alloc, n, number(seed)?)?;
    let bytes = schedule.bytes();
    let size = bytes.len();
    let lines = bytes.iter().filter(|b| **b == b'\n').count();
    let digest = hex_text(alloc, &Sha256::digest(bytes))?;
    let first = bytes.split(|b| *b == b'\n').nth(FIRST_BATCH);
    let first = text_of(alloc, first.ok_or(RowFault::BadRow)?)?;
    made(format!(in alloc; "{size} bytes, {lines} lines, {digest}, {first}"))
}

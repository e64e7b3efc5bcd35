//! The records of rows: any 1 to 65,536 bytes that don't begin with ff.
use crate::disks::content::content;
use crate::words::RowFault;
use spl_base::Piece;
use spl_journal::{Form, Records};
use std::alloc::{AllocError, Global};

/// The most bytes that a record has.
const MOST: usize = 65_536;

fn is_record(bytes: &[u8]) -> bool {
    !matches!(bytes, [255, ..])
}

/// Bytes are a record unless they begin with ff.
pub struct RowForm;

impl Form for RowForm {
    ghost is_record = { _ };

    ghost bytes_of = { _ };

    type Read = Piece;

    fn read(_alloc: Global, bytes: Vec<u8>) -> Result<Option<Piece>, AllocError> {
        if is_record(&bytes) {
            Ok(Some(Piece::from_vec(bytes)))
        } else {
            Ok(None)
        }
    }
}

/// The record of a word.
pub fn record(alloc: Global, word: &str) -> Result<Vec<u8>, RowFault> {
    let bytes = content(alloc, word)?;
    if bytes.is_empty() || bytes.len() > MOST || !is_record(&bytes) {
        return Err(RowFault::BadRow);
    }
    Ok(bytes)
}

/// The records of a word, with commas between them; - is none.
pub fn records(alloc: Global, text: &str) -> Result<Records, RowFault> {
    let mut all = Records::new(alloc);
    if text == "-" {
        return Ok(all);
    }
    for word in text.split(',') {
        all.push(alloc, &record(alloc, word)?)?;
    }
    Ok(all)
}

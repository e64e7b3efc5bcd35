//! Answers to rows.
use std::alloc::{AllocError, AllocFailed, Global};

/// Why a row has no answer.
#[derive(Clone, Copy, PartialEq, Eq)]
pub enum RowFault {
    NoMemory,
    /// Its words are none of its table, or it has none.
    BadRow,
}

/// The text of an answer.
pub type Answered = Result<String, RowFault>;

impl From<AllocError> for RowFault {
    fn from(_: AllocError) -> RowFault {
        RowFault::NoMemory
    }
}

impl<T: Drop> From<AllocFailed<T>> for RowFault {
    fn from(_: AllocFailed<T>) -> RowFault {
        RowFault::NoMemory
    }
}

/// Adds a part after a sign, or the first one.
pub fn add(text: &mut String, sign: &str, part: &str) -> Result<(), RowFault> {
    if text.len() > 0 {
        text.push_str(sign)?;
    }
    text.push_str(part)?;
    Ok(())
}

/// The answer that a text is, where there was memory for it.
pub fn made(text: Result<String, AllocError>) -> Answered {
    match text {
        Ok(text) => Ok(text),
        Err(_) => Err(RowFault::NoMemory),
    }
}

/// An answer that is told part by part. A part without an answer is the answer of the whole, whatever comes after it.
#[derive(Drop)]
pub struct Telling {
    text: String,
    fault: Option<RowFault>,
}

impl Telling {
    /// Nothing is told yet.
    pub fn new(alloc: Global) -> Telling {
        Telling {
            text: String::new(alloc),
            fault: None,
        }
    }

    /// Adds a part after a sign, or the first one.
    fn add(&mut self, sign: &str, part: Answered) -> Result<(), RowFault> {
        add(&mut self.text, sign, part?.as_str())
    }

    /// Tells a part after a sign, or the first one.
    pub fn tell(&mut self, sign: &str, part: Answered) {
        if self.fault.is_none() {
            self.fault = self.add(sign, part).err();
        }
    }

    /// All that was told.
    pub fn finish(self) -> Answered {
        match self.fault {
            None => Ok(self.text),
            Some(fault) => Err(fault),
        }
    }
}

/// The text of bytes in hex; none is -.
pub fn hex_text(alloc: Global, bytes: &[u8]) -> Answered {
    if bytes.is_empty() {
        return made(String::from_str(alloc, "-"));
    }
    Ok(hex::encode(alloc, bytes)?)
}

/// The text of bytes that are characters.
pub fn text_of(alloc: Global, bytes: &[u8]) -> Answered {
    Ok(String::from_utf8_lossy(alloc, bytes)?)
}

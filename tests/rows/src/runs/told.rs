//! What a run gave: its status, and what it wrote.
use crate::words::{Answered, Telling, hex_text, made, text_of};
use spl_cli::Status;
use std::alloc::Global;

/// The most bytes that are told in full.
const MOST: usize = 300;

/// The exit status, and its text where there is one.
pub fn status_text(alloc: Global, status: &Status) -> Answered {
    let line = status.text(alloc)?;
    let text = text_of(alloc, line.bytes())?;
    if text.is_empty() {
        return made(format!(in alloc; "{}", status.code()));
    }
    made(format!(in alloc; "{} {}", status.code(), text.as_str()))
}

/// The bytes that were sent and those that came, where a link lied.
fn tell_lie(alloc: Global, told: &mut Telling, status: &Status) {
    if let Status::Lied { sent, got, .. } = status {
        told.tell(", sent ", hex_text(alloc, sent.get().bytes()));
        told.tell(", got ", hex_text(alloc, got.get().bytes()));
    }
}

/// How long a text is, and its last line.
fn end_text(alloc: Global, text: &str) -> Answered {
    let lines = text.strip_suffix('\n').unwrap_or(text);
    let last = lines.split('\n').last().unwrap_or("");
    made(format!(in alloc; "{} bytes, the last line {last}", text.len()))
}

/// A text with ; for each line feed, or its end where it is long.
fn written_text(alloc: Global, bytes: &[u8]) -> Answered {
    let text = text_of(alloc, bytes)?;
    if MOST < bytes.len() {
        return end_text(alloc, text.as_str());
    }
    made(text.as_str().replace(alloc, '\n', ";"))
}

/// The exit status with its text, the bytes of a lie, and what was written after a |.
pub fn told(alloc: Global, status: &Status, written: &[u8]) -> Answered {
    let mut told = Telling::new(alloc);
    told.tell("", status_text(alloc, status));
    tell_lie(alloc, &mut told, status);
    told.tell(" ", made(String::from_str(alloc, "|")));
    if !written.is_empty() {
        told.tell(" ", written_text(alloc, written));
    }
    told.finish()
}

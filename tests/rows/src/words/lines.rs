//! Lines of rows.
use crate::words::answer::{Answered, RowFault};
use std::io;

/// The table and the words of a row; None of an empty line, and of one that begins with #.
pub fn row_of(line: &str) -> Option<(&str, &str)> {
    if line.is_empty() || line.starts_with('#') {
        return None;
    }
    Some(line.split_once(' ').unwrap_or((line, "")))
}

/// Prints what a row has after it.
pub fn print_answer(rt: &HostRuntime, answer: Answered) -> io::Result<()> {
    match answer {
        Ok(text) => println!(rt; "  {text}"),
        Err(RowFault::BadRow) => println!(rt; "  bad row"),
        Err(RowFault::NoMemory) => println!(rt; "  no memory"),
    }
}

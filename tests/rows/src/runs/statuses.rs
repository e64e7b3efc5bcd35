//! Texts of statuses. A row has the kind of the status and what it says.
use crate::runs::told::status_text;
use crate::words::{Answered, RowFault, byte, long, node, number, words};
use spl_base::{Boxed, Piece};
use spl_registry::RegistryFault;
use spl_cli::Status;
use std::alloc::Global;

/// The statuses that say nothing besides.
fn plain(name: &str) -> Result<Status, RowFault> {
    match name {
        "ok" => Ok(Status::Ok),
        "usage" => Ok(Status::Usage),
        "not-toml" => Ok(Status::BadRegistry(RegistryFault::NotToml)),
        "read" => Ok(Status::ReadFault),
        "write" => Ok(Status::WriteFault),
        "link" => Ok(Status::LinkFault),
        "too-long" => Ok(Status::TooLong),
        "no-memory" => Ok(Status::NoMemory),
        _ => Err(RowFault::BadRow),
    }
}

/// Those that say a number, or name a node.
fn with_one(name: &str, word: &str) -> Result<Status, RowFault> {
    match name {
        "entry" => Ok(Status::BadRegistry(RegistryFault::BadEntry { index: long(word)? })),
        "repeated" => Ok(Status::BadRegistry(RegistryFault::Repeated { index: long(word)? })),
        "entries" => Ok(Status::BadRegistry(RegistryFault::TooMany { count: long(word)? })),
        "line" => Ok(Status::BadSchedule { line: long(word)? }),
        "too-many" => Ok(Status::TooMany { which: byte(word)? }),
        "disk" => Ok(Status::DiskFault { node: node(word)? }),
        "not-blank" => Ok(Status::NotBlank { node: node(word)? }),
        _ => Err(RowFault::BadRow),
    }
}

/// Those that name two nodes, or a node and a place.
fn with_two(alloc: Global, name: &str, first: &str, second: &str) -> Result<Status, RowFault> {
    let here = node(first)?;
    match name {
        "lied" => Ok(Status::Lied {
            from: here,
            to: node(second)?,
            sent: Boxed::new(alloc, Piece::from(alloc, b"a")?)?,
            got: Boxed::new(alloc, Piece::from(alloc, b"b")?)?,
        }),
        "not-a-journal" => Ok(Status::NotAJournal {
            node: here,
            at: number(second)?,
        }),
        _ => Err(RowFault::BadRow),
    }
}

fn status(alloc: Global, text: &str) -> Result<Status, RowFault> {
    match words(alloc, text)?.as_slice() {
        [name] => plain(name),
        [name, word] => with_one(name, word),
        [name, first, second] => with_two(alloc, name, first, second),
        _ => Err(RowFault::BadRow),
    }
}

/// The exit status and the text of a status: its KIND, and a number, a node, two nodes, or a node and a number.
pub fn printed(alloc: Global, text: &str) -> Answered {
    let status = status(alloc, text)?;
    status_text(alloc, &status)
}

//! The registry and the schedule of a row.
use crate::words::{RowFault, long, number};
use std::alloc::Global;

/// A run: its nodes with commas between them, the words on what breaks and on what is long, and its schedule.
#[derive(Clone, Copy)]
pub struct Row<'a> {
    pub nodes: &'a str,
    pub words: &'a [&'a str],
    pub schedule: &'a str,
}

fn put_numbers(all: &mut Vec<u64>, text: &str) -> Result<(), RowFault> {
    for part in text.split(',') {
        all.push(number(part)?)?;
    }
    Ok(())
}

/// The numbers with commas between them that stand after a name.
pub fn numbers(alloc: Global, words: &[&str], name: &str) -> Result<Vec<u64>, RowFault> {
    let mut all = Vec::new(alloc);
    for word in words {
        if let Some(text) = word.strip_prefix(name) {
            put_numbers(&mut all, text)?;
        }
    }
    Ok(all)
}

/// A comment of so many bytes, so many times: LENGTH or LENGTHxTIMES.
fn put_comments(alloc: Global, text: &mut Vec<u8>, part: &str) -> Result<(), RowFault> {
    let (length, times) = part.split_once('x').unwrap_or((part, "1"));
    let times = long(times)?;
    let mut line = vec![in alloc; b'#'; long(length)? as usize]?;
    line.push(b'\n')?;
    for _ in 0..times {
        text.extend_from_slice(&line)?;
    }
    Ok(())
}

/// The comments that stand after a name, with commas between them.
fn comments(alloc: Global, words: &[&str], name: &str) -> Result<Vec<u8>, RowFault> {
    let mut text = Vec::new(alloc);
    for word in words {
        if let Some(parts) = word.strip_prefix(name) {
            for part in parts.split(',') {
                put_comments(alloc, &mut text, part)?;
            }
        }
    }
    Ok(text)
}

fn put_node(text: &mut Vec<u8>, node: &str) -> Result<(), RowFault> {
    text.extend_from_slice(b"[[node]]\nidentity = \"")?;
    text.extend_from_slice(node.as_bytes())?;
    text.extend_from_slice(b"\"\ndisplay_name = \"")?;
    text.extend_from_slice(node.as_bytes())?;
    text.extend_from_slice(b"\"\nendpoints = [\"127.0.0.1:0\"]\n")?;
    Ok(())
}

/// The bytes of the registry: comments, and a table for each node.
pub fn registry_text(alloc: Global, row: &Row) -> Result<Vec<u8>, RowFault> {
    let mut text = comments(alloc, row.words, "registry-comments=")?;
    for node in row.nodes.split(',') {
        put_node(&mut text, node)?;
    }
    Ok(text)
}

/// How often the lines of a row stand in its schedule.
fn times(alloc: Global, words: &[&str]) -> Result<u64, RowFault> {
    Ok(
        numbers(alloc, words, "times=")?
            .first()
            .copied()
            .unwrap_or(1),
    )
}

fn put_lines(text: &mut Vec<u8>, lines: &str) -> Result<(), RowFault> {
    for byte in lines.as_bytes() {
        text.push(if *byte == b';' { b'\n' } else { *byte })?;
    }
    Ok(())
}

/// The bytes of the schedule: comments, and the lines of the row as often as it says.
pub fn schedule_text(alloc: Global, row: &Row) -> Result<Vec<u8>, RowFault> {
    let times = times(alloc, row.words)?;
    let mut text = comments(alloc, row.words, "comments=")?;
    for _ in 0..times {
        put_lines(&mut text, row.schedule)?;
    }
    Ok(text)
}

//! Streams between nodes. A row has what is put and taken, in turn.
use crate::devices::memory::{buffer, call_text, taken_text};
use crate::runs::lies::lie;
use crate::words::{Answered, RowFault, add, byte, halves, made, numbers, words};
use spl_device::TcpFabric;
use spl_edge::Fabric;
use spl_memory::{LyingFabric, MemFabric};
use spl_registry::{Registry, RegistryFault};
use std::alloc::Global;

/// Two nodes that can be reached, and one that can't.
pub const REGISTRY: &str = r#"
[[node]]
identity = "alpha"
display_name = "Alpha"
endpoints = ["127.0.0.1:0"]

[[node]]
identity = "beta"
display_name = "Beta"
endpoints = ["127.0.0.1:0"]

[[node]]
identity = "gamma"
display_name = "Gamma"
endpoints = ["no endpoint"]
"#;

/// FROM:TO: and what stands after.
fn ends<'a>(rest: &'a str) -> Result<(u8, u8, &'a str), RowFault> {
    let (from, rest) = halves(rest, ':')?;
    let (to, rest) = halves(rest, ':')?;
    Ok((byte(from)?, byte(to)?, rest))
}

fn put<F: Fabric>(alloc: Global, fabric: &mut F, rest: &str) -> Answered {
    let (from, to, text) = ends(rest)?;
    match fabric.put(from, to, text.as_bytes()) {
        Ok(count) => made(format!(in alloc; "{count}")),
        Err(fault) => call_text(alloc, Err(fault)),
    }
}

fn take<F: Fabric>(alloc: Global, fabric: &mut F, rest: &str) -> Answered {
    let (from, to, size) = ends(rest)?;
    let mut bytes = buffer(alloc, size)?;
    let done = fabric.take(from, to, &mut bytes);
    taken_text(alloc, done, &bytes)
}

/// What each step answers on any streams: put=FROM:TO:TEXT or take=FROM:TO:SIZE.
pub fn steps<F: Fabric>(alloc: Global, fabric: &mut F, words: &[&str]) -> Answered {
    let mut told = String::new(alloc);
    for word in words {
        let (name, rest) = halves(word, '=')?;
        let answer = match name {
            "put" => put(alloc, fabric, rest)?,
            "take" => take(alloc, fabric, rest)?,
            _ => return Err(RowFault::BadRow),
        };
        add(&mut told, ", ", answer.as_str())?;
    }
    Ok(told)
}

/// Streams in memory: FAILING STEP ..
pub fn in_memory(alloc: Global, text: &str) -> Answered {
    let all = words(alloc, text)?;
    let [calls, words @ ..] = all.as_slice() else {
        return Err(RowFault::BadRow);
    };
    steps(
        alloc,
        &mut MemFabric::new(alloc, numbers(alloc, calls)?),
        words,
    )
}

/// Streams in memory of which a byte changes with a call: CALL@OFFSET:BYTE STEP ..
pub fn lied(alloc: Global, text: &str) -> Answered {
    let all = words(alloc, text)?;
    let [word, words @ ..] = all.as_slice() else {
        return Err(RowFault::BadRow);
    };
    let lies = vec![in alloc; lie(alloc, word)?]?;
    steps(
        alloc,
        &mut LyingFabric::new(alloc, Vec::new(alloc), lies),
        words,
    )
}

/// The registry that the rows know.
fn registry(alloc: Global) -> Result<Registry, RowFault> {
    match Registry::read(alloc, REGISTRY.as_bytes()) {
        Ok(registry) => Ok(registry),
        Err(RegistryFault::NoMemory) => Err(RowFault::NoMemory),
        Err(_) => Err(RowFault::BadRow),
    }
}

/// Streams over TCP, between two nodes that can be reached and a third that can't: STEP ..
pub fn over_tcp(rt: &HostRuntime, text: &str) -> Answered {
    let registry = registry(rt.alloc())?;
    let all = words(rt.alloc(), text)?;
    let mut fabric = TcpFabric::new(rt.alloc(), rt, Some(&registry))?;
    steps(rt.alloc(), &mut fabric, &all)
}

//! Streams of frames, and greetings.
use crate::words::{Answered, RowFault, Telling, bytes, hex_text, made, node, text_of, words};
use spl_base::{NodeId, Piece};
use spl_frame::{FrameFault, Framer, LONGEST_BODY, frames_in, write_frame};
use spl_link::{LinkFault, Opening};
use spl_registry::Registry;
use std::alloc::Global;

fn fed(alloc: Global, framer: &mut Framer, piece: &[u8]) -> Answered {
    match framer.feed(piece) {
        Ok(()) => made(String::from_str(alloc, "fed")),
        Err(FrameFault::NoMemory) => Err(RowFault::NoMemory),
        Err(fault) => made(format!(in alloc; "{fault:?}")),
    }
}

/// The next body, if there is one.
fn next_text(alloc: Global, framer: &mut Framer) -> Result<Option<String>, RowFault> {
    match framer.next(alloc)? {
        Some(body) => Ok(Some(hex_text(alloc, body.bytes())?)),
        None => Ok(None),
    }
}

fn tell_bodies(alloc: Global, told: &mut Telling, framer: &mut Framer, most: usize) {
    for _ in 0..most {
        match next_text(alloc, framer) {
            Ok(Some(body)) => told.tell(" ", Ok(body)),
            Ok(None) => break,
            Err(fault) => return told.tell("", Err(fault)),
        }
    }
}

fn tell_feed(alloc: Global, told: &mut Telling, framer: &mut Framer, word: &str) {
    match bytes(alloc, word) {
        Ok(piece) => {
            told.tell(", ", fed(alloc, framer, &piece));
            tell_bodies(alloc, told, framer, piece.len());
        }
        Err(fault) => told.tell("", Err(fault)),
    }
}

fn tell_feeds(alloc: Global, told: &mut Telling, framer: &mut Framer, words: &[&str]) {
    for word in words {
        tell_feed(alloc, told, framer, word);
    }
}

/// Each feed of a piece, with the bodies that are there after it: HEX HEX ..
pub fn framed(alloc: Global, text: &str) -> Answered {
    let words = words(alloc, text)?;
    let mut framer = Framer::new(alloc);
    let mut told = Telling::new(alloc);
    tell_feeds(alloc, &mut told, &mut framer, &words);
    told.finish()
}

fn add_pieces(alloc: Global, pieces: &mut Vec<Piece>, words: &[&str]) -> Result<(), RowFault> {
    for word in words {
        let bytes = bytes(alloc, word)?;
        pieces.push(Piece::from(alloc, &bytes)?)?;
    }
    Ok(())
}

fn stream_text(alloc: Global, pieces: &[Piece]) -> Answered {
    let (bodies, fault) = frames_in(alloc, pieces)?;
    let mut told = Telling::new(alloc);
    for body in bodies.as_slice() {
        told.tell(" ", hex_text(alloc, body.bytes()));
    }
    if let Some(fault) = fault {
        told.tell(" ", made(format!(in alloc; "{fault:?}")));
    }
    told.finish()
}

/// The bodies of a stream in pieces, and its fault, where it has one: HEX HEX ..
pub fn streamed(alloc: Global, text: &str) -> Answered {
    let words = words(alloc, text)?;
    let mut pieces = Vec::new(alloc);
    add_pieces(alloc, &mut pieces, &words)?;
    stream_text(alloc, &pieces)
}

/// The frame of a body: HEX.
pub fn written(alloc: Global, text: &str) -> Answered {
    let body = bytes(alloc, text)?;
    if body.len() > LONGEST_BODY {
        return Err(RowFault::BadRow);
    }
    hex_text(alloc, write_frame(alloc, &body)?.bytes())
}

/// The registry of alpha and beta.
const REGISTRY: &str =
    "[[node]]\nidentity = \"alpha\"\ndisplay_name = \"A\"\nendpoints = [\"x\"]\n[[node]]\nidentity = \"beta\"\ndisplay_name = \"B\"\nendpoints = [\"x\"]\n";

fn wrong_name_text(alloc: Global, expected: &NodeId, found: &NodeId) -> Answered {
    let expected = text_of(alloc, expected.bytes())?;
    let found = text_of(alloc, found.bytes())?;
    made(format!(in alloc; "WrongName expected {expected} found {found}"))
}

fn fault_text(alloc: Global, fault: &LinkFault) -> Answered {
    match fault {
        LinkFault::Unknown { identity } => {
            let identity = text_of(alloc, identity.bytes())?;
            made(format!(in alloc; "Unknown {identity}"))
        }
        LinkFault::WrongName { expected, found } => wrong_name_text(alloc, expected, found),
        LinkFault::NotHello => made(String::from_str(alloc, "NotHello")),
    }
}

/// The greeting of a node to beta.
fn hello_text(alloc: Global, name: &str, beta: NodeId) -> Answered {
    let opening = Opening::new(node(name)?, beta, true);
    hex_text(alloc, opening.hello(alloc)?.bytes())
}

/// How beta takes the body of a greeting.
fn taken_text(alloc: Global, opening: Opening, registry: &Registry, body: &[u8]) -> Answered {
    match opening.on_frame(registry, body) {
        Ok(named) => {
            let peer = text_of(alloc, named.peer().bytes())?;
            made(format!(in alloc; "named {peer}"))
        }
        Err((_, fault)) => fault_text(alloc, &fault),
    }
}

/// How beta, which expects alpha, takes the body of a greeting, in a registry of alpha and beta: HEX. With the name of
/// a node in place of it, that node's greeting to beta.
pub fn greeted(alloc: Global, text: &str) -> Answered {
    let (alpha, beta) = (node("alpha")?, node("beta")?);
    if let Some(name) = text.strip_prefix("of ") {
        return hello_text(alloc, name, beta);
    }
    let body = bytes(alloc, text)?;
    match Registry::read(alloc, REGISTRY.as_bytes()) {
        Ok(registry) => taken_text(alloc, Opening::new(beta, alpha, false), &registry, &body),
        Err(_) => Err(RowFault::NoMemory),
    }
}

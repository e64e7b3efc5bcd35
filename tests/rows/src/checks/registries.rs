//! Registries. A row has the text of one, with \n for the end of a line.
use crate::words::{Answered, RowFault, Telling, halves, made, nodes, text_of};
use spl_base::NodeId;
use spl_registry::{Registry, RegistryFault};
use std::alloc::Global;

/// The text with its ends of lines.
fn lines_of(alloc: Global, text: &str) -> Answered {
    let mut lines = String::new(alloc);
    for (at, part) in text.split("\\n").enumerate() {
        if at > 0 {
            lines.push_str("\n")?;
        }
        lines.push_str(part)?;
    }
    Ok(lines)
}

fn entry_text(alloc: Global, node: &NodeId, endpoint: &[u8]) -> Answered {
    let node = text_of(alloc, node.bytes())?;
    let endpoint = text_of(alloc, endpoint)?;
    made(format!(in alloc; "{node} at {endpoint}"))
}

/// The nodes in order, and where each is reached.
fn tell_entries(alloc: Global, told: &mut Telling, registry: &Registry) {
    told.tell("", made(format!(in alloc; "{} nodes", registry.len())));
    for slot in 0..registry.len() {
        told.tell(
            ", ",
            entry_text(alloc, &registry.node(slot), registry.endpoint(slot)),
        );
    }
}

/// Whether a node is known, and at which position.
fn place_text(alloc: Global, registry: &Registry, node: &NodeId) -> Answered {
    let name = text_of(alloc, node.bytes())?;
    let known = if registry.knows(node) {
        "known"
    } else {
        "unknown"
    };
    match registry.slot(node) {
        Some(slot) => made(format!(in alloc; "{} {known} at {slot}", name.as_str())),
        None => made(format!(in alloc; "{} {known} nowhere", name.as_str())),
    }
}

fn registry_text(alloc: Global, registry: &Registry, asked: &[NodeId]) -> Answered {
    let mut told = Telling::new(alloc);
    tell_entries(alloc, &mut told, registry);
    for node in asked {
        told.tell(", ", place_text(alloc, registry, node));
    }
    told.finish()
}

/// The nodes of a registry, and the positions of some: NODE,NODE .. TEXT. - asks for none.
pub fn read(alloc: Global, text: &str) -> Answered {
    let (asked, text) = halves(text, ' ')?;
    let asked = nodes(alloc, asked)?;
    let lines = lines_of(alloc, text)?;
    match Registry::read(alloc, lines.as_bytes()) {
        Ok(registry) => registry_text(alloc, &registry, &asked),
        Err(RegistryFault::NoMemory) => Err(RowFault::NoMemory),
        Err(fault) => made(format!(in alloc; "{fault:?}")),
    }
}

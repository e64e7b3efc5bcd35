//! Definitions of circuits. A row has the line that proposes one, or form and the bytes of one.
use crate::words::{
    Answered, RowFault, Telling, bytes, halves, hex_text, made, node, service, text_of,
};
use spl_base::{Malformed, NodeId, Reader, Value};
use spl_circuit::Definition;
use spl_router::route;
use std::alloc::Global;

/// The definition of a row.
pub fn definition(alloc: Global, text: &str) -> Result<Definition, RowFault> {
    if let Some(hex) = text.strip_prefix("form ") {
        let bytes = bytes(alloc, hex)?;
        let mut reader = Reader::new(&bytes);
        return match Definition::read(alloc, &mut reader) {
            Ok(definition) => Ok(definition),
            Err(Malformed::NoMemory) => Err(RowFault::NoMemory),
            Err(_) => Err(RowFault::BadRow),
        };
    }
    crate::words::definition(alloc, text)
}

fn judged_text(alloc: Global, definition: &Definition) -> Answered {
    if let Some(rule) = definition.fault() {
        return made(format!(in alloc; "breaks rule {rule}"));
    }
    let hash = definition.hash(alloc)?;
    let mut told = Telling::new(alloc);
    told.tell("", made(format!(in alloc; "good")));
    told.tell(", ", hex_text(alloc, &hash));
    told.tell(
        ", acts by ",
        text_of(alloc, definition.admin_coordinator().bytes()),
    );
    told.tell(
        ", batches by ",
        text_of(alloc, definition.service_coordinator().bytes()),
    );
    told.finish()
}

/// The first broken rule, or the hash and the nodes that lead: DEFINITION.
pub fn judged(alloc: Global, text: &str) -> Answered {
    let definition = definition(alloc, text)?;
    judged_text(alloc, &definition)
}

fn compared_with(alloc: Global, definition: &Definition, line: &str) -> Answered {
    let other = self::definition(alloc, line)?;
    let copy = other.copy(alloc)?;
    let same = if definition.same(&copy) {
        "equal"
    } else {
        "different"
    };
    made(String::from_str(alloc, same))
}

/// Whether a definition and the copy of another are equal: DEFINITION / DEFINITION.
pub fn compared(alloc: Global, text: &str) -> Answered {
    let (line, other) = halves(text, '/')?;
    let definition = definition(alloc, line.trim())?;
    compared_with(alloc, &definition, other.trim())
}

fn member_text(alloc: Global, definition: &Definition, node: &NodeId) -> Answered {
    let member = definition.is_member(node);
    match definition.service_of(node) {
        Some(service) => {
            let service = text_of(alloc, service.bytes())?;
            made(format!(in alloc; "member {member}, service {service}"))
        }
        None => made(format!(in alloc; "member {member}, no service")),
    }
}

/// Whether a node is a member, and its service: NODE DEFINITION.
pub fn service_at(alloc: Global, text: &str) -> Answered {
    let (name, rest) = halves(text, ' ')?;
    let node = node(name)?;
    let definition = definition(alloc, rest)?;
    member_text(alloc, &definition, &node)
}

/// The first test of routing that fails: bound or unbound, active or inactive, the node that it comes from, from
/// which service to which, the node here, and DEFINITION.
pub fn routed(alloc: Global, text: &str) -> Answered {
    let mut rest = text;
    let mut parts = Vec::new(alloc);
    for _ in 0..6 {
        let (part, after) = halves(rest, ' ')?;
        parts.push(part)?;
        rest = after;
    }
    let definition = definition(alloc, rest)?;
    let [bound, active, from, sender, recipient, here] = parts.as_slice() else {
        return Err(RowFault::BadRow);
    };
    let known = if *bound == "bound" {
        Some(&definition)
    } else {
        None
    };
    let way = route(
        known,
        *active == "active",
        &node(from)?,
        &service(sender)?,
        &service(recipient)?,
        &node(here)?,
    );
    match way {
        Ok(_) => Ok(String::from_str(alloc, "routed")?),
        Err(fault) => Ok(format!(in alloc; "{fault:?}")?),
    }
}

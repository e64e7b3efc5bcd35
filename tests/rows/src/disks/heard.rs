//! Events of rows: lines of a schedule, and what another node says.
use crate::words::{RowFault, circuit, event, long, node, number, service, words};
use spl_agree::{CommitMsg, Generation, Round};
use spl_base::{Boxed, CircuitId, NodeId};
use spl_circuit::{Act, ActKind};
use spl_wire::{Event, Message};
use std::alloc::Global;

/// An event, and its circuit.
#[derive(Drop)]
pub struct Asked {
    pub circuit: CircuitId,
    pub event: Event,
}

/// What a node says about a circuit: GENERATION and accept TURN, yes-act ROUND or yes-batch ROUND SERVICE SERVICE.
fn said(from: NodeId, circuit: CircuitId, words: &[&str]) -> Result<Message, RowFault> {
    let [generation, kind, rest @ ..] = words else {
        return Err(RowFault::BadRow);
    };
    let generation = Generation(long(generation)?);
    match (*kind, rest) {
        ("accept", [turn]) => Ok(Message::Admin {
            circuit,
            body: CommitMsg::Forward {
                generation,
                value: Act {
                    node: from,
                    turn: long(turn)?,
                    kind: ActKind::Accept,
                },
            },
        }),
        ("yes-act", [round]) => Ok(Message::Admin {
            circuit,
            body: CommitMsg::Vote {
                generation,
                round: Round(number(round)?),
                yes: true,
            },
        }),
        ("yes-batch", [round, sender, recipient]) => Ok(Message::Scabbard {
            circuit,
            from: service(sender)?,
            to: service(recipient)?,
            body: CommitMsg::Vote {
                generation,
                round: Round(number(round)?),
                yes: true,
            },
        }),
        _ => Err(RowFault::BadRow),
    }
}

/// What a node hears: FROM CIRCUIT and what it says.
pub fn heard(alloc: Global, here: &NodeId, text: &str) -> Result<Asked, RowFault> {
    let all = words(alloc, text)?;
    let [from, about, rest @ ..] = all.as_slice() else {
        return Err(RowFault::BadRow);
    };
    let (from, circuit) = (node(from)?, circuit(about)?);
    if from == *here {
        return Err(RowFault::BadRow);
    }
    let message = Boxed::new(alloc, said(from, circuit, rest)?)?;
    let event = Event::Deliver { from, message };
    Ok(Asked { circuit, event })
}

/// Whether an event is one of this circuit that no other node is heard in, which a node asks of its caller.
fn is_own(circuit: &CircuitId, event: &Event) -> bool {
    match event {
        Event::Propose(definition) => {
            let definition = definition.get();
            definition.id == *circuit && definition.fault().is_none()
        }
        Event::Deliver { .. } => false,
        _ => true,
    }
}

/// The event of a schedule's line at this node.
pub fn event_of(alloc: Global, here: &NodeId, line: &str) -> Result<Asked, RowFault> {
    let all = words(alloc, line)?;
    let [_, at, about, ..] = all.as_slice() else {
        return Err(RowFault::BadRow);
    };
    let (at, circuit) = (node(at)?, circuit(about)?);
    let event = event(alloc, line)?;
    if at != *here || !is_own(&circuit, &event) {
        return Err(RowFault::BadRow);
    }
    Ok(Asked { circuit, event })
}

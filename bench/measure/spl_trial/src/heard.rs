//! Events that a cell may have.
ghost use Rattle.std.specs.Prelude.{◌≡◌, true, false, List, ℕ, IsTrue, IfOk};
ghost use Rattle.std.specs.Str.{bytes_eq};
ghost use Rattle.spl_circuit.specs.Forms.{definition};
ghost use Rattle.spl_cell_rules.specs.Valid.{IsFor};
ghost use Rattle.spl_node.specs.Records.{site_at};
ghost use Rattle.spl_trial.specs.About.{IsAbout};

use spl_agree::{CommitMsg, Generation, Round};
use spl_base::{Boxed, CircuitId, NodeId, ServiceId, Writer};
use spl_circuit::{Act, ActKind, Definition, valid_definitions_have_a_form};
use spl_wire::{Event, Message};
use std::alloc::{AllocError, Global};

/// The vote for a round of the admin group.
#[tactic(auto, using(crate::proofs::About::act_vote_about))]
pub fn act_vote(circuit: CircuitId, generation: Generation, round: Round) -> Message
    ensures { IsAbout circuit result }
{
    let _ = circuit.bytes();
    Message::Admin {
        circuit,
        body: CommitMsg::Vote {
            generation,
            round,
            yes: true,
        },
    }
}

/// The vote for a round of the service group.
#[tactic(auto, using(crate::proofs::About::batch_vote_about))]
pub fn batch_vote(
    circuit: CircuitId,
    generation: Generation,
    round: Round,
    from: ServiceId,
    to: ServiceId,
) -> Message
    ensures { IsAbout circuit result }
{
    let _ = circuit.bytes();
    let _ = from.bytes();
    let _ = to.bytes();
    Message::Scabbard {
        circuit,
        from,
        to,
        body: CommitMsg::Vote {
            generation,
            round,
            yes: true,
        },
    }
}

/// The acceptance of a node, which it forwards.
#[tactic(auto, using(crate::proofs::About::acceptance_about))]
pub fn acceptance(circuit: CircuitId, generation: Generation, node: NodeId, turn: u32) -> Message
    ensures { IsAbout circuit result }
{
    let _ = circuit.bytes();
    let _ = node.bytes();
    Message::Admin {
        circuit,
        body: CommitMsg::Forward {
            generation,
            value: Act {
                node,
                turn,
                kind: ActKind::Accept,
            },
        },
    }
}

/// The delivery of a message from another node.
pub fn delivery(
    alloc: Global,
    here: &NodeId,
    circuit: &CircuitId,
    from: NodeId,
    message: Message,
) -> Result<Event, AllocError>
    requires other { bytes_eq from here.now ≡ false }
    requires about { IsAbout circuit.now message }
    ensures { IfOk result (λ e. IsFor (site_at here.now circuit.now) e) }
{
    let message = Boxed::new(alloc, message)?;
    Ok(Event::Deliver { from, message })
}

/// Whether a definition is one for this circuit that breaks no rule.
fn is_proposed(
    alloc: Global,
    circuit: &CircuitId,
    proposed: &Definition,
) -> Result<bool, AllocError>
    ensures { IfOk result (λ good. good ≡ true → (bytes_eq proposed.now.id circuit.now ≡ true) × IsTrue (definition.fits proposed.now)) }
{
    if proposed.id != *circuit || proposed.fault().is_some() {
        return Ok(false);
    }
    valid_definitions_have_a_form();
    let mut writer = Writer::new(alloc);
    proposed.write(alloc, &mut writer)?;
    Ok(true)
}

/// Whether an event is one of this circuit, that no other node is heard in.
pub fn is_own(alloc: Global, circuit: &CircuitId, event: &Event) -> Result<bool, AllocError>
    ensures { (here : List ℕ) → IfOk result (λ good. good ≡ true → IsFor (site_at here circuit.now) event.now) }
{
    match event {
        Event::Propose(definition) => is_proposed(alloc, circuit, definition.get()),
        Event::Deliver { .. } => Ok(false),
        _ => Ok(true),
    }
}

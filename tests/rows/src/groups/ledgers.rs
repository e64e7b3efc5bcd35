//! Acts on a circuit of alpha, beta and gamma, and what they bring it to. An act is NODE:propose:NAME, by the name of
//! the definition, NODE:accept, NODE:reject or NODE:remove; the circuit's own name is trade. NAME:2 is a definition of
//! version 2, and for that NODE:disband, NODE:disband-accept:PLACE, NODE:disband-reject:PLACE and NODE:disband-remove:PLACE.
use crate::words::{
    Answered, RowFault, Telling, byte, definition, halves, long, made, name_and_rest, node,
    text_of, words,
};
use spl_admin::Ledger;
use spl_agree::{Admit, Agreed, Place, Reason};
use spl_base::{Value};
use spl_circuit::{Act, ActKind, CheckedDefinition, Definition};
use std::alloc::Global;

/// The definition of a name, of version 1 unless :2 stands after it.
fn definition_of(alloc: Global, title: &str) -> Result<Definition, RowFault> {
    let (name, version) = name_and_rest(title);
    let version = if version.is_empty() { "1" } else { version };
    let line = format!(in alloc;
        "propose alpha Ab3dE-00001 1 {version} grid {name} alpha,beta,gamma aaaa:scabbard:alpha,bbbb:scabbard:beta,cccc:scabbard:gamma"
    )?;
    definition(alloc, line.as_str())
}

fn act(alloc: Global, word: &str, turn: u32) -> Result<Act, RowFault> {
    let (name, deed) = halves(word, ':')?;
    let (deed, title) = name_and_rest(deed);
    let kind = match deed {
        "propose" => ActKind::Propose(CheckedDefinition::new(alloc, definition_of(alloc, title)?)?),
        "accept" => ActKind::Accept,
        "reject" => ActKind::Reject,
        "remove" => ActKind::Remove,
        "disband" => ActKind::Disband,
        "disband-accept" => ActKind::DisbandAccept(Place(long(title)?)),
        "disband-reject" => ActKind::DisbandReject(Place(long(title)?)),
        "disband-remove" => ActKind::DisbandRemove(Place(long(title)?)),
        _ => return Err(RowFault::BadRow),
    };
    Ok(Act {
        node: node(name)?,
        turn,
        kind,
    })
}

/// The reason against an act, which is applied where there is none.
fn offer(alloc: Global, ledger: &mut Ledger, act: Act) -> Result<Option<Reason>, RowFault> {
    if ledger.acts() == u32::MAX {
        return Err(RowFault::BadRow);
    }
    if let Some(reason) = ledger.check(alloc, &act)? {
        return Ok(Some(reason));
    }
    ledger.apply(alloc, act)?;
    Ok(None)
}

fn reason_text(alloc: Global, reason: Option<Reason>) -> Answered {
    match reason {
        Some(reason) => made(format!(in alloc; "refused {} {}", reason.code, reason.at)),
        None => made(format!(in alloc; "taken")),
    }
}

/// What an act of these words is answered.
fn answered(alloc: Global, ledger: &mut Ledger, word: &str) -> Answered {
    let act = act(alloc, word, 1)?;
    let reason = offer(alloc, ledger, act)?;
    reason_text(alloc, reason)
}

/// The ledger of the circuit of this name, to which no act was offered yet.
fn ledger_of(alloc: Global, title: &str) -> Result<Ledger, RowFault> {
    let definition = definition_of(alloc, title)?;
    if definition.fault().is_some() {
        return Err(RowFault::BadRow);
    }
    Ok(Ledger::new(alloc, CheckedDefinition::new(alloc, definition)?))
}

/// What each of the acts is answered in turn.
fn offered(alloc: Global, ledger: &mut Ledger, acts: &[&str]) -> Answered {
    let mut told = Telling::new(alloc);
    for word in acts {
        told.tell(", ", answered(alloc, ledger, word));
    }
    told.finish()
}

fn requester_text(alloc: Global, ledger: &Ledger) -> Answered {
    match ledger.requester() {
        Some(requester) => text_of(alloc, requester.bytes()),
        None => made(String::from_str(alloc, "nobody")),
    }
}

fn accepted_text(alloc: Global, ledger: &Ledger) -> Answered {
    let members = ledger.accepted_members(alloc)?;
    if members.as_slice().is_empty() {
        return made(String::from_str(alloc, "nobody"));
    }
    let mut told = Telling::new(alloc);
    for member in members.as_slice() {
        told.tell(",", text_of(alloc, member.bytes()));
    }
    told.finish()
}

/// The place of the disband that is open, if one is.
fn open_text(alloc: Global, ledger: &Ledger) -> Answered {
    match ledger.disbanding() {
        Some(Place(place)) => made(format!(in alloc; "{place}")),
        None => made(String::from_str(alloc, "none")),
    }
}

/// Where the acts so far bring the circuit.
fn tell_standing(alloc: Global, told: &mut Telling, ledger: &Ledger) {
    let stage = ledger.lifecycle();
    told.tell(": ", made(format!(in alloc; "{stage:?}")));
    told.tell(" by ", requester_text(alloc, ledger));
    told.tell(", accepted by ", accepted_text(alloc, ledger));
    told.tell(", acts ", made(format!(in alloc; "{}", ledger.acts())));
}

/// What each act is answered, and where they bring the circuit: ACT ..
pub fn brought(alloc: Global, text: &str) -> Answered {
    let acts = words(alloc, text)?;
    let mut ledger = ledger_of(alloc, "trade")?;
    let mut told = Telling::new(alloc);
    told.tell("", offered(alloc, &mut ledger, &acts));
    tell_standing(alloc, &mut told, &ledger);
    told.finish()
}

/// The same in a circuit of version 2, after what makes it active, and which disband is open: ACT ..
pub fn disbanded(alloc: Global, text: &str) -> Answered {
    let acts = words(alloc, text)?;
    let mut ledger = ledger_of(alloc, "trade:2")?;
    let active = ["alpha:propose:trade:2", "beta:accept", "gamma:accept"];
    offered(alloc, &mut ledger, &active)?;
    let mut told = Telling::new(alloc);
    told.tell("", offered(alloc, &mut ledger, &acts));
    tell_standing(alloc, &mut told, &ledger);
    told.tell(", open ", open_text(alloc, &ledger));
    told.finish()
}

fn admit_text(alloc: Global, admit: Admit) -> Answered {
    match admit {
        Admit::Take => made(format!(in alloc; "take")),
        Admit::Ignore => made(format!(in alloc; "ignore")),
        Admit::Return(reason) => made(format!(in alloc; "return {} {}", reason.code, reason.at)),
    }
}

/// What becomes of an act that the member at a position forwards after the acts before.
fn admitted(alloc: Global, sender: u8, act: &Act, before: &[&str]) -> Answered {
    let mut ledger = ledger_of(alloc, "trade")?;
    offered(alloc, &mut ledger, before)?;
    admit_text(alloc, ledger.admits(sender, act))
}

/// What becomes of an act that the member at a position forwards: POSITION ACT, and the acts before.
pub fn forwarded(alloc: Global, text: &str) -> Answered {
    let all = words(alloc, text)?;
    let [sender, word, before @ ..] = all.as_slice() else {
        return Err(RowFault::BadRow);
    };
    let sender = byte(sender)?;
    let act = act(alloc, word, 1)?;
    admitted(alloc, sender, &act, before)
}

/// Whether an act that is forwarded to a member that doesn't lead goes back: ACT.
pub fn stray(alloc: Global, text: &str) -> Answered {
    match Ledger::stray(&act(alloc, text, 1)?) {
        Some(reason) => made(format!(in alloc; "return {} {}", reason.code, reason.at)),
        None => made(format!(in alloc; "ignore")),
    }
}

fn compared_text(alloc: Global, a: &Act, b: &Act) -> Answered {
    let keys = if Ledger::key(a) == Ledger::key(b) {
        "one key"
    } else {
        "two keys"
    };
    let values = if Ledger::same(a, b) {
        "equal"
    } else {
        "different"
    };
    made(format!(in alloc; "{keys}, {values}"))
}

/// An act is compared with the copy of one that has these words.
fn compared_with(alloc: Global, act: &Act, word: &str, turn: u32) -> Answered {
    let other = self::act(alloc, word, turn)?;
    let copy = Ledger::copy(alloc, &other)?;
    compared_text(alloc, act, &copy)
}

/// Whether an act and the copy of another have one key, and are equal: ACT TURN ACT TURN.
pub fn compared(alloc: Global, text: &str) -> Answered {
    let all = words(alloc, text)?;
    let [word, turn, other, other_turn] = all.as_slice() else {
        return Err(RowFault::BadRow);
    };
    let (turn, other_turn) = (long(turn)?, long(other_turn)?);
    let act = act(alloc, word, turn)?;
    compared_with(alloc, &act, other, other_turn)
}

//! Texts of answers. A row has the kind of the answer and what it says.
use crate::checks::definitions::definition;
use crate::words::{
    Answered, RowFault, address, batch, byte, bytes, circuit, halves, long, made, name_and_rest,
    node, nodes, number, reason, text_of, words,
};
use spl_agree::{Generation, Note, Place, Round};
use spl_answer::text;
use spl_base::{BatchId, Boxed, Listing, NodeId, Piece, Value};
use spl_circuit::{CheckedDefinition, Lifecycle, Mark, Members, RouteFault};
use spl_command::{Batch, Command, Receipt, Receipts, StateChange, StateEvent, Transaction};
use spl_wire::{Answer, BatchStatus, Bit, Entry, Refusal};
use std::alloc::Global;

/// A hash and a root that begin with a0.
fn digest() -> [u8; 32] {
    let mut digest = [0x0f; 32];
    digest[0] = 0xa0;
    digest
}

/// The notes that have no word after their name.
fn plain_note(name: &str) -> Result<Note, RowFault> {
    Ok(match name {
        "idle" => Note::Idle,
        "forwarded" => Note::Forwarded,
        "ignored" => Note::Ignored,
        "queued" => Note::Queued,
        "off" => Note::Off,
        _ => return Err(RowFault::BadRow),
    })
}

fn round_note(name: &str, round: Round) -> Result<Note, RowFault> {
    Ok(match name {
        "asked" => Note::Asked(round),
        "begun" => Note::Begun(round),
        "expired" => Note::Expired(round),
        "declined" => Note::Declined(round),
        "again" => Note::Again(round),
        "promised" => Note::Promised(round),
        "counted" => Note::Counted(round),
        "committed" => Note::Committed(round),
        "aborted" => Note::Aborted(round),
        "told-commit" => Note::Told(round, true),
        "told-abort" => Note::Told(round, false),
        _ => return Err(RowFault::BadRow),
    })
}

/// idle, asked:ROUND, refused:CODE:TRANSACTION ..
fn note(word: &str) -> Result<Note, RowFault> {
    let (name, rest) = name_and_rest(word);
    match name {
        "refused" => Ok(Note::Refused(reason(rest)?)),
        "returned" => Ok(Note::Returned(reason(rest)?)),
        _ if rest.is_empty() => plain_note(name),
        _ => round_note(name, Round(number(rest)?)),
    }
}

fn route_fault(word: &str) -> Result<RouteFault, RowFault> {
    match word {
        "no-circuit" => Ok(RouteFault::CircuitDoesNotExist),
        "no-sender" => Ok(RouteFault::SenderNotInRoster),
        "no-recipient" => Ok(RouteFault::RecipientNotInRoster),
        "sender-elsewhere" => Ok(RouteFault::SenderNotOnNode),
        "recipient-elsewhere" => Ok(RouteFault::RecipientNotHere),
        _ => Err(RowFault::BadRow),
    }
}

/// The refusals that have no word after their name.
fn plain_refusal(name: &str) -> Result<Refusal, RowFault> {
    Ok(match name {
        "down" => Refusal::Down,
        "no-circuit" => Refusal::NoCircuit,
        "not-member" => Refusal::NotMember,
        "circuit-held" => Refusal::CircuitHeld,
        "act-pending" => Refusal::ActPending,
        "no-proposal" => Refusal::NoProposal,
        "already-voted" => Refusal::AlreadyVoted,
        "not-requester" => Refusal::NotRequester,
        "not-active" => Refusal::NotActive,
        "closed" => Refusal::Closed,
        "id-taken" => Refusal::IdTaken,
        "queue-full" => Refusal::QueueFull,
        "not-purgeable" => Refusal::NotPurgeable,
        "no-message" => Refusal::NoMessage,
        "unknown-id" => Refusal::UnknownId,
        "version-too-low" => Refusal::VersionTooLow,
        _ => return Err(RowFault::BadRow),
    })
}

/// down, no-circuit, bad-definition:RULE ..
fn refusal(word: &str) -> Result<Refusal, RowFault> {
    let (name, rest) = name_and_rest(word);
    match name {
        "bad-definition" => Ok(Refusal::BadDefinition(byte(rest)?)),
        "bad-batch" => Ok(Refusal::BadBatch(byte(rest)?)),
        "not-routed" => Ok(Refusal::NotRouted(route_fault(rest)?)),
        "stale-generation" => Ok(Refusal::StaleGeneration {
            bound: Generation(long(rest)?),
        }),
        "not-proof" => Ok(Refusal::NotProof {
            at: long(rest)? as usize,
        }),
        _ => plain_refusal(name),
    }
}

fn bit(word: &str) -> Result<Bit, RowFault> {
    match word {
        "kept" => Ok(Bit::Kept),
        "lost" => Ok(Bit::Lost),
        "nothing" => Ok(Bit::Nothing),
        _ => Err(RowFault::BadRow),
    }
}

fn lifecycle(word: &str) -> Result<Lifecycle, RowFault> {
    match word {
        "none" => Ok(Lifecycle::None),
        "proposed" => Ok(Lifecycle::Proposed),
        "active" => Ok(Lifecycle::Active),
        "rejected" => Ok(Lifecycle::Rejected),
        "removed" => Ok(Lifecycle::Removed),
        "disbanding" => Ok(Lifecycle::Disbanding),
        "disbanded" => Ok(Lifecycle::Disbanded),
        _ => Err(RowFault::BadRow),
    }
}

fn mark(word: &str) -> Result<Mark, RowFault> {
    match word {
        "open" => Ok(Mark::Open),
        "abandoned" => Ok(Mark::Abandoned),
        "purged" => Ok(Mark::Purged),
        _ => Err(RowFault::BadRow),
    }
}

fn members(alloc: Global, word: &str) -> Result<Members, RowFault> {
    let nodes = nodes(alloc, word)?;
    let mut all = Listing::new(alloc);
    for node in nodes.as_slice() {
        all.push(*node)?;
    }
    Ok(all)
}

/// GENERATION LIFECYCLE MARK ACCEPTED ACTS PENDING BATCHES PENDING
fn show(alloc: Global, rest: &str) -> Result<Answer, RowFault> {
    let words = words(alloc, rest)?;
    let [
        generation,
        stage,
        left,
        accepted,
        acts,
        acts_pending,
        batches,
        batches_pending,
    ] = words.as_slice()
    else {
        return Err(RowFault::BadRow);
    };
    let (generation, lifecycle, mark) = (long(generation)?, lifecycle(stage)?, mark(left)?);
    let (acts, acts_pending) = (long(acts)?, long(acts_pending)?);
    let (batches, batches_pending) = (long(batches)?, long(batches_pending)?);
    Ok(Answer::Show {
        generation: Generation(generation),
        lifecycle,
        mark,
        accepted: members(alloc, accepted)?,
        acts,
        acts_pending,
        batches,
        batches_pending,
    })
}

fn requester(word: &str) -> Result<Option<NodeId>, RowFault> {
    if word == "-" {
        return Ok(None);
    }
    Ok(Some(node(word)?))
}

/// ACCEPTED REQUESTER DEFINITION, of a circuit that is proposed and open.
fn detail(alloc: Global, rest: &str) -> Result<Answer, RowFault> {
    let (accepted, rest) = halves(rest, ' ')?;
    let (word, rest) = halves(rest, ' ')?;
    let requester = requester(word)?;
    let accepted = members(alloc, accepted)?;
    let definition = CheckedDefinition::new(alloc, definition(alloc, rest)?)?;
    Ok(Answer::Detail {
        definition,
        hash: Boxed::new(alloc, digest())?,
        lifecycle: Lifecycle::Proposed,
        mark: Mark::Open,
        accepted,
        requester: Boxed::new(alloc, requester)?,
    })
}

/// Adds what a command would leave: a get leaves nothing.
fn leave(alloc: Global, left: &mut Receipt, command: &Command) -> Result<(), RowFault> {
    match command {
        Command::Set(address, value) => {
            let value = value.copy(alloc)?;
            left.changes.push(StateChange::Set(*address, value))?;
        }
        Command::Delete(address) => left.changes.push(StateChange::Delete(*address))?,
        Command::Event(kind, data) => {
            let (kind, data) = (*kind, data.copy(alloc)?);
            left.events.push(StateEvent { kind, data })?;
        }
        Command::Data(data) => left.returned.push(data.copy(alloc)?)?,
        _ => {}
    }
    Ok(())
}

fn leave_all(alloc: Global, left: &mut Receipt, commands: &[Command]) -> Result<(), RowFault> {
    for command in commands {
        leave(alloc, left, command)?;
    }
    Ok(())
}

/// What a transaction would leave if each of its commands left something.
fn receipt(alloc: Global, transaction: &Transaction) -> Result<Receipt, RowFault> {
    let mut left = Receipt {
        changes: Listing::new(alloc),
        events: Listing::new(alloc),
        returned: Listing::new(alloc),
    };
    leave_all(alloc, &mut left, transaction.commands.as_slice())?;
    Ok(left)
}

fn add_receipts(alloc: Global, receipts: &mut Receipts, batch: &Batch) -> Result<(), RowFault> {
    for transaction in batch.transactions.get().as_slice() {
        receipts.push(receipt(alloc, transaction)?)?;
    }
    Ok(())
}

/// PLACE and the line of a batch whose commands say what was left.
fn receipts(alloc: Global, rest: &str) -> Result<Answer, RowFault> {
    let (place, line) = halves(rest, ' ')?;
    let place = Place(long(place)?);
    let batch = batch(alloc, line)?;
    let mut receipts = Listing::new(alloc);
    add_receipts(alloc, &mut receipts, &batch)?;
    Ok(Answer::Receipt {
        batch: batch.id,
        place,
        receipts,
    })
}

fn entry(alloc: Global, word: &str) -> Result<Entry, RowFault> {
    let (at, value) = halves(word, '=')?;
    let (address, value) = (address(alloc, at)?, bytes(alloc, value)?);
    Ok(Entry {
        address,
        value: Piece::from(alloc, &value)?,
    })
}

/// ADDRESS=VALUE ..
fn entries(alloc: Global, rest: &str) -> Result<Answer, RowFault> {
    let words = words(alloc, rest)?;
    let mut entries = Listing::new(alloc);
    for word in words.as_slice() {
        entries.push(entry(alloc, word)?)?;
    }
    Ok(Answer::Listed(entries))
}

fn history(alloc: Global, rest: &str) -> Result<Answer, RowFault> {
    let words = words(alloc, rest)?;
    let mut ids = Listing::new(alloc);
    for word in words.as_slice() {
        ids.push(BatchId(number(word)?))?;
    }
    Ok(Answer::History(ids))
}

fn roll(alloc: Global, rest: &str) -> Result<Answer, RowFault> {
    let words = words(alloc, rest)?;
    let mut ids = Listing::new(alloc);
    for word in words.as_slice() {
        ids.push(circuit(word)?)?;
    }
    Ok(Answer::Roll(ids))
}

fn status(rest: &str) -> Result<BatchStatus, RowFault> {
    let (name, rest) = rest.split_once(':').unwrap_or((rest, ""));
    match name {
        "committed" => Ok(BatchStatus::Committed(Place(long(rest)?))),
        "pending" => Ok(BatchStatus::Pending),
        "refused" => Ok(BatchStatus::Refused(reason(rest)?)),
        _ => Err(RowFault::BadRow),
    }
}

fn proof(alloc: Global, rest: &str) -> Result<Answer, RowFault> {
    Ok(Answer::Proof {
        root: Boxed::new(alloc, digest())?,
        bytes: Piece::from(alloc, &bytes(alloc, rest)?)?,
    })
}

fn value(alloc: Global, rest: &str) -> Result<Answer, RowFault> {
    Ok(Answer::Value(Some(Piece::from(alloc, &bytes(alloc, rest)?)?)))
}

/// The answers that have no word after their name.
fn plain(name: &str) -> Result<Answer, RowFault> {
    Ok(match name {
        "queued" => Answer::Submitted { known: false },
        "known" => Answer::Submitted { known: true },
        "abandoned" => Answer::Left { purged: false },
        "purged" => Answer::Left { purged: true },
        "up" => Answer::Power { up: true },
        "down" => Answer::Power { up: false },
        "routed" => Answer::Routed,
        "no-value" => Answer::Value(None),
        "yes" => Answer::Checked { accepted: true },
        "no" => Answer::Checked { accepted: false },
        _ => return Err(RowFault::BadRow),
    })
}

/// The notes of a tick: ADMIN SERVICE.
fn notes(rest: &str) -> Result<Answer, RowFault> {
    let (admin, service) = halves(rest, ' ')?;
    let (admin, service) = (note(admin)?, note(service)?);
    Ok(Answer::Notes { admin, service })
}

/// The answers that have one word after their name.
fn short(name: &str, word: &str) -> Result<Answer, RowFault> {
    match name {
        "delivered" => Ok(Answer::Delivered(note(word)?)),
        "refused" => Ok(Answer::Refused(refusal(word)?)),
        "calm" => Ok(Answer::Calm {
            passes: byte(word)?,
        }),
        "cut" => Ok(Answer::Cut(bit(word)?)),
        "fault" => Ok(Answer::Fault(bit(word)?)),
        "root" => Ok(Answer::Root {
            count: long(word)?,
            root: digest(),
        }),
        "status" => Ok(Answer::Status(status(word)?)),
        _ => plain(name),
    }
}

fn answer(alloc: Global, name: &str, rest: &str) -> Result<Answer, RowFault> {
    match name {
        "notes" => notes(rest),
        "show" => show(alloc, rest),
        "detail" => detail(alloc, rest),
        "history" => history(alloc, rest),
        "value" => value(alloc, rest),
        "proof" => proof(alloc, rest),
        "listed" => entries(alloc, rest),
        "receipt" => receipts(alloc, rest),
        "roll" => roll(alloc, rest),
        _ => short(name, rest),
    }
}

/// The text of an answer between signs, since some end with a space.
fn answer_text(alloc: Global, answer: &Answer) -> Answered {
    let text = text(alloc, answer)?;
    let text = text_of(alloc, text.bytes())?;
    made(format!(in alloc; "<{text}>"))
}

/// The text of an answer: the kind of the answer and what it says.
pub fn printed(alloc: Global, row: &str) -> Answered {
    let (name, rest) = row.split_once(' ').unwrap_or((row, ""));
    let answer = answer(alloc, name, rest)?;
    answer_text(alloc, &answer)
}

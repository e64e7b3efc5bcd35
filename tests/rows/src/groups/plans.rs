//! The texts of what a member plans.
use crate::words::{Answered, Telling, made};
use spl_agree::{CommitMsg, GroupChange, GroupPlan, Note, OpenMove};
use std::alloc::{AllocError, Global};

fn note_text(alloc: Global, note: Note) -> Result<String, AllocError> {
    match note {
        Note::Idle => format!(in alloc; "idle"),
        Note::Asked(round) => format!(in alloc; "asked {}", round.0),
        Note::Refused(reason) => format!(in alloc; "refused {} {}", reason.code, reason.at),
        Note::Begun(round) => format!(in alloc; "begun {}", round.0),
        Note::Forwarded => format!(in alloc; "forwarded"),
        Note::Expired(round) => format!(in alloc; "expired {}", round.0),
        Note::Declined(round) => format!(in alloc; "declined {}", round.0),
        Note::Again(round) => format!(in alloc; "again {}", round.0),
        Note::Ignored => format!(in alloc; "ignored"),
        Note::Promised(round) => format!(in alloc; "promised {}", round.0),
        Note::Counted(round) => format!(in alloc; "counted {}", round.0),
        Note::Committed(round) => format!(in alloc; "committed {}", round.0),
        Note::Aborted(round) => format!(in alloc; "aborted {}", round.0),
        Note::Told(round, commit) => format!(in alloc; "told {} {}", round.0, commit),
        Note::Returned(reason) => format!(in alloc; "returned {} {}", reason.code, reason.at),
        Note::Queued => format!(in alloc; "queued"),
        Note::Off => format!(in alloc; "off"),
    }
}

fn change_text(alloc: Global, change: &GroupChange<u64>) -> Result<String, AllocError> {
    match change {
        GroupChange::Queue(value) => format!(in alloc; "queue {value}"),
        GroupChange::Refuse(value, reason) => {
            format!(in alloc; "refuse {} {} {}", value, reason.code, reason.at)
        }
        GroupChange::Begin(round) => format!(in alloc; "begin {}", round.0),
        GroupChange::Seen(round) => format!(in alloc; "seen {}", round.0),
        GroupChange::Promise(round, value) => format!(in alloc; "promise {} {}", round.0, value),
        GroupChange::Abort => format!(in alloc; "abort"),
        GroupChange::Commit(round, value) => format!(in alloc; "commit {} {}", round.0, value),
        GroupChange::Restore { next, seen } => format!(in alloc; "restore {} {}", next.0, seen.0),
        GroupChange::Kept(value, reason) => {
            format!(in alloc; "kept {} {} {}", value, reason.code, reason.at)
        }
    }
}

fn move_text(alloc: Global, opening: OpenMove) -> Result<String, AllocError> {
    match opening {
        OpenMove::Keep => format!(in alloc; "keep"),
        OpenMove::Begin(round) => format!(in alloc; "open {}", round.0),
        OpenMove::Yes(member) => format!(in alloc; "yes {member}"),
        OpenMove::Close => format!(in alloc; "close"),
    }
}

fn message_text(alloc: Global, message: &CommitMsg<u64>) -> Result<String, AllocError> {
    match message {
        CommitMsg::VoteRequest {
            generation,
            round,
            place,
            value,
        } => {
            format!(in alloc;
                "request {} {} {} {}",
                generation.0, round.0, place.0, value
            )
        }
        CommitMsg::Vote {
            generation,
            round,
            yes,
        } => format!(in alloc; "vote {} {} {}", generation.0, round.0, yes),
        CommitMsg::Decision {
            generation,
            round,
            commit,
        } => format!(in alloc; "decision {} {} {}", generation.0, round.0, commit),
        CommitMsg::DecisionRequest { generation, round } => {
            format!(in alloc; "ask {} {}", generation.0, round.0)
        }
        CommitMsg::Forward { generation, value } => {
            format!(in alloc; "forward {} {}", generation.0, value)
        }
        CommitMsg::Refused {
            generation,
            value,
            reason,
        } => {
            format!(in alloc;
                "refused {} {} {} {}",
                generation.0, value, reason.code, reason.at
            )
        }
    }
}

fn sent_text(alloc: Global, to: u8, message: &CommitMsg<u64>) -> Answered {
    let message = message_text(alloc, message)?;
    made(format!(in alloc; "{to} {message}"))
}

/// The note, the changes, the move of the open round and the messages, each part after a bar.
pub fn plan_text(alloc: Global, plan: &GroupPlan<u64>) -> Answered {
    let mut told = Telling::new(alloc);
    told.tell("", made(note_text(alloc, plan.note)));
    for change in plan.changes.as_slice() {
        told.tell(" | ", made(change_text(alloc, change)));
    }
    told.tell(" | ", made(move_text(alloc, plan.opening)));
    for (to, message) in plan.sends.as_slice() {
        told.tell(" | ", sent_text(alloc, *to, message));
    }
    told.finish()
}

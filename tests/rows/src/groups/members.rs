//! What a member of a group of three plans, tells and knows. A row has the position of the member, the changes that it
//! was given, and open:1,2 where its round is open, with those that have not voted yes. The first member leads.
use crate::groups::numbers::Numbers;
use crate::groups::plans::plan_text;
use crate::groups::seats::{GENERATION, change, give_all, seat, wait_for};
use crate::words::{Answered, RowFault, byte, halves, long, made, number, reason, words};
use spl_agree::{CommitMsg, GroupChange, GroupEvent, GroupPlan, Place, Round};
use spl_commit::Member;
use std::alloc::Global;

/// What is asked of a member.
#[derive(Clone, Copy)]
enum Asked<'a> {
    /// What it plans for an event.
    Plan(&'a [&'a str]),
    /// What it tells of itself after a stop.
    Restarted,
    /// What it knows of a key.
    Known(u64),
    /// Whether a change fits it.
    Fits(&'a GroupChange<u64>),
}

/// Brings a member where a row has it.
fn bring(
    alloc: Global,
    member: &mut Member<Numbers>,
    here: u8,
    given: &[&str],
) -> Result<(), RowFault> {
    if let Some((last, before)) = given.split_last() {
        if let Some(waited) = last.strip_prefix("open:") {
            if here != 0 {
                return Err(RowFault::BadRow);
            }
            give_all(alloc, member, 0, before)?;
            return wait_for(alloc, member, waited);
        }
    }
    give_all(alloc, member, here, given)
}

fn truth(word: &str, yes: &str, no: &str) -> Result<bool, RowFault> {
    if word == yes {
        return Ok(true);
    }
    if word == no {
        Ok(false)
    } else {
        Err(RowFault::BadRow)
    }
}

/// request ROUND PLACE VALUE, vote ROUND yes, decision ROUND commit, ask ROUND, forward VALUE or refused VALUE CODE:AT.
fn message(words: &[&str]) -> Result<CommitMsg<u64>, RowFault> {
    let generation = GENERATION;
    match words {
        ["request", round, place, value] => Ok(CommitMsg::VoteRequest {
            generation,
            round: Round(number(round)?),
            place: Place(long(place)?),
            value: number(value)?,
        }),
        ["vote", round, yes] => Ok(CommitMsg::Vote {
            generation,
            round: Round(number(round)?),
            yes: truth(yes, "yes", "no")?,
        }),
        ["decision", round, commit] => Ok(CommitMsg::Decision {
            generation,
            round: Round(number(round)?),
            commit: truth(commit, "commit", "abort")?,
        }),
        ["ask", round] => Ok(CommitMsg::DecisionRequest {
            generation,
            round: Round(number(round)?),
        }),
        ["forward", value] => Ok(CommitMsg::Forward {
            generation,
            value: number(value)?,
        }),
        ["refused", value, why] => Ok(CommitMsg::Refused {
            generation,
            value: number(value)?,
            reason: reason(why)?,
        }),
        _ => Err(RowFault::BadRow),
    }
}

/// The plan for a value of the member's own node, which is one that it doesn't know.
fn submitted(
    alloc: Global,
    member: &Member<Numbers>,
    here: u8,
    value: u64,
) -> Result<GroupPlan<u64>, RowFault> {
    if !member.fits(alloc, &GroupChange::Queue(value))? {
        return Err(RowFault::BadRow);
    }
    Ok(member.plan(alloc, &GroupEvent::Submit(value))?)
}

/// The plan for a message from another position.
fn heard(
    alloc: Global,
    member: &Member<Numbers>,
    here: u8,
    sender: u8,
    message: CommitMsg<u64>,
) -> Result<GroupPlan<u64>, RowFault> {
    if sender == here {
        return Err(RowFault::BadRow);
    }
    Ok(member.plan(alloc, &GroupEvent::From { sender, message })?)
}

/// The plan for an event: tick, expire, submit VALUE, or from SENDER MESSAGE.
fn plan(
    alloc: Global,
    member: &Member<Numbers>,
    here: u8,
    event: &[&str],
) -> Result<GroupPlan<u64>, RowFault> {
    match event {
        ["tick"] => Ok(member.plan(alloc, &GroupEvent::Tick)?),
        ["expire"] => Ok(member.plan(alloc, &GroupEvent::Expire)?),
        ["submit", value] => submitted(alloc, member, here, number(value)?),
        ["from", sender, rest @ ..] => heard(alloc, member, here, byte(sender)?, message(rest)?),
        _ => Err(RowFault::BadRow),
    }
}

fn planned_text(alloc: Global, member: &Member<Numbers>, here: u8, event: &[&str]) -> Answered {
    let plan = plan(alloc, member, here, event)?;
    plan_text(alloc, &plan)
}

fn promise_text(alloc: Global, member: &Member<Numbers>) -> Answered {
    match member.promise() {
        Some((round, value)) => made(format!(in alloc; "promised {} {value}", round.0)),
        None => made(format!(in alloc; "free")),
    }
}

fn member_text(alloc: Global, member: &Member<Numbers>) -> Answered {
    let promise = promise_text(alloc, member)?;
    made(format!(in alloc;
        "{} committed, {}, seen {}, next {}, {} pending",
        member.history_len().0,
        promise.as_str(),
        member.seen().0,
        member.next().0,
        member.queue().len()
    ))
}

fn known_text(alloc: Global, member: &Member<Numbers>, key: u64) -> Answered {
    match member.known(&key) {
        Some(value) => made(format!(in alloc; "{value}")),
        None => made(format!(in alloc; "nothing")),
    }
}

fn fitting_text(
    alloc: Global,
    member: &Member<Numbers>,
    here: u8,
    change: &GroupChange<u64>,
) -> Answered {
    let fits = member.fits(alloc, change)?;
    made(format!(in alloc; "{fits}"))
}

/// What a member answers once it is brought where a row has it.
fn answer(
    alloc: Global,
    member: &mut Member<Numbers>,
    here: u8,
    given: &[&str],
    asked: Asked<'_>,
) -> Answered {
    bring(alloc, member, here, given)?;
    match asked {
        Asked::Plan(event) => planned_text(alloc, member, here, event),
        Asked::Restarted => {
            member.restart();
            member_text(alloc, member)
        }
        Asked::Known(key) => known_text(alloc, member, key),
        Asked::Fits(change) => fitting_text(alloc, member, here, change),
    }
}

/// What the member of a row answers: HERE CHANGE ..
fn answered(alloc: Global, row: &str, asked: Asked<'_>) -> Answered {
    let (here, rest) = row.split_once(' ').unwrap_or((row, ""));
    let here = byte(here)?;
    if here >= 3 {
        return Err(RowFault::BadRow);
    }
    let given = words(alloc, rest)?;
    let mut member = seat(alloc, here);
    answer(alloc, &mut member, here, &given, asked)
}

/// What a member plans: MEMBER / EVENT.
pub fn planned(alloc: Global, text: &str) -> Answered {
    let (before, event) = halves(text, '/')?;
    let event = words(alloc, event)?;
    answered(alloc, before, Asked::Plan(&event))
}

/// What a member tells of itself after a stop: MEMBER.
pub fn told(alloc: Global, text: &str) -> Answered {
    answered(alloc, text, Asked::Restarted)
}

/// What a member knows of a key: KEY MEMBER.
pub fn known(alloc: Global, text: &str) -> Answered {
    let (key, rest) = halves(text, ' ')?;
    answered(alloc, rest, Asked::Known(number(key)?))
}

/// Whether a change fits a member: MEMBER / CHANGE.
pub fn fitting(alloc: Global, text: &str) -> Answered {
    let (before, word) = halves(text, '/')?;
    let change = change(word.trim())?;
    answered(alloc, before, Asked::Fits(&change))
}

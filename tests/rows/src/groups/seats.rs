//! A member of a group of three with numbers as its values, brought where a row has it.
use crate::groups::numbers::Numbers;
use crate::words::{RowFault, halves, name_and_rest, number, reason};
use spl_agree::{Generation, GroupChange, OpenMove, Round};
use spl_commit::Member;
use std::alloc::Global;

/// The generation of the group and of each message.
pub const GENERATION: Generation = Generation(7);

fn round(word: &str) -> Result<Round, RowFault> {
    Ok(Round(number(word)?))
}

fn round_and_value(words: &str) -> Result<(Round, u64), RowFault> {
    let (at, value) = halves(words, ':')?;
    Ok((round(at)?, number(value)?))
}

/// queue:VALUE, refuse:VALUE:CODE:AT, begin:ROUND, seen:ROUND, promise:ROUND:VALUE, abort, commit:ROUND:VALUE or
/// rounds:NEXT:SEEN.
pub fn change(word: &str) -> Result<GroupChange<u64>, RowFault> {
    let (name, rest) = name_and_rest(word);
    match name {
        "queue" => Ok(GroupChange::Queue(number(rest)?)),
        "refuse" => {
            let (value, why) = halves(rest, ':')?;
            Ok(GroupChange::Refuse(number(value)?, reason(why)?))
        }
        "begin" => Ok(GroupChange::Begin(round(rest)?)),
        "seen" => Ok(GroupChange::Seen(round(rest)?)),
        "promise" => {
            let (round, value) = round_and_value(rest)?;
            Ok(GroupChange::Promise(round, value))
        }
        "abort" => Ok(GroupChange::Abort),
        "commit" => {
            let (round, value) = round_and_value(rest)?;
            Ok(GroupChange::Commit(round, value))
        }
        "rounds" => {
            let (next, seen) = halves(rest, ':')?;
            Ok(GroupChange::Restore {
                next: round(next)?,
                seen: round(seen)?,
            })
        }
        _ => Err(RowFault::BadRow),
    }
}

/// Makes a change, where it fits.
fn give(alloc: Global, member: &mut Member<Numbers>, here: u8, word: &str) -> Result<(), RowFault> {
    let change = change(word)?;
    if !member.fits(alloc, &change)? {
        return Err(RowFault::BadRow);
    }
    member.apply(alloc, change)?;
    Ok(())
}

/// Makes changes in order, where each fits.
pub fn give_all(
    alloc: Global,
    member: &mut Member<Numbers>,
    here: u8,
    given: &[&str],
) -> Result<(), RowFault> {
    for word in given {
        give(alloc, member, here, word)?;
    }
    Ok(())
}

/// The member at a position, of which the first leads, before any change.
pub fn seat(alloc: Global, here: u8) -> Member<Numbers> {
    let content = Numbers {
        applied: Vec::new(alloc),
    };
    Member::new(alloc, content, GENERATION, 3, 0, here)
}

/// Opens the round that was begun last, about the first pending value.
fn open(alloc: Global, member: &mut Member<Numbers>) -> Result<(), RowFault> {
    let Some(value) = member.queue().first().copied() else {
        return Err(RowFault::BadRow);
    };
    let next = member.next();
    if next.0 == 0 || !member.fits(alloc, &GroupChange::Commit(next, value))? {
        return Err(RowFault::BadRow);
    }
    member.move_open(OpenMove::Begin(Round(next.0 - 1)));
    Ok(())
}

/// Opens the round that was begun last, and counts the yes of one that isn't among those that are waited for.
pub fn wait_for(alloc: Global, member: &mut Member<Numbers>, waited: &str) -> Result<(), RowFault> {
    open(alloc, member)?;
    match waited {
        "1,2" => Ok(()),
        "1" => {
            member.move_open(OpenMove::Yes(2));
            Ok(())
        }
        "2" => {
            member.move_open(OpenMove::Yes(1));
            Ok(())
        }
        _ => Err(RowFault::BadRow),
    }
}

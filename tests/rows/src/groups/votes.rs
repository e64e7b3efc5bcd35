//! The states of a coordinator.
use crate::words::{Answered, RowFault, Telling, byte, halves, made, number, words};
use spl_agree::Round;
use spl_coord::{Idle, Voted, Voting, decision_of, is_empty};
use std::alloc::Global;

/// ROUND:MEMBER:yes or no.
fn vote(word: &str) -> Result<(Round, u8, bool), RowFault> {
    let (round, rest) = halves(word, ':')?;
    let (member, yes) = halves(rest, ':')?;
    let (round, member) = (Round(number(round)?), byte(member)?);
    if member >= 8 {
        return Err(RowFault::BadRow);
    }
    Ok((round, member, yes == "yes"))
}

/// What a vote gives, and the voting where it goes on.
fn vote_on(
    alloc: Global,
    voting: Voting<u64>,
    round: Round,
    member: u8,
    yes: bool,
) -> (Answered, Option<Voting<u64>>) {
    match voting.on_vote(round, member, yes) {
        Voted::Ignored(still) => (made(format!(in alloc; "ignored")), Some(still)),
        Voted::Counted(still) => {
            let missing = still.missing();
            let answer = made(format!(in alloc; "counted, {missing} missing"));
            (answer, Some(still))
        }
        Voted::Committed(_, round, value) => {
            (
                made(format!(in alloc; "committed {} {value}", round.0)),
                None,
            )
        }
        Voted::Aborted(_, round, value) => {
            (made(format!(in alloc; "aborted {} {value}", round.0)), None)
        }
    }
}

fn answered(alloc: Global, voting: Voting<u64>, word: &str) -> (Answered, Option<Voting<u64>>) {
    match vote(word) {
        Ok((round, member, yes)) => vote_on(alloc, voting, round, member, yes),
        Err(fault) => (Err(fault), None),
    }
}

/// What each vote gives, up to the one that ends the voting.
fn told(alloc: Global, voting: Voting<u64>, votes: &[&str]) -> Answered {
    let mut voting = voting;
    let mut told = Telling::new(alloc);
    for word in votes {
        let (answer, still) = answered(alloc, voting, word);
        told.tell(", ", answer);
        match still {
            Some(still) => voting = still,
            None => break,
        }
    }
    told.finish()
}

/// What each vote on a round gives: ROUND VALUE OTHERS VOTE .., with the bits of the other members.
pub fn counted(alloc: Global, text: &str) -> Answered {
    let all = words(alloc, text)?;
    let [round, value, others, votes @ ..] = all.as_slice() else {
        return Err(RowFault::BadRow);
    };
    let (round, value, others) = (Round(number(round)?), number(value)?, byte(others)?);
    if is_empty(others) {
        return Err(RowFault::BadRow);
    }
    told(alloc, Idle::new().begin(round, value, others), votes)
}

fn rounds(alloc: Global, words: &[&str]) -> Result<Vec<Round>, RowFault> {
    let mut all = Vec::new(alloc);
    for word in words {
        all.push(Round(number(word)?))?;
    }
    Ok(all)
}

/// What is told of a round: ROUND NEXT OPEN COMMITTED ..
pub fn decided(alloc: Global, text: &str) -> Answered {
    let all = words(alloc, text)?;
    let [round, next, opened, committed @ ..] = all.as_slice() else {
        return Err(RowFault::BadRow);
    };
    let (round, next, opened) = (number(round)?, number(next)?, number(opened)?);
    let committed = rounds(alloc, committed)?;
    let decision = decision_of(&committed, Round(next), Some(Round(opened)), Round(round));
    let text = match decision {
        Some(true) => "commit",
        Some(false) => "abort",
        None => "unknown",
    };
    made(String::from_str(alloc, text))
}

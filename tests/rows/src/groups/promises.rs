//! The states of a member that isn't the coordinator.
use crate::words::{Answered, RowFault, Telling, halves, made, name_and_rest, number, words};
use spl_agree::Round;
use spl_part::{Again, Decided, Free, Promised, Requested};
use std::alloc::Global;

/// What a request for a vote leads to where nothing is promised: SEEN ROUND, committed or new, fits or unfit.
pub fn requested(alloc: Global, text: &str) -> Answered {
    let all = words(alloc, text)?;
    let [seen, round, committed, fits] = all.as_slice() else {
        return Err(RowFault::BadRow);
    };
    let (seen, round) = (Round(number(seen)?), Round(number(round)?));
    let asked = Free::new().on_request(
        seen,
        round,
        *committed == "committed",
        *fits == "fits",
        21u64,
    );
    let text = match asked {
        Requested::Promised(_) => "yes",
        Requested::Declined(_, _) => "no",
        Requested::Ignored(_, _) => "nothing",
    };
    made(String::from_str(alloc, text))
}

/// What is asked of a promise, without a change of it: request:ROUND, tick or value.
fn asked(alloc: Global, promised: &Promised<u64>, word: &str) -> Answered {
    let (name, rest) = name_and_rest(word);
    match name {
        "request" => match promised.on_request(Round(number(rest)?)) {
            Again::Yes => made(format!(in alloc; "yes")),
            Again::Ask(round) => made(format!(in alloc; "ask {}", round.0)),
        },
        "tick" => made(format!(in alloc; "{}", promised.tick().0)),
        "value" => made(format!(in alloc; "{}", promised.value())),
        _ => Err(RowFault::BadRow),
    }
}

/// ROUND:commit or abort.
fn decision(word: &str) -> Result<(Round, bool), RowFault> {
    let (round, commit) = halves(word, ':')?;
    Ok((Round(number(round)?), commit == "commit"))
}

/// What a decision after a stop leads to, and the promise where it stays.
fn decided(
    alloc: Global,
    promised: Promised<u64>,
    round: Round,
    commit: bool,
) -> (Answered, Option<Promised<u64>>) {
    match promised.restart().on_decision(round, commit) {
        Decided::Committed(_, round, value) => {
            (
                made(format!(in alloc; "committed {} {value}", round.0)),
                None,
            )
        }
        Decided::Aborted(_, round, value) => {
            (made(format!(in alloc; "aborted {} {value}", round.0)), None)
        }
        Decided::Ignored(promised) => (made(format!(in alloc; "ignored")), Some(promised)),
    }
}

fn answered(
    alloc: Global,
    promised: Promised<u64>,
    word: &str,
) -> (Answered, Option<Promised<u64>>) {
    let Some(words) = word.strip_prefix("decision:") else {
        return (asked(alloc, &promised, word), Some(promised));
    };
    match decision(words) {
        Ok((round, commit)) => decided(alloc, promised, round, commit),
        Err(fault) => (Err(fault), None),
    }
}

fn told(alloc: Global, promised: Promised<u64>, words: &[&str]) -> Answered {
    let mut promised = promised;
    let mut told = Telling::new(alloc);
    for word in words {
        let (answer, still) = answered(alloc, promised, word);
        told.tell(", ", answer);
        match still {
            Some(still) => promised = still,
            None => break,
        }
    }
    told.finish()
}

/// What each word leads to where a round is promised, up to its decision: ROUND:VALUE, and request:ROUND, tick, value or
/// decision:ROUND:commit.
pub fn promised(alloc: Global, text: &str) -> Answered {
    let (first, rest) = halves(text, ' ')?;
    let (round, value) = halves(first, ':')?;
    let (round, value) = (number(round)?, number(value)?);
    let words = words(alloc, rest)?;
    told(alloc, Promised::kept(Round(round), value), &words)
}

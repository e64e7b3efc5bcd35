//! The pending and the refused values of a member. A row has what is done to a queue and asked of it.
use crate::words::{
    Answered, RowFault, Telling, halves, long, made, name_and_rest, number, reason, words,
};
use spl_agree::Reason;
use spl_queue::{Known, OfferFault, Queue};
use std::alloc::{AllocError, Global};

type Numbers = Queue<u64, u64>;

fn refused_text(alloc: Global, value: u64, reason: Reason) -> Result<String, AllocError> {
    format!(in alloc; "refused {value} {} {}", reason.code, reason.at)
}

fn known_text(alloc: Global, known: Known<'_, u64>) -> Result<String, AllocError> {
    match known {
        Known::No => format!(in alloc; "unknown"),
        Known::Pending(value) => format!(in alloc; "pending {value}"),
        Known::Refused(value, reason) => refused_text(alloc, *value, reason),
    }
}

fn value_text(alloc: Global, value: Option<&u64>) -> Result<String, AllocError> {
    match value {
        Some(value) => format!(in alloc; "{value}"),
        None => format!(in alloc; "none"),
    }
}

fn offer(alloc: Global, queue: &mut Numbers, key: u64, value: u64) -> Answered {
    match queue.status(&key) {
        Known::No => {}
        known => return made(known_text(alloc, known)),
    }
    match queue.offer(key, value) {
        Ok(_) => made(format!(in alloc; "queued")),
        Err(OfferFault::Full { value }) => made(format!(in alloc; "full, {value} back")),
        Err(OfferFault::NoMemory) => Err(RowFault::NoMemory),
    }
}

fn settle(alloc: Global, queue: &mut Numbers, words: &str) -> Answered {
    let (key, why) = name_and_rest(words);
    let reason = if why.is_empty() {
        None
    } else {
        Some(reason(why)?)
    };
    queue.settle(&number(key)?, reason)?;
    made(format!(in alloc; "settled"))
}

/// offer:KEY:VALUE, settle:KEY, settle:KEY:CODE:AT, status:KEY, length, first, pending:POSITION or refused:POSITION.
fn answered(alloc: Global, queue: &mut Numbers, word: &str) -> Answered {
    let (name, rest) = name_and_rest(word);
    match name {
        "offer" => {
            let (key, value) = halves(rest, ':')?;
            offer(alloc, queue, number(key)?, number(value)?)
        }
        "settle" => settle(alloc, queue, rest),
        "status" => made(known_text(alloc, queue.status(&number(rest)?))),
        "length" => made(format!(in alloc; "{}", queue.len())),
        "first" => made(value_text(alloc, queue.first())),
        "pending" => made(value_text(alloc, queue.pending_at(long(rest)?))),
        "refused" => match queue.refused_at(long(rest)? as usize) {
            Some((value, reason)) => made(refused_text(alloc, *value, reason)),
            None => made(format!(in alloc; "none")),
        },
        _ => Err(RowFault::BadRow),
    }
}

fn tell_answers(alloc: Global, told: &mut Telling, queue: &mut Numbers, words: &[&str]) {
    for word in words {
        told.tell(", ", answered(alloc, queue, word));
    }
}

/// What each word is answered by a queue that is empty at first.
pub fn queued(alloc: Global, text: &str) -> Answered {
    let words = words(alloc, text)?;
    let mut queue: Numbers = Queue::new(alloc);
    let mut told = Telling::new(alloc);
    tell_answers(alloc, &mut told, &mut queue, &words);
    told.finish()
}

//! States. A row has what is done to the empty one: set:ADDRESS=HEX, del:ADDRESS or renew.
use crate::words::{
    Answered, RowFault, Telling, address, byte, bytes, halves, hex_text, made, name_and_rest,
    state_text, words,
};
use sha2::{Digest, Sha256};
use spl_state::{Address, Prefix, RunCache, State};
use std::alloc::Global;

/// Does what a word says, and tells of it. The words of a row share a cache.
fn done(
    alloc: Global,
    state: &mut State,
    cache: &mut RunCache,
    word: &str,
) -> Result<&'static str, RowFault> {
    let (name, rest) = name_and_rest(word);
    match name {
        "set" => {
            let (at, value) = halves(rest, '=')?;
            let (at, value) = (address(alloc, at)?, bytes(alloc, value)?);
            state.set(alloc, at, &value)?;
            Ok("set")
        }
        "del" => {
            let found = state.delete(&address(alloc, rest)?);
            Ok(if found { "deleted" } else { "not there" })
        }
        "renew" => {
            state.renew(cache);
            Ok("renewed")
        }
        _ => Err(RowFault::BadRow),
    }
}

fn do_all(alloc: Global, state: &mut State, words: &[&str]) -> Result<(), RowFault> {
    let mut cache = RunCache::new();
    for word in words {
        done(alloc, state, &mut cache, word)?;
    }
    Ok(())
}

/// The state after all words.
pub fn state(alloc: Global, text: &str) -> Result<State, RowFault> {
    let words = words(alloc, text)?;
    let mut state = State::new();
    do_all(alloc, &mut state, &words)?;
    Ok(state)
}

/// What a word does, and the root after it.
fn step_text(alloc: Global, state: &mut State, cache: &mut RunCache, word: &str) -> Answered {
    let what = done(alloc, state, cache, word)?;
    let root = hex_text(alloc, &state.root())?;
    made(format!(in alloc; "{what}, {root}"))
}

fn tell_steps(alloc: Global, told: &mut Telling, state: &mut State, words: &[&str]) {
    let mut cache = RunCache::new();
    for word in words {
        told.tell("\n  ", step_text(alloc, state, &mut cache, word));
    }
}

/// The root at first, and after each word: WORD ..
pub fn roots(alloc: Global, text: &str) -> Answered {
    let words = words(alloc, text)?;
    let mut state = State::new();
    let mut told = Telling::new(alloc);
    told.tell("", hex_text(alloc, &state.root()));
    tell_steps(alloc, &mut told, &mut state, &words);
    told.finish()
}

/// The digest of the entries that have the first so many digits of an address: ADDRESS DIGITS WORD ..
pub fn digest(alloc: Global, text: &str) -> Answered {
    let (at, rest) = halves(text, ' ')?;
    let (digits, rest) = halves(rest, ' ')?;
    let (at, digits) = (address(alloc, at)?, byte(digits)?);
    if digits > 70 {
        return Err(RowFault::BadRow);
    }
    let state = state(alloc, rest)?;
    hex_text(alloc, &state.digest_at(&at, digits))
}

fn value_text(alloc: Global, state: &State, at: &Address) -> Answered {
    match state.get(at) {
        Some(value) => hex_text(alloc, value),
        None => made(format!(in alloc; "none")),
    }
}

/// The value at an address: ADDRESS WORD ..
pub fn value(alloc: Global, text: &str) -> Answered {
    let (at, rest) = text.split_once(' ').unwrap_or((text, ""));
    let at = address(alloc, at)?;
    let state = state(alloc, rest)?;
    value_text(alloc, &state, &at)
}

fn under_text(alloc: Global, state: &State, prefix: &Prefix) -> Answered {
    let found = state.under(alloc, prefix)?;
    let mut told = Telling::new(alloc);
    told.tell("", hex_text(alloc, prefix.bytes()));
    for at in found.as_slice() {
        let sign = if prefix.covers(at) {
            " covers "
        } else {
            " does not cover "
        };
        told.tell(sign, hex_text(alloc, at.0.as_slice()));
    }
    told.finish()
}

/// The addresses that begin with a prefix: PREFIX WORD ..
pub fn under(alloc: Global, text: &str) -> Answered {
    let (prefix, rest) = text.split_once(' ').unwrap_or((text, ""));
    let prefix = bytes(alloc, prefix)?;
    let Some(prefix) = Prefix::read(&prefix) else {
        return made(format!(in alloc; "no prefix"));
    };
    let state = state(alloc, rest)?;
    under_text(alloc, &state, &prefix)
}

fn copied_text(alloc: Global, state: &State, words: &[&str]) -> Answered {
    let mut copy = state.copy(alloc)?;
    let same = if copy.root() == state.root() {
        "one root"
    } else {
        "two roots"
    };
    let mut told = Telling::new(alloc);
    told.tell("", made(String::from_str(alloc, same)));
    told.tell("\n  ", state_text(alloc, state));
    match do_all(alloc, &mut copy, words) {
        Ok(()) => told.tell("\n  ", state_text(alloc, &copy)),
        Err(fault) => told.tell("", Err(fault)),
    }
    told.finish()
}

/// A state, and its copy to which more was done: WORD .. / WORD ..
pub fn copied(alloc: Global, text: &str) -> Answered {
    let (first, more) = halves(text, '/')?;
    let more = words(alloc, more)?;
    let state = state(alloc, first)?;
    copied_text(alloc, &state, &more)
}

/// SHA-256 of bytes: HEX.
pub fn sha256(alloc: Global, text: &str) -> Answered {
    hex_text(alloc, &Sha256::digest(&bytes(alloc, text)?))
}

//! Proofs under a root. A claim is - for no value, or = and a value in hex.
use crate::checks::runs::Runs;
use crate::checks::states::state;
use crate::words::{Answered, RowFault, Telling, address, bytes, halves, hex_text, made};
use sha2::{Digest, Sha256};
use spl_base::Malformed;
use spl_proof::{Proof, check, prove};
use spl_state::Address;
use std::alloc::Global;

/// A root, an address, a claim and bytes that may be a proof.
#[derive(Drop)]
struct Case {
    root: [u8; 32],
    at: Address,
    claim: Option<Vec<u8>>,
    found: Vec<u8>,
}

fn digest(alloc: Global, word: &str) -> Result<[u8; 32], RowFault> {
    let bytes = bytes(alloc, word)?;
    if bytes.len() != 32 {
        return Err(RowFault::BadRow);
    }
    let mut cells = [0; 32];
    cells.copy_from_slice(&bytes);
    Ok(cells)
}

fn claim(alloc: Global, word: &str) -> Result<Option<Vec<u8>>, RowFault> {
    if word == "-" {
        return Ok(None);
    }
    let (_, value) = halves(word, '=')?;
    Ok(Some(bytes(alloc, value)?))
}

/// The case of a row: ROOT ADDRESS CLAIM HEX.
fn case_of(alloc: Global, text: &str) -> Result<Case, RowFault> {
    let (root, rest) = halves(text, ' ')?;
    let (at, rest) = halves(rest, ' ')?;
    let (word, found) = halves(rest, ' ')?;
    Ok(Case {
        root: digest(alloc, root)?,
        at: address(alloc, at)?,
        claim: claim(alloc, word)?,
        found: bytes(alloc, found)?,
    })
}

/// Whether a proof is accepted.
fn accepts(root: &[u8; 32], at: &Address, claim: &Option<Vec<u8>>, proof: &Proof) -> bool {
    match claim {
        None => check(root, at, None, proof),
        Some(value) => check(root, at, Some(value.as_slice()), proof),
    }
}

fn yes_or_no(alloc: Global, yes: bool) -> Answered {
    made(String::from_str(alloc, if yes { "yes" } else { "no" }))
}

/// Whether the bytes of a case are accepted, or where they are no proof.
fn judged(alloc: Global, case: &Case) -> Answered {
    match Proof::read(alloc, &case.found) {
        Ok(proof) => yes_or_no(alloc, accepts(&case.root, &case.at, &case.claim, &proof)),
        Err(Malformed::At { at }) => made(format!(in alloc; "refused 26 {at}")),
        Err(Malformed::NoMemory) => Err(RowFault::NoMemory),
    }
}

/// What bytes show of an address under a root: ROOT ADDRESS CLAIM HEX.
pub fn checked(alloc: Global, text: &str) -> Answered {
    judged(alloc, &case_of(alloc, text)?)
}

/// What the bytes show with another bit at a place, by the eight bits from the lowest.
fn changed_at(alloc: Global, case: &mut Case, at: usize, bits: usize) -> Answered {
    let mut runs = Runs::new(alloc, ", ");
    for bit in 0..bits {
        flip(&mut case.found, at, bit);
        runs.add(alloc, bit, judged(alloc, case)?)?;
        flip(&mut case.found, at, bit);
    }
    Ok(runs.finish(alloc)?)
}

fn flip(bytes: &mut [u8], at: usize, bit: usize) {
    if let Some(byte) = bytes.get_mut(at) {
        *byte = *byte ^ (1u8 << bit as u32);
    }
}

/// Of so many places each bit is changed at the first of them; at the others the lowest bit is.
const STRETCH: usize = 512;

const WHOLE_PLACES: usize = 64;

/// The same with another bit at each place: places, and bits with what they give.
pub fn changed(alloc: Global, text: &str) -> Answered {
    let mut case = case_of(alloc, text)?;
    let mut runs = Runs::new(alloc, "\n  ");
    for at in 0..case.found.len() {
        let bits = if at % STRETCH < WHOLE_PLACES { 8 } else { 1 };
        let answer = changed_at(alloc, &mut case, at, bits)?;
        runs.add(alloc, at, answer)?;
    }
    Ok(runs.finish(alloc)?)
}

/// What a proof's bytes are: themselves, or how many there are and their SHA-256.
fn bytes_text(alloc: Global, bytes: &[u8]) -> Answered {
    if bytes.len() <= 64 {
        return hex_text(alloc, bytes);
    }
    let sum = hex_text(alloc, &Sha256::digest(bytes))?;
    let size = bytes.len();
    made(format!(in alloc; "{size} bytes {sum}"))
}

/// The root of a state, and its proof of an address: ADDRESS WORD ..
pub fn proved(alloc: Global, text: &str) -> Answered {
    let (at, rest) = text.split_once(' ').unwrap_or((text, ""));
    let at = address(alloc, at)?;
    let state = state(alloc, rest)?;
    let proof = prove(alloc, &state, &at)?;
    let found = proof.write(alloc)?;
    let mut told = Telling::new(alloc);
    told.tell("", hex_text(alloc, &state.root()));
    told.tell(" ", bytes_text(alloc, found.bytes()));
    told.finish()
}

/// A state's own proof of an address, and what both are made of.
#[derive(Drop)]
struct Shown {
    at: Address,
    words: String,
    root: [u8; 32],
    proof: Proof,
}

impl Shown {
    fn new(alloc: Global, at: Address, words: &str) -> Result<Shown, RowFault> {
        let state = state(alloc, words)?;
        Ok(Shown {
            at,
            words: String::from_str(alloc, words)?,
            root: state.root(),
            proof: prove(alloc, &state, &at)?,
        })
    }

    fn is_of(&self, at: &Address, words: &str) -> bool {
        self.at == *at && self.words.as_str() == words
    }
}

/// The proof that the latest row made. Rows with claims about one proof follow each other, and it takes long to make.
#[derive(Drop)]
pub struct Latest {
    shown: Option<Shown>,
}

impl Latest {
    /// No row made a proof yet.
    pub fn new() -> Latest {
        Latest { shown: None }
    }

    fn is_of(&self, at: &Address, words: &str) -> bool {
        match &self.shown {
            Some(shown) => shown.is_of(at, words),
            None => false,
        }
    }

    /// The proof of an address in the state of these words.
    fn proof_of(&mut self, alloc: Global, at: &Address, words: &str) -> Result<&Shown, RowFault> {
        if !self.is_of(at, words) {
            self.shown = Some(Shown::new(alloc, *at, words)?);
        }
        self.shown.as_ref().ok_or(RowFault::BadRow)
    }
}

/// Whether a state's own proof of an address is accepted with a claim: ADDRESS CLAIM WORD ..
pub fn accepted(alloc: Global, latest: &mut Latest, text: &str) -> Answered {
    let (at, rest) = halves(text, ' ')?;
    let (word, rest) = rest.split_once(' ').unwrap_or((rest, ""));
    let (at, claim) = (address(alloc, at)?, claim(alloc, word)?);
    let shown = latest.proof_of(alloc, &at, rest)?;
    yes_or_no(alloc, accepts(&shown.root, &at, &claim, &shown.proof))
}

//! Proofs of the first of many addresses: made, checked, and their levels hashed alone.
use crate::{Fault, state_of};
use sha2::{Digest, Sha256};
use spl_proof::{check, prove};
use spl_state::{Address, RunCache, State};
use std::alloc::Global;

// The first of the addresses.
fn first_of(addresses: &[u8]) -> Address {
    let mut address = [0u8; 35];
    for i in 0..35usize {
        if let Some(byte) = addresses.get(i) {
            address[i] = *byte;
        }
    }
    Address(address)
}

// The state with these addresses, which has its digests.
fn renewed(alloc: Global, addresses: &[u8]) -> Result<State, Fault> {
    let mut state = state_of(alloc, addresses)?;
    let mut cache = RunCache::new();
    state.renew(&mut cache);
    Ok(state)
}

// Proves the first address again and again, and tells how many levels the proof has.
pub(crate) fn proofs(alloc: Global, addresses: &[u8], times: u32) -> Result<u64, Fault> {
    let state = renewed(alloc, addresses)?;
    let address = first_of(addresses);
    let mut levels = 0u64;
    for _ in 0..times {
        let proof = prove(alloc, &state, &address)?;
        levels = proof.levels.as_slice().len() as u64;
    }
    Ok(levels)
}

// Checks that proof again and again, and tells how many levels it has; none if it isn't accepted.
pub(crate) fn checks(alloc: Global, addresses: &[u8], times: u32) -> Result<u64, Fault> {
    let state = renewed(alloc, addresses)?;
    let address = first_of(addresses);
    let proof = prove(alloc, &state, &address)?;
    let root = state.root();
    let mut levels = proof.levels.as_slice().len() as u64;
    for _ in 0..times {
        if !check(&root, &address, Some(b"value".as_slice()), &proof) {
            levels = 0;
        }
    }
    Ok(levels)
}

// Hashes as many bytes as that proof's levels have, level by level, again and again, and tells how many levels it has.
pub(crate) fn hashes(alloc: Global, addresses: &[u8], times: u32) -> Result<u64, Fault> {
    let state = renewed(alloc, addresses)?;
    let proof = prove(alloc, &state, &first_of(addresses))?;
    let levels = proof.levels.as_slice().len();
    let mut bytes = [1u8; 513];
    for _ in 0..times {
        for _ in 0..levels {
            let digest = Sha256::digest(&bytes);
            bytes[1] = digest[0];
        }
    }
    Ok(levels as u64)
}

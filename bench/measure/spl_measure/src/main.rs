//! Runs parts of splinter by themselves, as often as asked, for bench/run to measure.
#![tactic(auto)]

mod answers;
mod journals;
mod lives;
mod proofs;

use spl_base::{Malformed, Reader};
use spl_command::{Batch, execute};
use spl_edge::DeviceError;
use spl_frame::{FrameFault, Framer};
use spl_journal::JournalFault;
use spl_state::{Address, State};
use spl_wire::Record;
use std::alloc::{AllocError, Global};
use std::process::ExitCode;
use std::{env, fs, io};

/// Why a part came to no end.
#[derive(Clone, Copy, PartialEq, Eq)]
enum Fault {
    NoMemory,
    Malformed,
    Frame,
    Journal,
    Device,
}

impl From<AllocError> for Fault {
    fn from(_: AllocError) -> Fault {
        Fault::NoMemory
    }
}

impl From<Malformed> for Fault {
    fn from(_: Malformed) -> Fault {
        Fault::Malformed
    }
}

impl From<FrameFault> for Fault {
    fn from(_: FrameFault) -> Fault {
        Fault::Frame
    }
}

impl From<JournalFault> for Fault {
    fn from(_: JournalFault) -> Fault {
        Fault::Journal
    }
}

impl From<DeviceError> for Fault {
    fn from(_: DeviceError) -> Fault {
        Fault::Device
    }
}

// Reads the record at the prefix again and again, and tells how many bytes that were.
fn decode(alloc: Global, bytes: &[u8], times: u32) -> Result<u64, Fault> {
    let mut done = 0u64;
    for _ in 0..times {
        let (_record, size) = Record::read(alloc, bytes)?;
        done = done.saturating_add(size as u64);
    }
    Ok(done)
}

// Writes the record that was read from the prefix again and again, and tells how many bytes that were.
fn encode(alloc: Global, bytes: &[u8], times: u32) -> Result<u64, Fault> {
    let (record, _size) = Record::read(alloc, bytes)?;
    let mut done = 0u64;
    for _ in 0..times {
        let piece = record.write(alloc)?;
        done = done.saturating_add(piece.bytes().len() as u64);
    }
    Ok(done)
}

// Feeds the bytes in pieces of this size, and tells how many bytes the bodies of the frames have.
fn frames(alloc: Global, bytes: &[u8], size: u32) -> Result<u64, Fault> {
    let mut framer = Framer::new(alloc);
    let mut done = 0u64;
    for piece in bytes.chunks(size.max(1) as usize) {
        framer.feed(piece)?;
        for _ in 0..piece.len() {
            let Some(body) = framer.next(alloc)? else {
                break;
            };
            done = done.saturating_add(body.bytes().len() as u64);
        }
    }
    Ok(done)
}

// The state with one value at each of the addresses, which stand one after the other.
fn state_of(alloc: Global, addresses: &[u8]) -> Result<State, Fault> {
    let mut state = State::new();
    for bytes in addresses.chunks_exact(35) {
        let mut address = [0u8; 35];
        address.copy_from_slice(bytes);
        state.set(alloc, Address(address), b"value")?;
    }
    Ok(state)
}

// The root of the state with these addresses, so many times from nothing; tells its first byte.
fn root(alloc: Global, addresses: &[u8], times: u32) -> Result<u64, Fault> {
    let state = state_of(alloc, addresses)?;
    let mut done = 0u64;
    for _ in 0..times {
        done = u64::from(state.root()[0]);
    }
    Ok(done)
}

// Executes the batch at the prefix again and again on the state with the addresses after it, and tells how often.
fn execution(alloc: Global, bytes: &[u8], times: u32) -> Result<u64, Fault> {
    let mut reader = Reader::new(bytes);
    let batch = Batch::read(alloc, &mut reader)?;
    let after = reader.place().min(bytes.len());
    let state = state_of(alloc, &bytes[after..])?;
    let mut done = 0u64;
    if batch.fault().is_none() {
        for _ in 0..times {
            let _verdict = execute(alloc, &state, &batch)?;
            done = done.saturating_add(1);
        }
    }
    Ok(done)
}

// PART FILE NUMBER
fn run(rt: &HostRuntime) -> io::Result<Option<u64>> {
    let mut words = Vec::new(rt.alloc());
    for word in env::args(rt)?.skip(1) {
        words.push(word)?;
    }
    let [part, file, number] = words.as_slice() else {
        return Ok(None);
    };
    let Ok(number) = number.parse::<u32>() else {
        return Ok(None);
    };
    let bytes = fs::read(rt, file.as_str())?;
    let done = match part.as_str() {
        "decode" => decode(rt.alloc(), &bytes, number),
        "encode" => encode(rt.alloc(), &bytes, number),
        "frames" => frames(rt.alloc(), &bytes, number),
        "root" => root(rt.alloc(), &bytes, number),
        "prove" => proofs::proofs(rt.alloc(), &bytes, number),
        "check" => proofs::checks(rt.alloc(), &bytes, number),
        "hash" => proofs::hashes(rt.alloc(), &bytes, number),
        "detail" => answers::detail(rt.alloc(), &bytes, number),
        "receipt" => answers::receipt(rt.alloc(), &bytes, number),
        "execute" => execution(rt.alloc(), &bytes, number),
        "append" => journals::append(rt.alloc(), &bytes, number),
        "checkpoint" => journals::checkpoint(rt.alloc(), &bytes, number),
        "walk" => journals::walk(rt.alloc(), &bytes, number),
        "bare" => lives::without_disks(rt.alloc(), &bytes, number),
        "kept" => lives::kept(rt.alloc(), &bytes, number),
        "open" => lives::open(rt.alloc(), &bytes, number),
        "carry" => lives::carry(rt.alloc(), &bytes, number),
        "stops" => lives::stops(rt.alloc(), &bytes, number),
        _ => return Ok(None),
    };
    Ok(done.ok())
}

fn main(rt: HostRuntime) -> ExitCode {
    match run(&rt) {
        Ok(Some(done)) => match println!(rt; "{done}") {
            Ok(()) => ExitCode::from(0),
            Err(_) => ExitCode::from(2),
        },
        _ => ExitCode::from(1),
    }
}

//! Sources and sinks in memory. A row has the numbers of the calls that fail, with commas between them; - is none.
use crate::words::{Answered, RowFault, Telling, halves, long, made, numbers, text_of, words};
use spl_edge::{DeviceError, MemSink, MemSource, ReadEnd, read_all, write_all};
use std::alloc::Global;

/// How many bytes a reading to a limit takes, and how it ends.
fn reading_text(alloc: Global, source: &mut MemSource, limit: &str) -> Answered {
    let limit = long(limit)? as usize;
    let reading = read_all(alloc, limit, source);
    match reading.end {
        ReadEnd::NoMemory => Err(RowFault::NoMemory),
        end => made(format!(in alloc; "{} {end:?}", reading.bytes.len())),
    }
}

fn tell_readings(alloc: Global, told: &mut Telling, source: &mut MemSource, limits: &[&str]) {
    for limit in limits {
        told.tell(", ", reading_text(alloc, source, limit));
    }
}

/// How many bytes each reading to a limit takes from a source of so many bytes, and how it ends: LENGTH CALLS LIMIT ..
pub fn taken(alloc: Global, text: &str) -> Answered {
    let all = words(alloc, text)?;
    let [length, calls, limits @ ..] = all.as_slice() else {
        return Err(RowFault::BadRow);
    };
    let length = long(length)? as usize;
    let calls = numbers(alloc, calls)?;
    let mut source = MemSource::new(vec![in alloc; 7u8; length]?, calls);
    let mut told = Telling::new(alloc);
    tell_readings(alloc, &mut told, &mut source, limits);
    told.finish()
}

fn written(alloc: Global, sink: &mut MemSink, word: &str) -> Answered {
    match write_all(sink, word.as_bytes()) {
        Ok(()) => made(String::from_str(alloc, "written")),
        Err(DeviceError::NoMemory) => Err(RowFault::NoMemory),
        Err(fault) => made(format!(in alloc; "{fault:?}")),
    }
}

fn tell_writings(alloc: Global, told: &mut Telling, sink: &mut MemSink, words: &[&str]) {
    for word in words {
        told.tell(", ", written(alloc, sink, word));
    }
}

/// How the writing of each word ends, and the bytes that are there then: CALLS WORD ..
pub fn kept(alloc: Global, text: &str) -> Answered {
    let (calls, rest) = halves(text, ' ')?;
    let words = words(alloc, rest)?;
    let mut sink = MemSink::new(alloc, numbers(alloc, calls)?);
    let mut told = Telling::new(alloc);
    tell_writings(alloc, &mut told, &mut sink, &words);
    told.tell(": ", text_of(alloc, sink.bytes()));
    told.finish()
}

//! A file as a disk, where it moves little at once.
use crate::devices::memory::steps;
use crate::words::{Answered, words};
use spl_device::{Backing, FileDisk};
use std::alloc::Global;
use std::cell::Cell;
use std::fs::{Metadata, OpenFile};
use std::io;
use std::io::ErrorKind;
use std::os::unix::fs::FileExt;

const TEXT: [u8; 10] = *b"0123456789";

/// A file that moves at most three bytes at once, and whose every second call is interrupted. It takes only what it holds.
#[derive(Drop)]
struct Halting {
    calls: Cell<u32>,
}

impl Halting {
    /// How many bytes move.
    fn turn(&self, at: u64, room: usize) -> io::Result<usize> {
        let call = self.calls.get();
        self.calls.set(call.wrapping_add(1));
        if call % 2 == 0 {
            return Err(ErrorKind::Interrupted.into());
        }
        Ok(room.min(3).min(TEXT.len().saturating_sub(at as usize)))
    }
}

impl FileExt for Halting {
    fn read_at(&self, buf: &mut [u8], offset: u64) -> io::Result<usize> {
        let count = self.turn(offset, buf.len())?;
        let at = TEXT.len().min(offset as usize);
        for (to, byte) in buf.iter_mut().zip(&TEXT[at..]) {
            *to = *byte;
        }
        Ok(count.min(buf.len()))
    }

    fn write_at(&self, buf: &[u8], offset: u64) -> io::Result<usize> {
        let count = self.turn(offset, buf.len())?.min(buf.len());
        let at = TEXT.len().min(offset as usize);
        if !TEXT[at..].starts_with(&buf[..count]) {
            return Err(ErrorKind::InvalidData.into());
        }
        Ok(count)
    }
}

impl OpenFile for Halting {
    fn metadata(&self) -> io::Result<Metadata> {
        Err(ErrorKind::Unsupported.into())
    }

    fn set_len(&self, _size: u64) -> io::Result<()> {
        Err(ErrorKind::Unsupported.into())
    }

    fn sync_all(&self) -> io::Result<()> {
        Err(ErrorKind::Unsupported.into())
    }

    fn sync_data(&self) -> io::Result<()> {
        Err(ErrorKind::Unsupported.into())
    }
}

/// What each step answers on a file of 0123456789 that moves little at once, takes nothing else, and fails at a cut and
/// a sync: STEP ..
pub fn moved(alloc: Global, text: &str) -> Answered {
    let all = words(alloc, text)?;
    let mut disk = FileDisk::new(Backing::File(Halting {
        calls: Cell::new(0),
    }));
    steps(alloc, &mut disk, &all)
}

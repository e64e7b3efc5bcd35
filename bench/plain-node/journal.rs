//! Records on two files of which one counts: each append is kept by two syncs, so that a stop leaves all of it or none.
use std::fs::{File, OpenOptions};
use std::io::{Error, ErrorKind, Result};
use std::os::unix::fs::FileExt;
use std::path::Path;

const FORM: &[u8; 8] = b"PLAIN001";
/// The form, the epoch, and the gate that says whether this file is whole.
const HEAD: u64 = 17;
/// By how many bytes a journal may be longer than twice what a checkpoint wrote.
const SLACK: u64 = 65_536;

pub struct Journal {
    files: [File; 2],
    /// Which of them counts.
    at: usize,
    epoch: u64,
    /// Where the closed gate behind the last record is.
    end: u64,
    base: u64,
    pub syncs: u64,
}

/// Appends a record to those of a turn: its size, its bytes, and the gate of the next one, which is open.
pub fn put_record(out: &mut Vec<u8>, record: &[u8]) {
    out.extend_from_slice(&(record.len() as u32).to_be_bytes());
    out.extend_from_slice(record);
    out.push(1);
}

fn bad() -> Error {
    Error::from(ErrorKind::InvalidData)
}

/// The epoch of a file that is whole, and its bytes.
fn read(file: &File) -> Result<Option<(u64, Vec<u8>)>> {
    let mut bytes = vec![0; file.metadata()?.len() as usize];
    file.read_exact_at(&mut bytes, 0)?;
    if bytes.len() <= HEAD as usize || &bytes[..8] != FORM || bytes[16] != 1 {
        return Ok(None);
    }
    let epoch = u64::from_be_bytes(bytes[8..16].try_into().unwrap());
    Ok(Some((epoch, bytes)))
}

/// Where a journal ends, after what was done with each of its records.
fn walk(bytes: &[u8], mut take: impl FnMut(&[u8]) -> Option<()>) -> Option<u64> {
    let mut at = HEAD as usize;
    while *bytes.get(at)? == 1 {
        let size = u32::from_be_bytes(bytes.get(at + 1..at + 5)?.try_into().ok()?) as usize;
        take(bytes.get(at + 5..at + 5 + size)?)?;
        at += 5 + size;
    }
    Some(at as u64)
}

impl Journal {
    fn open_files(folder: &Path) -> Result<[File; 2]> {
        let open = |name| OpenOptions::new().read(true).write(true).create(true).truncate(false).open(folder.join(name));
        let files = [open("a")?, open("b")?];
        File::open(folder)?.sync_all()?;
        Ok(files)
    }

    /// A journal without records.
    pub fn create(folder: &Path) -> Result<Journal> {
        let files = Journal::open_files(folder)?;
        if read(&files[0])?.is_some() || read(&files[1])?.is_some() {
            return Err(Error::from(ErrorKind::AlreadyExists));
        }
        let mut journal = Journal { files, at: 1, epoch: 0, end: 0, base: 0, syncs: 0 };
        journal.checkpoint(&[])?;
        Ok(journal)
    }

    /// The journal that is there, after what was done with each of its records.
    pub fn open(folder: &Path, take: impl FnMut(&[u8]) -> Option<()>) -> Result<Journal> {
        let files = Journal::open_files(folder)?;
        let (first, second) = (read(&files[0])?, read(&files[1])?);
        let at = (second.as_ref().map(|held| held.0) > first.as_ref().map(|held| held.0)) as usize;
        let (epoch, bytes) = [first, second].into_iter().nth(at).flatten().ok_or_else(bad)?;
        let end = walk(&bytes, take).ok_or_else(bad)?;
        Ok(Journal { files, at, epoch, end, base: HEAD, syncs: 0 })
    }

    fn sync(&mut self, at: usize) -> Result<()> {
        self.syncs += 1;
        self.files[at].sync_data()
    }

    /// Keeps the records of a turn.
    pub fn append(&mut self, mut records: Vec<u8>) -> Result<()> {
        *records.last_mut().ok_or_else(bad)? = 0;
        self.files[self.at].write_all_at(&records, self.end + 1)?;
        self.sync(self.at)?;
        self.files[self.at].write_all_at(&[1], self.end)?;
        self.sync(self.at)?;
        self.end += records.len() as u64;
        Ok(())
    }

    pub fn has_room(&self) -> bool {
        self.end <= 2 * self.base + SLACK
    }

    /// Writes these records as a new journal on the other file, which counts from then on.
    pub fn checkpoint(&mut self, records: &[u8]) -> Result<()> {
        let other = 1 - self.at;
        let mut bytes = FORM.to_vec();
        bytes.extend_from_slice(&(self.epoch + 1).to_be_bytes());
        bytes.push(0);
        self.files[other].set_len(0)?;
        self.sync(other)?;
        self.files[other].write_all_at(&bytes, 0)?;
        self.sync(other)?;
        let mut rest = if records.is_empty() { vec![0] } else { [&[1], records].concat() };
        *rest.last_mut().ok_or_else(bad)? = 0;
        self.files[other].write_all_at(&rest, HEAD)?;
        self.sync(other)?;
        self.files[other].write_all_at(&[1], HEAD - 1)?;
        self.sync(other)?;
        (self.at, self.epoch, self.end) = (other, self.epoch + 1, HEAD + rest.len() as u64 - 1);
        self.base = self.end;
        Ok(())
    }
}

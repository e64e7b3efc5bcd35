//! A journal on two disks, and what is done there.
use crate::disks::content::told;
use crate::disks::records::{RowForm, record, records};
use crate::words::{Answered, RowFault, add};
use spl_edge::{Disk, Pair};
use spl_journal::{JournalFault, Records};
use spl_snapshot::{Packed, Pairing, format_pair, walk_pair};
use std::alloc::{AllocError, Global};

/// The records that were read, which pack into the same.
#[derive(Drop)]
struct Found(Records);

impl Packed for Found {
    ghost packed = { _ };

    fn pack(&self, alloc: Global) -> Result<Records, AllocError> {
        let mut records = Records::new(alloc);
        for record in self.0.as_slice() {
            records.push(alloc, record.bytes())?;
        }
        Ok(records)
    }
}

/// Two disks, and their journal where one is kept.
#[derive(Drop)]
pub struct Desk<D: Disk + Drop> {
    pub disks: Pair<D>,
    kept: Option<Pairing<RowForm>>,
}

/// The text of a fault.
pub fn fault_text(alloc: Global, fault: JournalFault) -> Answered {
    match fault {
        JournalFault::NoMemory => Err(RowFault::NoMemory),
        fault => Ok(format!(in alloc; "{fault}")?),
    }
}

fn records_text(alloc: Global, records: &Records) -> Answered {
    let mut text = String::from_str(alloc, "records")?;
    for record in records.as_slice() {
        add(&mut text, " ", told(alloc, record.bytes())?.as_str())?;
    }
    Ok(text)
}

/// The length, base, room and epoch, and which disk counts.
fn kept_text(alloc: Global, kept: &Pairing<RowForm>) -> Answered {
    let room = if kept.room() { "room" } else { "no room" };
    let mut text = format!(in alloc; "len {} base {} ", kept.len(), kept.base())?;
    text.push_str(room)?;
    let epoch = format!(in alloc; " epoch {} counting {}", kept.epoch(), kept.counting())?;
    text.push_str(epoch.as_str())?;
    Ok(text)
}

impl<D: Disk + Drop> Desk<D> {
    /// Disks on which no journal is kept yet.
    pub fn new(disks: Pair<D>) -> Desk<D> {
        Desk { disks, kept: None }
    }

    fn settle(
        &mut self,
        alloc: Global,
        kept: Pairing<RowForm>,
        done: Result<(), JournalFault>,
    ) -> Answered {
        match done {
            Ok(()) => {
                self.kept = Some(kept);
                Ok(String::from_str(alloc, "ok")?)
            }
            Err(fault) => fault_text(alloc, fault),
        }
    }

    fn take(&mut self) -> Result<Pairing<RowForm>, RowFault> {
        self.kept.take().ok_or(RowFault::BadRow)
    }

    fn format(&mut self, alloc: Global) -> Answered {
        match format_pair(alloc, &mut self.disks) {
            Ok(kept) => self.settle(alloc, kept, Ok(())),
            Err(fault) => fault_text(alloc, fault),
        }
    }

    fn append(&mut self, alloc: Global, word: &str) -> Answered {
        let record = record(alloc, word)?;
        let mut kept = self.take()?;
        let done = kept.append(alloc, &mut self.disks, &record);
        self.settle(alloc, kept, done)
    }

    fn checkpoint(&mut self, alloc: Global, text: &str) -> Answered {
        let records = records(alloc, text)?;
        let mut kept = self.take()?;
        if kept.epoch() == u64::MAX {
            return Err(RowFault::BadRow);
        }
        let done = kept.checkpoint(alloc, &mut self.disks, &records);
        self.settle(alloc, kept, done)
    }

    /// Reads the journal that counts, and gives its records. One of an older form is written again.
    pub fn read(&mut self, alloc: Global) -> Result<Records, JournalFault> {
        let mut walk = walk_pair::<RowForm, D>(&mut self.disks)?;
        let mut records = Records::new(alloc);
        while let Some(piece) = walk.next(alloc, &mut self.disks)? {
            records.push(alloc, piece.bytes())?;
        }
        let found = Found(records);
        self.kept = Some(walk.finish(alloc, &mut self.disks, &found)?);
        Ok(found.0)
    }

    fn open(&mut self, alloc: Global) -> Answered {
        match self.read(alloc) {
            Ok(records) => records_text(alloc, &records),
            Err(fault) => fault_text(alloc, fault),
        }
    }

    fn tell(&self, alloc: Global) -> Answered {
        match &self.kept {
            Some(kept) => kept_text(alloc, kept),
            None => Err(RowFault::BadRow),
        }
    }

    /// The journal is kept no longer, as after a stop.
    pub fn forget(&mut self) {
        self.kept = None;
    }

    /// Adds a record to the journal that is kept, and where that leaves no room writes anew what packs.
    pub fn keep<P: Packed>(
        &mut self,
        alloc: Global,
        record: &[u8],
        state: &P,
    ) -> Result<(), JournalFault> {
        match &mut self.kept {
            Some(kept) => kept.keep(alloc, &mut self.disks, record, state),
            None => Err(JournalFault::Disk),
        }
    }

    /// What a step answers on any disks: format, append=RECORD, checkpoint=RECORD,.., open or tell.
    pub fn step(&mut self, alloc: Global, name: &str, rest: &str) -> Answered {
        match name {
            "format" => self.format(alloc),
            "append" => self.append(alloc, rest),
            "checkpoint" => self.checkpoint(alloc, rest),
            "open" => self.open(alloc),
            "tell" => self.tell(alloc),
            _ => Err(RowFault::BadRow),
        }
    }
}

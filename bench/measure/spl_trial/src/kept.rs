//! The journal of two disks, as the parts keep it.
ghost use Rattle.std.specs.Prelude.{◌≡◌, true, false, None, OnOk};
ghost use Rattle.spl_journal.specs.Journals.{has_ended, is_halted as journal_halted};
ghost use Rattle.spl_snapshot.specs.Pairs.{PairWalks, walk_in, journal_in, is_halted};
ghost use Rattle.spl_trial.specs.Rows.{is_row};

use crate::row::{Contents, Nothing, Row, RowForm};
use crate::{PlainDisk, PlainDisks};
use spl_journal::{JournalFault, Records};
use spl_snapshot::{PairWalk, Pairing, format_pair, walk_pair};
use std::alloc::Global;

/// A pairing that isn't halted.
#[derive(Drop)]
pub struct Kept {
    pairing: Pairing<RowForm>,
    ghost running: { is_halted pairing ≡ false },
    ghost journal: { journal_halted (journal_in pairing) ≡ false },
}

/// A pairing that was read, and its records.
#[derive(Drop)]
pub struct Opened {
    pub kept: Kept,
    pub records: Records,
}

/// The rest of the records.
fn read_all(
    alloc: Global,
    walk: &mut PairWalk<RowForm>,
    disks: &mut PlainDisks,
) -> Result<Records, JournalFault>
    requires { PairWalks is_row walk.old None None }
    ensures walks { OnOk result (PairWalks is_row walk.new None None) }
    ensures ended { OnOk result (has_ended (walk_in walk.new) ≡ true) }
{
    let mut records = Records::new(alloc);
    'records: while let Some(piece) = walk.next(alloc, disks)? {
        records.push(alloc, piece.bytes())?;
    }
    Ok(records)
}

/// Reads the rest of the records, and keeps none.
fn pass_all(
    alloc: Global,
    walk: &mut PairWalk<RowForm>,
    disks: &mut PlainDisks,
) -> Result<(), JournalFault>
    requires { PairWalks is_row walk.old None None }
    ensures walks { OnOk result (PairWalks is_row walk.new None None) }
    ensures ended { OnOk result (has_ended (walk_in walk.new) ≡ true) }
{
    'records: while walk.next(alloc, disks)?.is_some() {}
    Ok(())
}

impl Kept {
    /// Makes a journal on the first of two disks.
    pub fn format(alloc: Global, disks: &mut PlainDisks) -> Result<Kept, JournalFault> {
        let pairing = format_pair::<RowForm, PlainDisk>(alloc, disks)?;
        Ok(Kept { pairing })
    }

    /// Reads the journal that counts.
    pub fn open(alloc: Global, disks: &mut PlainDisks) -> Result<Opened, JournalFault> {
        let mut walk = walk_pair::<RowForm, PlainDisk>(disks)?;
        let records = read_all(alloc, &mut walk, disks)?;
        let pairing = walk.finish(alloc, disks, &Nothing)?;
        let kept = Kept { pairing };
        Ok(Opened { kept, records })
    }

    /// Reads the journal that counts, and tells no record.
    pub fn reopen(alloc: Global, disks: &mut PlainDisks) -> Result<Kept, JournalFault> {
        let mut walk = walk_pair::<RowForm, PlainDisk>(disks)?;
        pass_all(alloc, &mut walk, disks)?;
        let pairing = walk.finish(alloc, disks, &Nothing)?;
        Ok(Kept { pairing })
    }

    /// Adds a record.
    #[tactic(auto, using(crate::proofs::Untold::stands_untold))]
    pub fn append(
        self,
        alloc: Global,
        disks: &mut PlainDisks,
        row: &Row,
    ) -> Result<Kept, JournalFault> {
        let Kept { mut pairing } = self;
        pairing.append(alloc, disks, row.bytes())?;
        Ok(Kept { pairing })
    }

    /// Writes records anew on the other disk.
    #[tactic(auto, using(crate::proofs::Untold::stands_untold))]
    pub fn checkpoint(
        self,
        alloc: Global,
        disks: &mut PlainDisks,
        contents: &Contents,
    ) -> Result<Kept, JournalFault> {
        let Kept { mut pairing } = self;
        if pairing.epoch() == u64::MAX {
            return Err(JournalFault::NoMemory);
        }
        pairing.checkpoint(alloc, disks, contents.records())?;
        Ok(Kept { pairing })
    }

    /// The pairing.
    pub fn pairing(&self) -> &Pairing<RowForm> {
        &self.pairing
    }
}

//! The records of such a journal.
ghost use Rattle.std.specs.Prelude.{◌≡◌};
ghost use Rattle.spl_journal.specs.Records.{IsGood, AreGood};
ghost use Rattle.spl_trial.specs.Rows.{is_row};

use spl_base::Piece;
use spl_journal::{Form, Records};
use spl_snapshot::Packed;
use std::alloc::{AllocError, Global};
use std::marker::Model;

/// Whether bytes are a record: all that don't begin with ff.
fn is_row(bytes: &[u8]) -> bool
    ensures { result ≡ is_row bytes.now }
{
    !matches!(bytes, [255, ..])
}

/// Bytes are a record unless they begin with ff.
pub struct RowForm;

impl Form for RowForm {
    ghost is_record = { is_row };

    type Read = Piece;

    ghost bytes_of = { λ p. p };

    fn read(_alloc: Global, bytes: Vec<u8>) -> Result<Option<Piece>, AllocError> {
        if is_row(&bytes) {
            Ok(Some(Piece::from_vec(bytes)))
        } else {
            Ok(None)
        }
    }
}

/// What packs into no record: what a journal of the old form would be written again with, of which there is none here.
pub struct Nothing;

impl Packed for Nothing {
    ghost use Rattle.std.specs.Prelude.{[]};

    ghost packed = { λ _. [] };

    fn pack(&self, alloc: Global) -> Result<Records, AllocError> {
        Ok(Records::new(alloc))
    }
}

/// A record: 1 to 65,536 bytes that don't begin with ff.
#[derive(Drop)]
pub struct Row {
    bytes: Vec<u8>,
    ghost good: { IsGood is_row bytes.items },
}

impl Row {
    /// The record that bytes are, if they are one.
    pub fn new(bytes: Vec<u8>) -> Option<Row> {
        if bytes.is_empty() || bytes.len() > 65_536 || bytes[0] == 255 {
            return None;
        }
        Some(Row { bytes })
    }

    /// Its bytes.
    pub fn bytes(&self) -> &[u8]
        ensures { IsGood is_row result.now }
    {
        &self.bytes
    }
}

/// Records, which a checkpoint writes.
#[derive(Drop)]
pub struct Contents {
    records: Records,
}

impl Model for Contents {
    ghost use Rattle.std.specs.Prelude.{List, ℕ};
    ghost use Rattle.spl_journal.specs.Records.{AreGood};
    ghost use Rattle.spl_trial.specs.Rows.{is_row};

    ghost Value = { List (List ℕ) };

    ghost view = { λ c. c.records };

    ghost invariant = { λ c. AreGood is_row c.records };
}

impl Contents {
    /// No records.
    pub fn new(alloc: Global) -> Contents {
        Contents {
            records: Records::new(alloc),
        }
    }

    /// These, and one more.
    #[tactic(auto, using(crate::proofs::Records::good_more))]
    pub fn with(self, alloc: Global, row: &Row) -> Result<Contents, AllocError> {
        let Contents { mut records } = self;
        records.push(alloc, row.bytes())?;
        Ok(Contents { records })
    }

    /// The list of them.
    pub fn records(&self) -> &Records
        ensures { AreGood is_row result.now }
    {
        &self.records
    }
}

//! Numbers as the values of a group.
use spl_agree::{Admit, Agreed, Reason};
use std::alloc::{AllocError, Global};

/// The numbers applied so far.
#[derive(Drop)]
pub struct Numbers {
    pub applied: Vec<u64>,
}

impl Agreed for Numbers {
    ghost items = { _ };

    ghost rules = { _ };

    ghost key_of = { _ };

    ghost same_of = { _ };

    ghost stray_of = { _ };

    ghost keyed = { _ };

    ghost samed = { _ };

    ghost same_is = { _ };

    ghost strayed = { _ };

    type Key = u64;

    type Value = u64;

    fn key(value: &u64) -> u64 {
        *value % 100
    }

    fn same(a: &u64, b: &u64) -> bool {
        *a == *b
    }

    fn stray(value: &u64) -> Option<Reason> {
        if *value < 900 {
            None
        } else {
            Some(Reason { code: 6, at: 0 })
        }
    }

    fn admits(&self, _sender: u8, value: &u64) -> Admit {
        if *value < 700 {
            return Admit::Take;
        }
        if *value < 800 {
            Admit::Return(Reason { code: 5, at: 0 })
        } else {
            Admit::Ignore
        }
    }

    fn copy(_alloc: Global, value: &u64) -> Result<u64, AllocError> {
        Ok(*value)
    }

    fn check(&self, _alloc: Global, value: &u64) -> Result<Option<Reason>, AllocError> {
        if *value < 10 {
            return Ok(Some(Reason { code: 1, at: 0 }));
        }
        if self.applied.contains(value) {
            Ok(Some(Reason { code: 2, at: 0 }))
        } else {
            Ok(None)
        }
    }

    fn apply(&mut self, _alloc: Global, value: u64) -> Result<(), AllocError> {
        self.applied.push(value)?;
        Ok(())
    }
}

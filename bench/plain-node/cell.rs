//! What a node keeps of one circuit, and how a change changes it.
use crate::wire::{Address, Batch, Change, Transaction};
use std::collections::{BTreeMap, HashMap, VecDeque};
use std::rc::Rc;
use std::time::Instant;

/// The most batches that wait at a member.
pub const MOST_PENDING: usize = 64;

pub const TAKEN: u8 = 8;
pub const OUTSIDE: u8 = 9;

#[derive(Default)]
pub struct Cell {
    /// The positions of the members; the first one coordinates.
    pub members: Vec<u8>,
    /// Who accepted the circuit, a bit for each position.
    pub accepted: u16,
    pub history: Vec<(u64, Rc<Batch>)>,
    places: HashMap<u64, usize>,
    pub pending: VecDeque<Rc<Batch>>,
    pub refused: HashMap<u64, (Rc<Batch>, u8)>,
    pub promise: Option<(u64, Rc<Batch>)>,
    pub seen: u64,
    pub next: u64,
    pub state: BTreeMap<Address, Vec<u8>>,
    /// The round that is open here, and whose yes is missing; a start forgets it.
    pub open: Option<(u64, u16)>,
    /// When it ticks next, and how long it waits from one tick to the next.
    pub wake: Option<Instant>,
    pub pause: u64,
}

fn is_covered(transaction: &Transaction) -> bool {
    let covers = |address: &Address| transaction.outputs.iter().any(|output| address.starts_with(output));
    transaction.sets.iter().all(|(address, _)| covers(address))
}

pub fn bits_of(members: &[u8]) -> u16 {
    members.iter().fold(0, |bits, member| bits | 1 << member)
}

impl Cell {
    pub fn is_active(&self) -> bool {
        self.accepted == bits_of(&self.members)
    }

    pub fn coordinator(&self) -> u8 {
        self.members[0]
    }

    /// A batch by its id, wherever it is.
    pub fn known(&self, id: u64) -> Option<&Rc<Batch>> {
        if let Some(place) = self.places.get(&id) {
            return Some(&self.history[*place].1);
        }
        let pending = self.pending.iter().find(|batch| batch.id == id);
        pending.or_else(|| Some(&self.refused.get(&id)?.0))
    }

    /// Why a batch can't be committed next.
    pub fn fault(&self, batch: &Batch) -> Option<u8> {
        if self.places.contains_key(&batch.id) {
            return Some(TAKEN);
        }
        if !batch.transactions.iter().all(is_covered) {
            return Some(OUTSIDE);
        }
        None
    }

    /// Whether a round was committed here.
    pub fn has_committed(&self, round: u64) -> bool {
        self.history.binary_search_by_key(&round, |(held, _)| *held).is_ok()
    }

    fn drop_pending(&mut self, id: u64) -> Option<Rc<Batch>> {
        let place = self.pending.iter().position(|batch| batch.id == id)?;
        self.pending.remove(place)
    }

    fn commit(&mut self, round: u64, batch: Rc<Batch>) {
        self.drop_pending(batch.id);
        for (address, value) in batch.transactions.iter().flat_map(|transaction| &transaction.sets) {
            self.state.insert(*address, value.clone());
        }
        self.places.insert(batch.id, self.history.len());
        self.history.push((round, batch));
    }

    pub fn apply(&mut self, change: Change) {
        match change {
            Change::Define { members, accepted } => {
                (self.members, self.accepted, self.next) = (members, accepted, 1);
            }
            Change::Accept { nodes } => self.accepted |= nodes,
            Change::Queue { batch } => self.pending.push_back(batch),
            Change::Begin { round } => self.next = round + 1,
            Change::Promise { round, batch } => {
                self.seen = round;
                self.promise = Some((round, batch));
            }
            Change::Seen { round } => self.seen = round,
            Change::Commit { round } => {
                let promised = self.promise.take().map(|(_, batch)| batch);
                if let Some(batch) = promised.or_else(|| self.pending.front().cloned()) {
                    self.commit(round, batch);
                }
            }
            Change::Abort => self.promise = None,
            Change::Refuse { id, reason } => {
                if let Some(batch) = self.drop_pending(id) {
                    self.refused.insert(id, (batch, reason));
                }
            }
            Change::Have { round, batch } => self.commit(round, batch),
        }
    }

    /// The changes that rebuild it.
    pub fn packed(&self) -> Vec<Change> {
        let mut changes = vec![Change::Define { members: self.members.clone(), accepted: self.accepted }];
        for (round, batch) in &self.history {
            changes.push(Change::Have { round: *round, batch: batch.clone() });
        }
        for (id, (batch, reason)) in &self.refused {
            changes.push(Change::Queue { batch: batch.clone() });
            changes.push(Change::Refuse { id: *id, reason: *reason });
        }
        for batch in &self.pending {
            changes.push(Change::Queue { batch: batch.clone() });
        }
        changes.push(Change::Begin { round: self.next - 1 });
        if let Some((round, batch)) = &self.promise {
            changes.push(Change::Promise { round: *round, batch: batch.clone() });
        }
        changes.push(Change::Seen { round: self.seen });
        changes
    }
}

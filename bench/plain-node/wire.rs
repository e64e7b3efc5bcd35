//! Batches, what nodes say to each other, and what a journal keeps: the values and their bytes.
use std::rc::Rc;

pub type Id = [u8; 11];
pub type Address = [u8; 35];

#[derive(PartialEq)]
pub struct Transaction {
    pub outputs: Vec<Vec<u8>>,
    pub sets: Vec<(Address, Vec<u8>)>,
}

#[derive(PartialEq)]
pub struct Batch {
    pub id: u64,
    pub transactions: Vec<Transaction>,
}

/// What a node says to another about a circuit.
pub enum Message {
    Define { members: Vec<u8>, accepted: u16 },
    Forward { batch: Rc<Batch> },
    Request { round: u64, place: u64, batch: Rc<Batch> },
    Vote { round: u64, is_yes: bool },
    Decision { round: u64, is_commit: bool },
    Ask { round: u64 },
    Refused { id: u64, reason: u8 },
}

/// What an event changes at a circuit.
pub enum Change {
    Define { members: Vec<u8>, accepted: u16 },
    Accept { nodes: u16 },
    Queue { batch: Rc<Batch> },
    Begin { round: u64 },
    Promise { round: u64, batch: Rc<Batch> },
    Seen { round: u64 },
    Commit { round: u64 },
    Abort,
    Refuse { id: u64, reason: u8 },
    /// A committed batch, as a checkpoint has it.
    Have { round: u64, batch: Rc<Batch> },
}

/// Reads bytes from the front; None where they aren't there.
pub struct Reader<'a>(pub &'a [u8]);

impl<'a> Reader<'a> {
    pub fn take(&mut self, count: usize) -> Option<&'a [u8]> {
        let (head, rest) = self.0.split_at_checked(count)?;
        self.0 = rest;
        Some(head)
    }

    pub fn byte(&mut self) -> Option<u8> {
        Some(self.take(1)?[0])
    }

    fn short(&mut self) -> Option<u16> {
        Some(u16::from_be_bytes(self.take(2)?.try_into().ok()?))
    }

    fn number(&mut self) -> Option<u64> {
        Some(u64::from_be_bytes(self.take(8)?.try_into().ok()?))
    }

    fn bytes(&mut self) -> Option<Vec<u8>> {
        let count = self.short()?;
        Some(self.take(count.into())?.to_vec())
    }

    pub fn id(&mut self) -> Option<Id> {
        self.take(11)?.try_into().ok()
    }

    fn batch(&mut self) -> Option<Rc<Batch>> {
        let id = self.number()?;
        let mut transactions = Vec::new();
        for _ in 0..self.byte()? {
            let mut outputs = Vec::new();
            for _ in 0..self.byte()? {
                outputs.push(self.bytes()?);
            }
            let mut sets = Vec::new();
            for _ in 0..self.byte()? {
                sets.push((self.take(35)?.try_into().ok()?, self.bytes()?));
            }
            transactions.push(Transaction { outputs, sets });
        }
        Some(Rc::new(Batch { id, transactions }))
    }

    pub fn message(&mut self) -> Option<Message> {
        Some(match self.byte()? {
            0 => Message::Define { members: self.bytes()?, accepted: self.short()? },
            1 => Message::Forward { batch: self.batch()? },
            2 => Message::Request { round: self.number()?, place: self.number()?, batch: self.batch()? },
            3 => Message::Vote { round: self.number()?, is_yes: self.byte()? == 1 },
            4 => Message::Decision { round: self.number()?, is_commit: self.byte()? == 1 },
            5 => Message::Ask { round: self.number()? },
            6 => Message::Refused { id: self.number()?, reason: self.byte()? },
            _ => return None,
        })
    }

    pub fn change(&mut self) -> Option<Change> {
        Some(match self.byte()? {
            0 => Change::Define { members: self.bytes()?, accepted: self.short()? },
            1 => Change::Accept { nodes: self.short()? },
            2 => Change::Queue { batch: self.batch()? },
            3 => Change::Begin { round: self.number()? },
            4 => Change::Promise { round: self.number()?, batch: self.batch()? },
            5 => Change::Seen { round: self.number()? },
            6 => Change::Commit { round: self.number()? },
            7 => Change::Abort,
            8 => Change::Refuse { id: self.number()?, reason: self.byte()? },
            9 => Change::Have { round: self.number()?, batch: self.batch()? },
            _ => return None,
        })
    }
}

fn put_bytes(out: &mut Vec<u8>, bytes: &[u8]) {
    out.extend_from_slice(&(bytes.len() as u16).to_be_bytes());
    out.extend_from_slice(bytes);
}

fn put_batch(out: &mut Vec<u8>, batch: &Batch) {
    out.extend_from_slice(&batch.id.to_be_bytes());
    out.push(batch.transactions.len() as u8);
    for transaction in &batch.transactions {
        out.push(transaction.outputs.len() as u8);
        for output in &transaction.outputs {
            put_bytes(out, output);
        }
        out.push(transaction.sets.len() as u8);
        for (address, value) in &transaction.sets {
            out.extend_from_slice(address);
            put_bytes(out, value);
        }
    }
}

fn put_round(out: &mut Vec<u8>, tag: u8, round: u64) {
    out.push(tag);
    out.extend_from_slice(&round.to_be_bytes());
}

pub fn put_message(out: &mut Vec<u8>, message: &Message) {
    match message {
        Message::Define { members, accepted } => {
            out.push(0);
            put_bytes(out, members);
            out.extend_from_slice(&accepted.to_be_bytes());
        }
        Message::Forward { batch } => {
            out.push(1);
            put_batch(out, batch);
        }
        Message::Request { round, place, batch } => {
            put_round(out, 2, *round);
            out.extend_from_slice(&place.to_be_bytes());
            put_batch(out, batch);
        }
        Message::Vote { round, is_yes } => {
            put_round(out, 3, *round);
            out.push(*is_yes as u8);
        }
        Message::Decision { round, is_commit } => {
            put_round(out, 4, *round);
            out.push(*is_commit as u8);
        }
        Message::Ask { round } => put_round(out, 5, *round),
        Message::Refused { id, reason } => {
            put_round(out, 6, *id);
            out.push(*reason);
        }
    }
}

pub fn put_change(out: &mut Vec<u8>, change: &Change) {
    match change {
        Change::Define { members, accepted } => {
            out.push(0);
            put_bytes(out, members);
            out.extend_from_slice(&accepted.to_be_bytes());
        }
        Change::Accept { nodes } => {
            out.push(1);
            out.extend_from_slice(&nodes.to_be_bytes());
        }
        Change::Queue { batch } => {
            out.push(2);
            put_batch(out, batch);
        }
        Change::Begin { round } => put_round(out, 3, *round),
        Change::Promise { round, batch } => {
            put_round(out, 4, *round);
            put_batch(out, batch);
        }
        Change::Seen { round } => put_round(out, 5, *round),
        Change::Commit { round } => put_round(out, 6, *round),
        Change::Abort => out.push(7),
        Change::Refuse { id, reason } => {
            put_round(out, 8, *id);
            out.push(*reason);
        }
        Change::Have { round, batch } => {
            put_round(out, 9, *round);
            put_batch(out, batch);
        }
    }
}

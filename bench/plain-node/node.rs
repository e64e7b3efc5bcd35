//! What a node does at a line of an operator, a message of a peer, and a tick; what leaves by it is held back until it is kept.
use crate::cell::{Cell, MOST_PENDING, bits_of};
use crate::journal::{Journal, put_record};
use crate::wire::{Batch, Change, Id, Message, Reader, put_change, put_message};
use std::collections::HashMap;
use std::io::Result;
use std::rc::Rc;
use std::time::{Duration, Instant};

const FIRST_PAUSE: u64 = 200;
const LONGEST_PAUSE: u64 = 5_000;
const NO: u8 = 7;

/// What leaves once its turn is kept.
pub enum Departure {
    Answer { caller: usize, text: String },
    Frame { to: u8, frame: Vec<u8> },
}

#[derive(Default)]
pub struct Counts {
    pub events: u64,
    pub records: u64,
}

pub struct Node {
    pub here: u8,
    pub names: Vec<String>,
    pub cells: HashMap<Id, Cell>,
    pub counts: Counts,
    departures: Vec<Departure>,
    /// The record of the event under way, and those of the turn.
    record: Vec<u8>,
    records: Vec<u8>,
}

fn frame_of(id: &Id, message: &Message) -> Vec<u8> {
    let mut frame = vec![0; 4];
    frame.extend_from_slice(id);
    put_message(&mut frame, message);
    let size = (frame.len() - 4) as u32;
    frame[..4].copy_from_slice(&size.to_be_bytes());
    frame
}

impl Node {
    pub fn new(here: u8, names: Vec<String>) -> Node {
        let (cells, counts) = (HashMap::new(), Counts::default());
        Node { here, names, cells, counts, departures: vec![], record: vec![], records: vec![] }
    }

    /// Makes the changes that a record has.
    pub fn rebuild(&mut self, record: &[u8]) -> Option<()> {
        let mut reader = Reader(record);
        let id = reader.id()?;
        let cell = self.cells.entry(id).or_default();
        while !reader.0.is_empty() {
            cell.apply(reader.change()?);
        }
        Some(())
    }

    fn change(&mut self, id: &Id, change: Change) {
        if self.record.is_empty() {
            self.record.extend_from_slice(id);
        }
        put_change(&mut self.record, &change);
        self.cells.entry(*id).or_default().apply(change);
    }

    fn send(&mut self, id: &Id, to: u8, message: &Message) {
        self.departures.push(Departure::Frame { to, frame: frame_of(id, message) });
    }

    fn send_all(&mut self, id: &Id, nodes: u16, message: &Message) {
        let frame = frame_of(id, message);
        for to in (0..16).filter(|to| nodes & 1 << to != 0) {
            self.departures.push(Departure::Frame { to, frame: frame.clone() });
        }
    }

    /// The bits of the other members of a circuit.
    fn others(&self, id: &Id) -> u16 {
        bits_of(&self.cells[id].members) & !(1 << self.here)
    }

    /// Opens the next round where this node coordinates, none is open, and a batch waits; one that can't be committed is refused.
    fn begin_round(&mut self, id: &Id) {
        loop {
            let cell = &self.cells[id];
            if cell.coordinator() != self.here || cell.open.is_some() || !cell.is_active() {
                return;
            }
            let Some(batch) = cell.pending.front().cloned() else { return };
            let (round, place, others) = (cell.next, cell.history.len() as u64, self.others(id));
            if let Some(reason) = cell.fault(&batch) {
                self.refuse(id, batch.id, reason);
                continue;
            }
            self.change(id, Change::Begin { round });
            self.cells.get_mut(id).unwrap().open = Some((round, others));
            return self.send_all(id, others, &Message::Request { round, place, batch });
        }
    }

    fn refuse(&mut self, id: &Id, batch: u64, reason: u8) {
        self.change(id, Change::Refuse { id: batch, reason });
        self.send_all(id, self.others(id), &Message::Refused { id: batch, reason });
    }

    /// Ends an event: a round begins that can, and what waits for others ticks later.
    fn end_event(&mut self, id: &Id, now: Instant) {
        self.counts.events += 1;
        self.begin_round(id);
        let cell = self.cells.get_mut(id).unwrap();
        cell.pause = FIRST_PAUSE;
        let is_due = cell.open.is_some() || cell.promise.is_some() || !cell.pending.is_empty() || !cell.is_active();
        cell.wake = is_due.then(|| now + Duration::from_millis(FIRST_PAUSE));
        self.end_record();
    }

    fn end_record(&mut self) {
        if !self.record.is_empty() {
            self.counts.records += 1;
            put_record(&mut self.records, &self.record);
            self.record.clear();
        }
    }

    // ---- Lines of operators

    fn propose(&mut self, id: &Id, members: Vec<u8>) -> String {
        if self.cells.contains_key(id) {
            return "refused 6".into();
        }
        let accepted = 1 << self.here;
        self.change(id, Change::Define { members: members.clone(), accepted });
        self.send_all(id, self.others(id), &Message::Define { members, accepted });
        "ok queued".into()
    }

    fn accept(&mut self, id: &Id) -> String {
        self.change(id, Change::Accept { nodes: 1 << self.here });
        let cell = &self.cells[id];
        let message = Message::Define { members: cell.members.clone(), accepted: cell.accepted };
        self.send_all(id, self.others(id), &message);
        "ok queued".into()
    }

    fn submit(&mut self, id: &Id, batch: Batch) -> String {
        let cell = &self.cells[id];
        if !cell.is_active() {
            return "refused 11".into();
        }
        if let Some(known) = cell.known(batch.id) {
            return if **known == batch { "ok known" } else { "refused 14" }.into();
        }
        if cell.pending.len() >= MOST_PENDING {
            return "refused 15".into();
        }
        let (batch, coordinator) = (Rc::new(batch), cell.coordinator());
        self.change(id, Change::Queue { batch: batch.clone() });
        if coordinator != self.here {
            self.send(id, coordinator, &Message::Forward { batch });
        }
        "ok queued".into()
    }

    fn history(&self, id: &Id) -> String {
        let history = &self.cells[id].history;
        history.iter().fold(format!("ok history {}", history.len()), |text, (_, batch)| format!("{text} {}", batch.id))
    }

    fn show(&self, id: &Id) -> String {
        let lifecycle = if self.cells[id].is_active() { "active" } else { "proposed" };
        format!("ok circuit generation 1 lifecycle {lifecycle}")
    }

    fn get(&self, id: &Id, address: &str) -> Option<String> {
        let value = self.cells[id].state.get(crate::lines::address_of(address)?.as_slice());
        Some(value.map_or("ok none".into(), |value| format!("ok value {}", crate::lines::digits_of(value))))
    }

    fn answer(&mut self, words: &[&str]) -> Option<String> {
        let id: Id = words.get(1)?.as_bytes().try_into().ok()?;
        if words[0] != "propose" && !self.cells.contains_key(&id) {
            return Some("refused 2".into());
        }
        match (words[0], &words[2..]) {
            ("propose", [.., roster]) => Some(self.propose(&id, crate::lines::members_of(roster, &self.names)?)),
            ("vote", ["accept"]) => Some(self.accept(&id)),
            ("submit", [batch, rest @ ..]) => Some(self.submit(&id, crate::lines::batch_of(batch, rest)?)),
            ("show", []) => Some(self.show(&id)),
            ("history", []) => Some(self.history(&id)),
            ("get", [address]) => self.get(&id, address),
            _ => None,
        }
    }

    /// A line of an operator, whose answer leaves for a caller.
    pub fn line(&mut self, caller: usize, line: &str, now: Instant) {
        let words: Vec<&str> = line.split(' ').collect();
        let text = self.answer(&words).unwrap_or("bad line".into());
        self.departures.push(Departure::Answer { caller, text });
        if let Some(id) = words.get(1).and_then(|word| word.as_bytes().try_into().ok()) {
            if self.cells.contains_key(&id) {
                self.end_event(&id, now);
            }
        }
    }

    /// What was counted, for a caller.
    pub fn report(&mut self, caller: usize, syncs: u64) {
        let counted = [("events", self.counts.events), ("records", self.counts.records), ("syncs", syncs)];
        let line = |(name, count): &(&str, u64)| format!("# TYPE splinter_{name}_total counter\nsplinter_{name}_total {count}");
        let lines: Vec<String> = counted.iter().map(line).collect();
        let text = format!("ok metrics {}\n{}", 2 * lines.len(), lines.join("\n"));
        self.departures.push(Departure::Answer { caller, text });
    }

    // ---- Messages of peers

    fn defined(&mut self, id: &Id, members: Vec<u8>, accepted: u16) {
        match self.cells.get(id) {
            None => self.change(id, Change::Define { members, accepted }),
            Some(cell) if cell.accepted | accepted != cell.accepted => self.change(id, Change::Accept { nodes: accepted }),
            Some(_) => {}
        }
    }

    fn forwarded(&mut self, id: &Id, from: u8, batch: Rc<Batch>) {
        let cell = &self.cells[id];
        if cell.coordinator() != self.here || !cell.is_active() {
            return;
        }
        if let Some((_, reason)) = cell.refused.get(&batch.id) {
            let message = Message::Refused { id: batch.id, reason: *reason };
            return self.send(id, from, &message);
        }
        if cell.known(batch.id).is_none() && cell.pending.len() < MOST_PENDING {
            self.change(id, Change::Queue { batch });
        }
    }

    fn requested(&mut self, id: &Id, from: u8, round: u64, place: u64, batch: Rc<Batch>) {
        let cell = &self.cells[id];
        if from != cell.coordinator() {
            return;
        }
        let is_yes = match &cell.promise {
            Some((held, _)) if *held == round => true,
            Some((held, _)) => {
                let message = Message::Ask { round: *held };
                return self.send(id, from, &message);
            }
            None if round <= cell.seen => return,
            None => place == cell.history.len() as u64 && cell.fault(&batch).is_none(),
        };
        if is_yes && self.cells[id].promise.is_none() {
            self.change(id, Change::Promise { round, batch });
        } else if !is_yes {
            self.change(id, Change::Seen { round });
        }
        self.send(id, from, &Message::Vote { round, is_yes });
    }

    fn voted(&mut self, id: &Id, from: u8, round: u64, is_yes: bool) {
        let others = self.others(id);
        let cell = self.cells.get_mut(id).unwrap();
        let Some((open, missing)) = cell.open else { return };
        if open != round || missing & 1 << from == 0 {
            return;
        }
        let missing = missing & !(1 << from);
        cell.open = (is_yes && missing != 0).then_some((round, missing));
        if !is_yes {
            let batch = cell.pending[0].id;
            self.send_all(id, others, &Message::Decision { round, is_commit: false });
            self.refuse(id, batch, NO);
        } else if missing == 0 {
            self.change(id, Change::Commit { round });
            self.send_all(id, others, &Message::Decision { round, is_commit: true });
        }
    }

    fn decided(&mut self, id: &Id, from: u8, round: u64, is_commit: bool) {
        let cell = &self.cells[id];
        if from == cell.coordinator() && cell.promise.as_ref().is_some_and(|(held, _)| *held == round) {
            self.change(id, if is_commit { Change::Commit { round } } else { Change::Abort });
        }
    }

    fn asked(&mut self, id: &Id, from: u8, round: u64) {
        let cell = &self.cells[id];
        let is_commit = cell.has_committed(round);
        let is_open = cell.open.is_some_and(|(open, _)| open == round);
        if cell.coordinator() == self.here && (is_commit || round < cell.next && !is_open) {
            self.send(id, from, &Message::Decision { round, is_commit });
        }
    }

    /// A message of a peer; None where its bytes are none.
    pub fn hear(&mut self, from: u8, body: &[u8], now: Instant) -> Option<()> {
        let mut reader = Reader(body);
        let (id, message) = (reader.id()?, reader.message()?);
        if !self.cells.contains_key(&id) && !matches!(message, Message::Define { .. }) {
            return Some(());
        }
        match message {
            Message::Define { members, accepted } => self.defined(&id, members, accepted),
            Message::Forward { batch } => self.forwarded(&id, from, batch),
            Message::Request { round, place, batch } => self.requested(&id, from, round, place, batch),
            Message::Vote { round, is_yes } => self.voted(&id, from, round, is_yes),
            Message::Decision { round, is_commit } => self.decided(&id, from, round, is_commit),
            Message::Ask { round } => self.asked(&id, from, round),
            Message::Refused { id: batch, reason } => {
                if self.cells[&id].pending.iter().any(|held| held.id == batch) {
                    self.change(&id, Change::Refuse { id: batch, reason });
                }
            }
        }
        self.end_event(&id, now);
        Some(())
    }

    // ---- Ticks

    /// After a start each circuit ticks at once.
    pub fn wake_all(&mut self) {
        self.cells.values_mut().for_each(|cell| cell.wake = Some(Instant::now()));
    }

    fn tick(&mut self, id: &Id) {
        let cell = &self.cells[id];
        let coordinator = cell.coordinator();
        if !cell.is_active() {
            let message = Message::Define { members: cell.members.clone(), accepted: cell.accepted };
            self.send_all(id, self.others(id), &message);
        } else if let (Some((round, missing)), Some(batch)) = (cell.open, cell.pending.front()) {
            let message = Message::Request { round, place: cell.history.len() as u64, batch: batch.clone() };
            self.send_all(id, missing, &message);
        } else if let Some((round, _)) = cell.promise {
            self.send(id, coordinator, &Message::Ask { round });
        } else if let Some(batch) = cell.pending.front().filter(|_| coordinator != self.here) {
            let message = Message::Forward { batch: batch.clone() };
            self.send(id, coordinator, &message);
        }
        self.begin_round(id);
    }

    /// Ticks the circuits whose time has come.
    pub fn tick_all(&mut self, now: Instant) {
        let due: Vec<Id> = self.cells.iter().filter(|(_, cell)| cell.wake.is_some_and(|wake| wake <= now)).map(|(id, _)| *id).collect();
        for id in due {
            self.counts.events += 1;
            self.tick(&id);
            self.end_record();
            let cell = self.cells.get_mut(&id).unwrap();
            cell.wake = Some(now + Duration::from_millis(cell.pause));
            cell.pause = (2 * cell.pause).min(LONGEST_PAUSE);
        }
    }

    // ---- Turns

    fn checkpoint(&self, journal: &mut Journal) -> Result<()> {
        let mut records = Vec::new();
        for (id, cell) in &self.cells {
            let mut record = id.to_vec();
            for change in cell.packed() {
                put_change(&mut record, &change);
            }
            put_record(&mut records, &record);
        }
        journal.checkpoint(&records)
    }

    /// Keeps what happened in the turn, by one append, and hands out what leaves by it.
    pub fn keep(&mut self, journal: &mut Journal) -> Result<Vec<Departure>> {
        if !self.records.is_empty() {
            journal.append(std::mem::take(&mut self.records))?;
            if !journal.has_room() {
                self.checkpoint(journal)?;
            }
        }
        Ok(std::mem::take(&mut self.departures))
    }
}

//! What nodes keep, and audits of it. A row of `keeps` or `audit` has parts with & between them, each of which gives nodes with
//! their disks, in its order:
//!
//! | part | disks |
//! |---|---|
//! | `NODE,.. of NODE,.. \| LINE;LINE` | those of the nodes named first, after a run in memory of these lines over the nodes named after `of` |
//! | `NODE,.. of NODE,.. \| LINE;LINE \| TIMES LINE;LINE` | the same, where the lines after the last \| come so many times |
//! | `NODE has FIRST SECOND` | two of these bytes, as in a row of `node` |
use crate::disks::content::told;
use crate::disks::desk::fault_text;
use crate::disks::desks::disks_of;
use crate::runs::devices::{registry_of, schedule_of, sink_of};
use crate::runs::texts::Row;
use crate::runs::told::status_text;
use crate::words::{Answered, RowFault, Telling, halves, long, node, text_of};
use spl_app::splinter;
use spl_audit::{AuditFault, Clash, append_report, audit};
use spl_memory::{blank_bench, blank_fabric, blank_shelf, MemDisk};
use spl_cell::Held;
use spl_edge::{Bench, Disk, Pair};
use spl_node::Keeper;
use spl_cli::Status;
use std::alloc::{AllocError, AllocFailed, Global};

/// Why a row has no audit.
#[derive(Drop)]
enum Unaudited {
    Row(RowFault),
    /// What the row answers in place of it.
    Told(String),
}

impl From<RowFault> for Unaudited {
    fn from(fault: RowFault) -> Unaudited {
        Unaudited::Row(fault)
    }
}

impl From<AllocError> for Unaudited {
    fn from(_: AllocError) -> Unaudited {
        Unaudited::Row(RowFault::NoMemory)
    }
}

impl<T: Drop> From<AllocFailed<T>> for Unaudited {
    fn from(_: AllocFailed<T>) -> Unaudited {
        Unaudited::Row(RowFault::NoMemory)
    }
}

/// What was read of nodes, and the bytes that their disks hold after it.
#[derive(Drop)]
struct Seen {
    keepers: Vec<Keeper>,
    bytes: Vec<String>,
}

fn bytes_of<D: Disk>(alloc: Global, disk: &mut D) -> Result<Vec<u8>, RowFault> {
    let len = disk.len().ok().ok_or(RowFault::BadRow)?;
    let mut found = vec![in alloc; 0u8; len as usize]?;
    match disk.read(0, &mut found) {
        Ok(_) => Ok(found),
        Err(_) => Err(RowFault::BadRow),
    }
}

/// The text of all bytes of two disks.
fn bytes_text<D: Disk>(alloc: Global, disks: &mut Pair<D>) -> Answered {
    let first = told(alloc, &bytes_of(alloc, &mut disks.first)?)?;
    let second = told(alloc, &bytes_of(alloc, &mut disks.second)?)?;
    Ok(format!(in alloc; "{} and {}", first.as_str(), second.as_str())?)
}

fn held_text(alloc: Global, held: &Held) -> Answered {
    let generation = held.definition().generation.0;
    let (acts, batches) = (held.acts().len(), held.batches().len());
    Ok(format!(in alloc; "{generation} acts {acts} batches {batches}")?)
}

/// The node, and of each circuit that it keeps the id, the generation and how long its histories are.
fn keeper_text(alloc: Global, keeper: &Keeper) -> Answered {
    let mut told = Telling::new(alloc);
    told.tell("", text_of(alloc, keeper.here().bytes()));
    for circuit in keeper.roll(alloc)?.as_slice() {
        told.tell(" ", text_of(alloc, circuit.bytes()));
        if let Some(held) = keeper.held(circuit) {
            told.tell(" ", held_text(alloc, held));
        }
    }
    told.finish()
}

fn read<D: Disk>(alloc: Global, here: &str, disks: &mut Pair<D>) -> Result<Keeper, Unaudited> {
    match Keeper::peek(alloc, node(here)?, disks) {
        Ok(keeper) => Ok(keeper),
        Err(fault) => {
            let text = fault_text(alloc, fault)?;
            Err(Unaudited::Told(format!(in alloc; "{here} {}", text.as_str())?))
        }
    }
}

impl Seen {
    /// Reads what a node keeps. It is told if that changes its disks, or if it is otherwise a second time.
    fn see<D: Disk>(
        &mut self,
        alloc: Global,
        here: &str,
        disks: &mut Pair<D>,
    ) -> Result<(), Unaudited> {
        let before = bytes_text(alloc, disks)?;
        let once = read(alloc, here, disks)?;
        let between = bytes_text(alloc, disks)?;
        let again = read(alloc, here, disks)?;
        let after = bytes_text(alloc, disks)?;
        if before.as_str() != between.as_str() || before.as_str() != after.as_str() {
            return Err(Unaudited::Told(format!(in alloc; "{here} has other bytes")?));
        }
        if keeper_text(alloc, &once)?.as_str() != keeper_text(alloc, &again)?.as_str() {
            return Err(Unaudited::Told(format!(in alloc; "{here} is read otherwise")?));
        }
        self.keepers.push(again)?;
        self.bytes.push(after)?;
        Ok(())
    }

    /// What nodes of a run keep, by their positions in its registry.
    fn see_all(
        &mut self,
        alloc: Global,
        kept: &str,
        nodes: &str,
        bench: &mut Bench<MemDisk>,
    ) -> Result<(), Unaudited> {
        for here in kept.split(',') {
            let Some(position) = nodes.split(',').position(|other| other == here) else {
                return Err(Unaudited::Row(RowFault::BadRow));
            };
            self.see(alloc, here, &mut bench.pairs[position])?;
        }
        Ok(())
    }

    /// What the nodes of a part keep.
    fn see_part(&mut self, alloc: Global, part: &str) -> Result<(), Unaudited> {
        if let Some((here, disks)) = part.split_once(" has ") {
            let (first, second) = halves(disks, ' ')?;
            return self.see(alloc, here, &mut disks_of(alloc, first, second)?);
        }
        let (head, lines) = part.split_once(" | ").ok_or(RowFault::BadRow)?;
        let (kept, nodes) = head.split_once(" of ").ok_or(RowFault::BadRow)?;
        let mut bench = bench_of(alloc, nodes, lines)?;
        self.see_all(alloc, kept, nodes, &mut bench)
    }
}

/// The lines of a run, with ; after each.
fn lines_of(alloc: Global, text: &str) -> Answered {
    let (once, rest) = text.split_once(" | ").unwrap_or((text, "0 "));
    let (times, again) = halves(rest, ' ')?;
    let mut lines = format!(in alloc; "{once};")?;
    for _ in 0..long(times)? {
        lines.push_str(again)?;
        lines.push_str(";")?;
    }
    Ok(lines)
}

/// The disks that a run of these lines leaves.
fn bench_of(alloc: Global, nodes: &str, lines: &str) -> Result<Bench<MemDisk>, Unaudited> {
    let schedule = lines_of(alloc, lines)?;
    let row = Row {
        nodes,
        words: &[],
        schedule: schedule.as_str(),
    };
    let mut command = Vec::new(alloc);
    for word in ["replay", "registry", "schedule"] {
        command.push(String::from_str(alloc, word)?)?;
    }
    let mut bench = blank_bench(alloc)?;
    let status = splinter(
        alloc,
        &command,
        &mut registry_of(alloc, &row)?,
        &mut schedule_of(alloc, &row)?,
        &mut sink_of(alloc, &row)?,
        &mut bench,
        &mut blank_shelf(alloc)?,
        &mut blank_fabric(alloc, Vec::new(alloc)),
    );
    match status {
        Status::Ok => Ok(bench),
        other => Err(Unaudited::Told(status_text(alloc, &other)?)),
    }
}

/// What the nodes of all parts keep.
fn seen_of(alloc: Global, text: &str) -> Result<Seen, Unaudited> {
    let mut seen = Seen {
        keepers: Vec::new(alloc),
        bytes: Vec::new(alloc),
    };
    for part in text.split(" & ") {
        seen.see_part(alloc, part)?;
    }
    Ok(seen)
}

/// The line of a clash, with the ids of the two nodes.
fn append_clash(clash: &Clash, nodes: &[Keeper], out: &mut Vec<u8>) -> Result<(), RowFault> {
    let (first, second) = (nodes[clash.first].here(), nodes[clash.second].here());
    clash.append_line(&first, &second, out)?;
    Ok(())
}

/// The lines of the audit of some nodes.
fn audit_text(alloc: Global, nodes: &[Keeper]) -> Answered {
    let mut out = Vec::new(alloc);
    match audit(alloc, nodes) {
        Ok(report) => append_report(report.as_slice(), &mut out)?,
        Err(AuditFault::Clash(clash)) => append_clash(&clash, nodes, &mut out)?,
        Err(AuditFault::NoMemory) => return Err(RowFault::NoMemory),
    }
    let text = text_of(alloc, &out)?;
    let lines = text.as_str().strip_suffix('\n').ok_or(RowFault::BadRow)?;
    Ok(lines.replace(alloc, '\n', "\n  ")?)
}

/// What each node keeps, and the bytes of its disks.
fn keeps_text(alloc: Global, seen: &Seen) -> Answered {
    let mut told = Telling::new(alloc);
    for (keeper, bytes) in seen.keepers.iter().zip(seen.bytes.iter()) {
        told.tell("\n  ", keeper_text(alloc, keeper));
        told.tell(", on ", Ok(String::from_str(alloc, bytes.as_str())?));
    }
    told.finish()
}

fn answer(found: Result<Answered, Unaudited>) -> Answered {
    match found {
        Ok(answer) => answer,
        Err(Unaudited::Row(fault)) => Err(fault),
        Err(Unaudited::Told(text)) => Ok(text),
    }
}

/// What the audit of the nodes of a row prints.
pub fn audited(alloc: Global, text: &str) -> Answered {
    answer(seen_of(alloc, text).map(|seen| audit_text(alloc, &seen.keepers)))
}

/// What each node of a row keeps, as it was read from its disks, which still hold these bytes.
pub fn kept(alloc: Global, text: &str) -> Answered {
    answer(seen_of(alloc, text).map(|seen| keeps_text(alloc, &seen)))
}

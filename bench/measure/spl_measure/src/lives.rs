//! The life of a circuit at the node that leads it, over disks and without them.
ghost use Rattle.std.specs.Prelude.{◌≡◌, IfOk};
ghost use Rattle.spl_cell_rules.specs.Valid.{IsFor};
ghost use Rattle.spl_node.specs.Records.{site_at};
ghost use Rattle.spl_trial.specs.About.{IsAbout};

use crate::Fault;
use spl_agree::{Generation, Round};
use spl_base::{BatchId, Boxed, CircuitId, NodeId, Reader, ServiceId, Value};
use spl_cell::Cell;
use spl_circuit::Definition;
use spl_command::Batch;
use spl_edge::{Disk, Fill};
use spl_trial::{PlainDisk, PlainDisks, Seat, acceptance, act_vote, batch_vote, delivery, is_own};
use spl_wire::{Event, Message};
use std::alloc::Global;

/// What has events of one circuit.
trait Target: Drop {
    ghost use Rattle.spl_cell_rules.specs.Cells.{Site};

    /// The circuit and its node.
    ghost site: { Self → Site };

    /// An event, of which nothing is told.
    fn take(&mut self, alloc: Global, event: &Event) -> Result<(), Fault>
        requires { IsFor (site self.old) event.now }
        ensures { site self.new ≡ site self.old };
}

/// A cell without a disk.
#[derive(Drop)]
struct Bare {
    cell: Cell,
}

impl Target for Bare {
    ghost site = { λ b. b.cell.site };

    fn take(&mut self, alloc: Global, event: &Event) -> Result<(), Fault> {
        if self.cell.is_halted() {
            return Err(Fault::NoMemory);
        }
        let plan = self.cell.plan(alloc, event)?;
        self.cell.apply(alloc, &plan)?;
        Ok(())
    }
}

/// A node over its disks, of which one circuit has events.
#[derive(Drop)]
struct Seated {
    seat: Seat,
    disks: PlainDisks,
    circuit: CircuitId,
}

impl Target for Seated {
    ghost site = { λ s. site_at s.seat.here s.circuit };

    fn take(&mut self, alloc: Global, event: &Event) -> Result<(), Fault> {
        let circuit = self.circuit;
        let _ = self.seat.step(alloc, &mut self.disks, &circuit, event)?;
        Ok(())
    }
}

/// What a life is made of: a definition of two members, of which the first leads, and a batch.
#[derive(Drop)]
struct Life {
    definition: Definition,
    here: NodeId,
    other: NodeId,
    sender: ServiceId,
    recipient: ServiceId,
    batch: Batch,
}

fn read(alloc: Global, bytes: &[u8]) -> Result<Life, Fault> {
    let mut reader = Reader::new(bytes);
    let definition = Definition::read(alloc, &mut reader)?;
    let batch = Batch::read(alloc, &mut reader)?;
    let [here, other] = definition.members.as_slice() else {
        return Err(Fault::Malformed);
    };
    let [recipient, sender] = definition.services.as_slice() else {
        return Err(Fault::Malformed);
    };
    let (here, other) = (*here, *other);
    let (sender, recipient) = (sender.id, recipient.id);
    Ok(Life {
        definition,
        here,
        other,
        sender,
        recipient,
        batch,
    })
}

/// An event that comes from no other node.
fn own<T: Target>(
    target: &mut T,
    alloc: Global,
    here: &NodeId,
    circuit: &CircuitId,
    event: Event,
) -> Result<(), Fault>
    requires { T.site target.old ≡ site_at here.now circuit.now }
    ensures { T.site target.new ≡ T.site target.old }
{
    if !is_own(alloc, circuit, &event)? {
        return Err(Fault::Malformed);
    }
    target.take(alloc, &event)
}

/// A message from another node.
fn hear<T: Target>(
    target: &mut T,
    alloc: Global,
    here: &NodeId,
    circuit: &CircuitId,
    from: NodeId,
    message: Message,
) -> Result<(), Fault>
    requires own { T.site target.old ≡ site_at here.now circuit.now }
    requires about { IsAbout circuit.now message }
    ensures { T.site target.new ≡ T.site target.old }
{
    if from == *here {
        return Err(Fault::Malformed);
    }
    let event = delivery(alloc, here, circuit, from, message)?;
    target.take(alloc, &event)
}

/// A round of acts: a tick, and the vote of the other member.
fn act_round<T: Target>(
    target: &mut T,
    alloc: Global,
    life: &Life,
    circuit: &CircuitId,
    round: u64,
) -> Result<(), Fault>
    requires { T.site target.old ≡ site_at life.now.here circuit.now }
    ensures { T.site target.new ≡ T.site target.old }
{
    own(target, alloc, &life.here, circuit, Event::Tick)?;
    let vote = act_vote(*circuit, Generation(1), Round(round));
    hear(target, alloc, &life.here, circuit, life.other, vote)
}

/// The circuit is proposed and accepted.
fn begun<T: Target>(
    target: &mut T,
    alloc: Global,
    life: &Life,
    circuit: &CircuitId,
) -> Result<(), Fault>
    requires { T.site target.old ≡ site_at life.now.here circuit.now }
    ensures { T.site target.new ≡ T.site target.old }
{
    let proposal = Boxed::new(alloc, life.definition.copy(alloc)?)?;
    own(target, alloc, &life.here, circuit, Event::Propose(proposal))?;
    let message = acceptance(*circuit, Generation(1), life.other, 1);
    hear(target, alloc, &life.here, circuit, life.other, message)?;
    act_round(target, alloc, life, circuit, 1)?;
    act_round(target, alloc, life, circuit, 2)
}

/// A batch is submitted and committed in a round of this number, by three events.
fn committed<T: Target>(
    target: &mut T,
    alloc: Global,
    life: &Life,
    circuit: &CircuitId,
    batch: Batch,
    number: u64,
) -> Result<(), Fault>
    requires { T.site target.old ≡ site_at life.now.here circuit.now }
    ensures { T.site target.new ≡ T.site target.old }
{
    let submission = Event::Submit(Boxed::new(alloc, batch)?);
    own(target, alloc, &life.here, circuit, submission)?;
    own(target, alloc, &life.here, circuit, Event::Tick)?;
    let (from, to) = (life.sender, life.recipient);
    let vote = batch_vote(*circuit, Generation(1), Round(number), from, to);
    hear(target, alloc, &life.here, circuit, life.other, vote)
}

/// The batch of this number.
fn batch_of(alloc: Global, life: &Life, number: u64) -> Result<Batch, Fault> {
    let mut batch = life.batch.copy(alloc)?;
    batch.id = BatchId(number);
    Ok(batch)
}

/// A life of so many batches.
fn lived<T: Target>(target: &mut T, alloc: Global, life: &Life, times: u32) -> Result<(), Fault>
    requires { T.site target.old ≡ site_at life.now.here life.now.definition.id }
{
    let circuit = life.definition.id;
    begun(target, alloc, life, &circuit)?;
    for number in 0..times {
        let number = u64::from(number) + 1;
        let batch = batch_of(alloc, life, number)?;
        committed(target, alloc, life, &circuit, batch, number)?;
    }
    Ok(())
}

fn bare_cell(life: &Life) -> Bare
    ensures { result.cell.site ≡ site_at life.now.here life.now.definition.id }
{
    Bare {
        cell: Cell::empty(life.here, life.definition.id),
    }
}

/// So many batches at a cell; tells how many.
pub(crate) fn without_disks(alloc: Global, bytes: &[u8], times: u32) -> Result<u64, Fault> {
    let life = read(alloc, bytes)?;
    let mut target = bare_cell(&life);
    lived(&mut target, alloc, &life, times)?;
    Ok(u64::from(times))
}

fn seat_at(alloc: Global, life: &Life) -> Result<Seated, Fault>
    ensures { IfOk result (λ s. (s.seat.here ≡ life.now.here) × (s.circuit ≡ life.now.definition.id)) }
{
    let mut disks = PlainDisks {
        first: PlainDisk::blank(alloc),
        second: PlainDisk::blank(alloc),
    };
    let seat = Seat::create(alloc, life.here, &mut disks)?;
    let circuit = life.definition.id;
    Ok(Seated {
        seat,
        disks,
        circuit,
    })
}

fn over_disks(alloc: Global, bytes: &[u8], times: u32) -> Result<Seated, Fault> {
    let life = read(alloc, bytes)?;
    let mut target = seat_at(alloc, &life)?;
    lived(&mut target, alloc, &life, times)?;
    Ok(target)
}

/// So many batches at a node over its disks; tells how many.
pub(crate) fn kept(alloc: Global, bytes: &[u8], times: u32) -> Result<u64, Fault> {
    let _ = over_disks(alloc, bytes, times)?;
    Ok(u64::from(times))
}

/// The number in the last four bytes.
fn last_number(bytes: &[u8]) -> Option<u32> {
    let [.., a, b, c, d] = bytes else {
        return None;
    };
    Some(u32::from_be_bytes([*a, *b, *c, *d]))
}

/// Opens a node of as many batches as the last four bytes say again and again, and tells how many bytes its journal has.
pub(crate) fn open(alloc: Global, bytes: &[u8], times: u32) -> Result<u64, Fault> {
    let Some(batches) = last_number(bytes) else {
        return Err(Fault::Malformed);
    };
    let Seated {
        mut seat,
        mut disks,
        circuit: _,
    } = over_disks(alloc, bytes, batches)?;
    for _ in 0..times {
        seat = Seat::open(alloc, seat.here(), &mut disks)?;
    }
    let counting = if seat.counting() == 0 {
        &mut disks.first
    } else {
        &mut disks.second
    };
    Ok(counting.len()?)
}

/// Makes the bytes of a journal those of the old form.
fn make_old(bytes: &mut Vec<u8>) {
    if bytes.len() >= 8 {
        bytes[..8].copy_from_slice(b"SPLJRN01");
    }
}

/// Opens a node of as many batches as the last four bytes say again and again, each time over a journal of the old form, and
/// tells how many bytes that has.
pub(crate) fn carry(alloc: Global, bytes: &[u8], times: u32) -> Result<u64, Fault> {
    let Some(batches) = last_number(bytes) else {
        return Err(Fault::Malformed);
    };
    let Seated {
        seat,
        mut disks,
        circuit: _,
    } = over_disks(alloc, bytes, batches)?;
    let mut old = if seat.counting() == 0 {
        disks.first.bytes(alloc)?
    } else {
        disks.second.bytes(alloc)?
    };
    make_old(&mut old);
    for _ in 0..times {
        let mut disks = PlainDisks {
            first: PlainDisk::of(alloc, &old)?,
            second: PlainDisk::blank(alloc),
        };
        stop(Seat::open(alloc, seat.here(), &mut disks)?);
    }
    Ok(old.len() as u64)
}

/// The batches of these bytes, each of which has so many, are committed one after the other.
fn grown<T: Target>(
    target: &mut T,
    alloc: Global,
    life: &Life,
    batches: &[u8],
    each: usize,
) -> Result<(), Fault>
    requires { T.site target.old ≡ site_at life.now.here life.now.definition.id }
{
    let circuit = life.definition.id;
    begun(target, alloc, life, &circuit)?;
    for bytes in batches.chunks_exact(each.max(1)) {
        let batch = Batch::read(alloc, &mut Reader::new(bytes))?;
        let number = batch.id.0;
        committed(target, alloc, life, &circuit, batch, number)?;
    }
    Ok(())
}

/// The node goes, with its cells.
fn stop(_seat: Seat) {}

/// A node that goes down and comes up over what its disks keep.
fn restarted(alloc: Global, seat: Seat, disks: &mut PlainDisks) -> Result<Seat, Fault> {
    let here = seat.here();
    stop(seat);
    disks.first.pick(alloc, Fill::Old)?;
    disks.second.pick(alloc, Fill::Old)?;
    Ok(Seat::open(alloc, here, disks)?)
}

/// Stops a node again and again and opens it, and tells how many bytes its disks have. Its batches, numbered from 1
/// on and all as long as the first, stand after the definition.
pub(crate) fn stops(alloc: Global, bytes: &[u8], times: u32) -> Result<u64, Fault> {
    let life = read(alloc, bytes)?;
    let mut reader = Reader::new(bytes);
    let _ = Definition::read(alloc, &mut reader)?;
    let first = reader.place().min(bytes.len());
    let _ = Batch::read(alloc, &mut reader)?;
    let each = reader.place().saturating_sub(first);
    let mut target = seat_at(alloc, &life)?;
    grown(&mut target, alloc, &life, &bytes[first..], each)?;
    let Seated {
        mut seat,
        mut disks,
        circuit: _,
    } = target;
    for _ in 0..times {
        seat = restarted(alloc, seat, &mut disks)?;
    }
    stop(seat);
    Ok(disks.first.len()?.saturating_add(disks.second.len()?))
}

//! A node over two disks.
ghost use Rattle.std.specs.Prelude.{◌≡◌, false, IfOk};
ghost use Rattle.spl_journal.specs.Journals.{is_halted as journal_halted};
ghost use Rattle.spl_snapshot.specs.Pairs.{journal_in};
ghost use Rattle.spl_cell_rules.specs.Valid.{IsFor};
ghost use Rattle.spl_node.specs.Records.{site_at};
ghost use Rattle.spl_node.specs.Stands.{here_of, is_halted};

use crate::PlainDisks;
use spl_base::{CircuitId, NodeId};
use spl_journal::JournalFault;
use spl_node::Node;
use spl_wire::{Answer, Event};
use std::alloc::Global;

/// A node, and its id.
#[derive(Drop)]
pub struct Seat {
    node: Node,
    here: NodeId,
    ghost own: { here_of node ≡ here },
    ghost running: { is_halted node ≡ false → journal_halted (journal_in node.pairing) ≡ false },
}

impl Seat {
    /// A node where nothing happened, over two blank disks.
    #[tactic(auto, using(crate::proofs::Untold::node_running))]
    pub fn create(alloc: Global, here: NodeId, disks: &mut PlainDisks) -> Result<Seat, JournalFault>
        ensures { IfOk result (λ s. s.here ≡ here) }
    {
        let node = Node::create(alloc, here, disks)?;
        Ok(Seat { node, here })
    }

    /// The node that the disks stand for.
    #[tactic(auto, using(crate::proofs::Untold::node_running))]
    pub fn open(alloc: Global, here: NodeId, disks: &mut PlainDisks) -> Result<Seat, JournalFault>
        ensures { IfOk result (λ s. s.here ≡ here) }
    {
        let node = Node::open(alloc, here, disks)?;
        Ok(Seat { node, here })
    }

    /// Its id.
    pub fn here(&self) -> NodeId
        ensures { result ≡ self.now.here }
    {
        self.here
    }

    /// Which disk counts.
    pub fn counting(&self) -> u8 {
        self.node.counting()
    }

    /// An event at one of its circuits. After an error it takes no more, and tells want of memory.
    #[tactic(auto, using(crate::proofs::Untold::stands_untold))]
    pub fn step(
        &mut self,
        alloc: Global,
        disks: &mut PlainDisks,
        circuit: &CircuitId,
        event: &Event,
    ) -> Result<Answer, JournalFault>
        requires { IsFor (site_at self.old.here circuit.now) event.now }
        ensures { self.new.here ≡ self.old.here }
    {
        if self.node.is_halted() {
            return Err(JournalFault::NoMemory);
        }
        let outcome = self.node.step(alloc, disks, circuit, event)?;
        Ok(outcome.answer)
    }
}

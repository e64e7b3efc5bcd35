//! What the parts that are measured stand on: disks in memory whose calls ask for nothing, nodes over them, and events
//! that a node hears.
#![tactic(auto)]

mod disk;
mod heard;
mod kept;
mod row;
mod seat;

pub use disk::{PlainDisk, PlainDisks};
pub use heard::{acceptance, act_vote, batch_vote, delivery, is_own};
pub use kept::{Kept, Opened};
pub use row::{Contents, Row, RowForm};
pub use seat::Seat;

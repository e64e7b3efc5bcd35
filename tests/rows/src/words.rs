//! Rows of calls, each a table's name and the words of a call: what their words say, and their answers.

mod answer;
mod lines;
mod receipts;
mod word;

pub use answer::{Answered, RowFault, Telling, add, hex_text, made, text_of};
pub use lines::{print_answer, row_of};
pub use receipts::{receipts_text, state_text};
pub use word::{
    address, batch, byte, bytes, circuit, definition, event, halves, long, name_and_rest, node,
    nodes, number, numbers, reason, service, words,
};

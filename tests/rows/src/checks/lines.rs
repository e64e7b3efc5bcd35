//! Lines of schedules.
use crate::words::{Answered, RowFault, Telling, halves, made, nodes, text_of};
use spl_base::NodeId;
use spl_sched::{Line, LineFault, ProofCheck, Step, read_line, write_line};
use std::alloc::Global;

fn step_text(alloc: Global, step: &Step) -> Answered {
    let node = text_of(alloc, step.node().bytes())?;
    match step {
        Step::Deliver { number, .. } => made(format!(in alloc; "at {node} number {number}")),
        Step::At { .. } => made(format!(in alloc; "at {node}")),
    }
}

fn check_text(alloc: Global, check: &ProofCheck) -> Answered {
    let size = check.bytes.bytes().len();
    match &check.claim {
        Some(value) => {
            let claimed = value.bytes().len();
            made(format!(in alloc; "claim of {claimed} bytes, proof of {size}"))
        }
        None => made(format!(in alloc; "no claim, proof of {size}")),
    }
}

fn parts_text(alloc: Global, line: &Line) -> Answered {
    match line {
        Line::Step(step) => step_text(alloc, step),
        Line::Cut { calls, fill, step } => {
            let step = step_text(alloc, step)?;
            made(format!(in alloc; "cut {calls} {fill:?} {step}"))
        }
        Line::Fail { call, step } => {
            let step = step_text(alloc, step)?;
            made(format!(in alloc; "fail {call} {step}"))
        }
        Line::Calm { passes, .. } => made(format!(in alloc; "passes {passes}")),
        Line::Stop(node) => text_of(alloc, node.bytes()),
        Line::Start(node) => text_of(alloc, node.bytes()),
        Line::Roll(node) => text_of(alloc, node.bytes()),
        Line::Check(check) => check_text(alloc, check.get()),
    }
}

fn circuit_text(alloc: Global, line: &Line) -> Answered {
    match line.circuit() {
        Some(circuit) => text_of(alloc, circuit.bytes()),
        None => made(String::from_str(alloc, "-")),
    }
}

/// Whether a line is written back as it was.
fn again_text(alloc: Global, line: &Line, text: &str) -> Answered {
    let written = write_line(alloc, line)?;
    let again = if written.bytes() == text.as_bytes() {
        "written back"
    } else {
        "written otherwise"
    };
    made(String::from_str(alloc, again))
}

fn said_text(alloc: Global, line: &Line, text: &str) -> Answered {
    let mut told = Telling::new(alloc);
    told.tell("", circuit_text(alloc, line));
    told.tell(", ", parts_text(alloc, line));
    told.tell(", ", again_text(alloc, line, text));
    told.finish()
}

/// What a line says: its circuit, its parts, and whether it is written back as it was.
pub fn said(alloc: Global, text: &str) -> Answered {
    match read_line(alloc, text.as_bytes()) {
        Ok(line) => said_text(alloc, &line, text),
        Err(LineFault::BadLine) => made(format!(in alloc; "bad line")),
        Err(LineFault::NoMemory) => Err(RowFault::NoMemory),
    }
}

fn named_text(alloc: Global, line: &Line, known: &[NodeId]) -> Answered {
    let named = if line.names_only(known) {
        "these alone"
    } else {
        "others too"
    };
    made(String::from_str(alloc, named))
}

/// Whether a line names no node but these: NODE,NODE LINE.
pub fn named(alloc: Global, text: &str) -> Answered {
    let (known, line) = halves(text, ' ')?;
    let known = nodes(alloc, known)?;
    match read_line(alloc, line.as_bytes()) {
        Ok(line) => named_text(alloc, &line, &known),
        Err(LineFault::NoMemory) => Err(RowFault::NoMemory),
        Err(LineFault::BadLine) => Err(RowFault::BadRow),
    }
}

//! Events at a node over its two disks. A row has what is done there, in turn.
use crate::disks::desk::fault_text;
use crate::disks::desks::{bytes_text, disks_of, fill};
use crate::disks::heard::{event_of, heard};
use crate::disks::watched::WatchedDisks;
use crate::words::{Answered, RowFault, add, halves, long, node, text_of};
use itoa::Buffer;
use spl_answer::append_text;
use spl_base::NodeId;
use spl_journal::JournalFault;
use spl_node::Node;
use spl_wire::Answer;
use std::alloc::Global;

/// How far the journal that counts has room beyond twice its base.
const ROOM: u64 = 65_536;

/// A node over its disks, where it is up, and what was seen of the length of the disk that counts.
#[derive(Drop)]
struct Post {
    here: NodeId,
    disks: WatchedDisks,
    node: Option<Node>,
    counting: u8,
    base: u64,
    checkpoints: u32,
    longest: u64,
    within: bool,
}

fn answer_text(alloc: Global, answer: &Answer) -> Answered {
    let mut bytes = Vec::new(alloc);
    append_text(answer, &mut bytes)?;
    text_of(alloc, &bytes)
}

/// A text with a number in place of each #.
fn numbered(alloc: Global, text: &str, number: u32) -> Answered {
    let mut buffer = Buffer::new();
    let number = buffer.format(number);
    let mut told = String::new(alloc);
    for part in text.split('#') {
        add(&mut told, number, part)?;
    }
    Ok(told)
}

impl Post {
    /// How many bytes the disk has that counts.
    fn len(&self) -> u64 {
        if self.counting == 0 {
            self.disks.first.known_len()
        } else {
            self.disks.second.known_len()
        }
    }

    /// Takes note of the journal that counts.
    fn watch(&mut self, counting: u8) {
        let turned = self.counting != counting;
        self.counting = counting;
        let len = self.len();
        if turned {
            self.base = len;
            self.checkpoints = self.checkpoints.saturating_add(1);
        }
        self.longest = self.longest.max(len);
        self.within = self.within
            && len.saturating_sub(self.base) <= self.base.saturating_add(ROOM);
    }

    fn settle(&mut self, alloc: Global, done: Result<Node, JournalFault>) -> Answered {
        match done {
            Ok(node) => {
                self.counting = node.counting();
                self.base = 18;
                self.node = Some(node);
                Ok(String::from_str(alloc, "ok")?)
            }
            Err(fault) => fault_text(alloc, fault),
        }
    }

    fn create(&mut self, alloc: Global) -> Answered {
        let done = Node::create(alloc, self.here, &mut self.disks);
        self.settle(alloc, done)
    }

    fn open(&mut self, alloc: Global) -> Answered {
        let done = Node::open(alloc, self.here, &mut self.disks);
        self.settle(alloc, done)
    }

    /// An event: a line of a schedule, or hear and what another node says.
    fn line(&mut self, alloc: Global, line: &str) -> Answered {
        let Some(mut node) = self.node.take() else {
            return Err(RowFault::BadRow);
        };
        let asked = match line.strip_prefix("hear ") {
            Some(text) => heard(alloc, &self.here, text)?,
            None => event_of(alloc, &self.here, line)?,
        };
        match node.step(alloc, &mut self.disks, &asked.circuit, &asked.event) {
            Ok(outcome) => {
                self.watch(node.counting());
                self.node = Some(node);
                answer_text(alloc, &outcome.answer)
            }
            Err(fault) => fault_text(alloc, fault),
        }
    }

    /// Lets so many calls pass: of the disk that counts the first four, and then of the other.
    fn arm(&mut self, calls: u32) {
        let (first, then) = (calls.min(4), calls.saturating_sub(4));
        if self.counting == 0 {
            self.disks.first.stop_after(first);
            self.disks.second.stop_after(then);
        } else {
            self.disks.second.stop_after(first);
            self.disks.first.stop_after(then);
        }
    }

    /// An event that stops: CALLS FILL and the event.
    fn stop(&mut self, alloc: Global, text: &str) -> Answered {
        let (calls, rest) = halves(text, ' ')?;
        let (fill_word, line) = halves(rest, ' ')?;
        let fill = fill(alloc, fill_word)?;
        self.arm(long(calls)?);
        let told = self.line(alloc, line)?;
        self.node = None;
        self.disks.first.pick(alloc, fill)?;
        self.disks.second.pick(alloc, fill)?;
        Ok(told)
    }

    /// Events again and again, and the last answer: TIMES and the events, with / between them.
    fn repeat(&mut self, alloc: Global, text: &str) -> Answered {
        let (times, lines) = halves(text, ' ')?;
        let mut told = String::new(alloc);
        for number in 0..long(times)? {
            let lines = numbered(alloc, lines, number + 1)?;
            for line in lines.as_str().split(" / ") {
                told = self.line(alloc, line)?;
            }
        }
        Ok(told)
    }

    fn tell(&self, alloc: Global) -> Answered {
        let (first, second) = (self.disks.first.known_len(), self.disks.second.known_len());
        let mut text = format!(in alloc;
            "counting {}, {first} and {second} bytes, ",
            self.counting
        )?;
        let seen = format!(in alloc;
            "{} checkpoints, at most {} bytes, ",
            self.checkpoints, self.longest
        )?;
        text.push_str(seen.as_str())?;
        text.push_str(if self.within {
            "within its bound"
        } else {
            "beyond its bound"
        })?;
        Ok(text)
    }

    fn step(&mut self, alloc: Global, step: &str) -> Answered {
        let (name, rest) = step.split_once(' ').unwrap_or((step, ""));
        match name {
            "create" => self.create(alloc),
            "open" => self.open(alloc),
            "stop" => self.stop(alloc, rest),
            "repeat" => self.repeat(alloc, rest),
            "bytes" => bytes_text(alloc, &mut self.disks),
            "tell" => self.tell(alloc),
            _ => self.line(alloc, step),
        }
    }
}

fn post_of(alloc: Global, here: &str, first: &str, second: &str) -> Result<Post, RowFault> {
    Ok(Post {
        here: node(here)?,
        disks: disks_of(alloc, first, second)?,
        node: None,
        counting: 0,
        base: 18,
        checkpoints: 0,
        longest: 0,
        within: true,
    })
}

/// What each step answers at a node over two disks of these bytes: NODE FIRST SECOND and steps with ; between them. A
/// step is create, open, an event, stop and what stops, repeat and what is repeated, bytes or tell.
pub fn done(alloc: Global, text: &str) -> Answered {
    let (here, rest) = halves(text, ' ')?;
    let (first, rest) = halves(rest, ' ')?;
    let (second, steps) = halves(rest, ' ')?;
    let mut post = post_of(alloc, here, first, second)?;
    let mut told = String::new(alloc);
    for step in steps.split(" ; ") {
        add(&mut told, "\n  ", post.step(alloc, step)?.as_str())?;
    }
    Ok(told)
}

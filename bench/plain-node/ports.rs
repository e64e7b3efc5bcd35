//! The sockets of a node, and its turns: one thread waits for all of them, takes what came, keeps it, and writes what leaves.
use crate::journal::Journal;
use crate::node::{Departure, Node};
use std::collections::HashMap;
use std::ffi::{c_int, c_short, c_ulong};
use std::fs;
use std::io::{ErrorKind, Read, Result, Write};
use std::net::{TcpListener, TcpStream};
use std::os::fd::{AsRawFd, RawFd};
use std::os::unix::net::UnixListener;
use std::path::Path;
use std::sync::mpsc::{Receiver, Sender, channel};
use std::thread;
use std::time::{Duration, Instant};

const READABLE: c_short = 1;
const WRITABLE: c_short = 4;
/// How many milliseconds a turn waits at most.
const LONGEST_WAIT: c_int = 50;
/// How many bytes wait for a peer at most before messages to it are dropped.
const MOST_WAITING: usize = 4 << 20;
const LONGEST_BODY: usize = 65_536;

#[repr(C)]
struct Polled {
    descriptor: c_int,
    events: c_short,
    came: c_short,
}

unsafe extern "C" {
    fn poll(polled: *mut Polled, count: c_ulong, milliseconds: c_int) -> c_int;
}

trait Stream: Read + Write + AsRawFd {}
impl<S: Read + Write + AsRawFd> Stream for S {}

/// A connection, with what came and isn't taken yet, and what waits to leave.
struct Connection {
    stream: Box<dyn Stream>,
    /// Which node it is, once it named itself; none of an operator.
    peer: Option<u8>,
    is_operator: bool,
    came: Vec<u8>,
    leaves: Vec<u8>,
    is_over: bool,
}

impl Connection {
    fn new(stream: Box<dyn Stream>, is_operator: bool, peer: Option<u8>) -> Connection {
        Connection { stream, peer, is_operator, came: vec![], leaves: vec![], is_over: false }
    }

    fn read(&mut self, buf: &mut [u8]) {
        match self.stream.read(buf) {
            Ok(0) => self.is_over = true,
            Ok(count) => self.came.extend_from_slice(&buf[..count]),
            Err(error) => self.is_over |= error.kind() != ErrorKind::WouldBlock,
        }
    }

    fn write(&mut self) {
        match self.stream.write(&self.leaves) {
            Ok(count) => drop(self.leaves.drain(..count)),
            Err(error) => self.is_over |= error.kind() != ErrorKind::WouldBlock,
        }
    }
}

pub struct Ports {
    here: usize,
    endpoint: TcpListener,
    socket: UnixListener,
    dialled: Receiver<(u8, TcpStream)>,
    /// Who dials the peers behind this node.
    dialers: HashMap<u8, Sender<()>>,
    /// By the caller that answers name; an empty place is taken by the next one.
    connections: Vec<Option<Connection>>,
    buf: Vec<u8>,
}

/// Connects to a peer each time that it is wanted, however long that takes.
fn dial(peer: u8, endpoint: String, wanted: Receiver<()>, dialled: Sender<(u8, TcpStream)>) {
    while wanted.recv().is_ok() {
        let stream = loop {
            match TcpStream::connect(&endpoint) {
                Ok(stream) => break stream,
                Err(_) => thread::sleep(Duration::from_millis(100)),
            }
        };
        if dialled.send((peer, stream)).is_err() {
            return;
        }
    }
}

impl Ports {
    pub fn open(here: usize, endpoints: &[String], folder: &Path) -> Result<Ports> {
        let endpoint = TcpListener::bind(&endpoints[here])?;
        endpoint.set_nonblocking(true)?;
        let path = folder.join("socket");
        let _ = fs::remove_file(&path);
        let socket = UnixListener::bind(path)?;
        socket.set_nonblocking(true)?;
        let (found, dialled) = channel();
        let mut dialers = HashMap::new();
        for (peer, endpoint) in endpoints.iter().enumerate().skip(here + 1) {
            let (endpoint, found, (want, wanted)) = (endpoint.clone(), found.clone(), channel());
            thread::spawn(move || dial(peer as u8, endpoint, wanted, found));
            let _ = want.send(());
            dialers.insert(peer as u8, want);
        }
        Ok(Ports { here, endpoint, socket, dialled, dialers, connections: vec![], buf: vec![0; 1 << 16] })
    }

    fn admit(&mut self, connection: Connection) {
        match self.connections.iter().position(Option::is_none) {
            Some(place) => self.connections[place] = Some(connection),
            None => self.connections.push(Some(connection)),
        }
    }

    /// One connection a peer: a new one ends the one before.
    fn name(&mut self, at: usize, peer: u8) {
        for (place, connection) in self.connections.iter_mut().enumerate() {
            if place != at && connection.as_ref().is_some_and(|it| it.peer == Some(peer)) {
                *connection = None;
            }
        }
        if let Some(connection) = &mut self.connections[at] {
            connection.peer = Some(peer);
        }
    }

    fn accept(&mut self) -> Result<()> {
        while let Ok((stream, _)) = self.socket.accept() {
            stream.set_nonblocking(true)?;
            self.admit(Connection::new(Box::new(stream), true, None));
        }
        while let Ok((stream, _)) = self.endpoint.accept() {
            stream.set_nonblocking(true)?;
            stream.set_nodelay(true)?;
            self.admit(Connection::new(Box::new(stream), false, None));
        }
        while let Ok((peer, stream)) = self.dialled.try_recv() {
            stream.set_nonblocking(true)?;
            stream.set_nodelay(true)?;
            let mut connection = Connection::new(Box::new(stream), false, Some(peer));
            connection.leaves = vec![0, 0, 0, 1, self.here as u8];
            self.admit(connection);
        }
        Ok(())
    }

    /// Waits for whatever comes, or can be written again.
    fn wait(&mut self) -> Vec<Polled> {
        let one = |descriptor: RawFd, events| Polled { descriptor, events, came: 0 };
        let mut polled = vec![one(self.endpoint.as_raw_fd(), READABLE), one(self.socket.as_raw_fd(), READABLE)];
        for connection in &self.connections {
            polled.push(match connection {
                Some(it) => one(it.stream.as_raw_fd(), READABLE | if it.leaves.is_empty() { 0 } else { WRITABLE }),
                None => one(-1, 0),
            });
        }
        unsafe { poll(polled.as_mut_ptr(), polled.len() as c_ulong, LONGEST_WAIT) };
        polled
    }

    fn take_lines(&mut self, at: usize, node: &mut Node, syncs: u64, now: Instant) {
        let Some(connection) = &mut self.connections[at] else { return };
        let Some(end) = connection.came.iter().rposition(|byte| *byte == b'\n') else { return };
        let lines: Vec<u8> = connection.came.drain(..=end).collect();
        for line in String::from_utf8_lossy(&lines).lines() {
            if line == "metrics" {
                node.report(at, syncs);
            } else {
                node.line(at, line, now);
            }
        }
    }

    /// The next frame's body of a connection; a frame that is too long ends it.
    fn next_body(&mut self, at: usize, place: usize) -> Option<Vec<u8>> {
        let connection = self.connections[at].as_mut()?;
        let size = u32::from_be_bytes(connection.came.get(place..place + 4)?.try_into().ok()?) as usize;
        connection.is_over |= size > LONGEST_BODY;
        Some(connection.came.get(place + 4..place + 4 + size)?.to_vec())
    }

    fn take_frames(&mut self, at: usize, node: &mut Node, now: Instant) {
        let mut place = 0;
        while let Some(body) = self.next_body(at, place) {
            place += 4 + body.len();
            let peer = self.connections[at].as_ref().and_then(|it| it.peer);
            let heard = match (peer, body.as_slice()) {
                (Some(peer), _) => node.hear(peer, &body, now),
                (None, [peer]) if (*peer as usize) < self.here => Some(self.name(at, *peer)),
                (None, _) => None,
            };
            if let (None, Some(connection)) = (heard, &mut self.connections[at]) {
                connection.is_over = true;
                break;
            }
        }
        if let Some(connection) = &mut self.connections[at] {
            connection.came.drain(..place);
        }
    }

    fn take(&mut self, at: usize, node: &mut Node, syncs: u64, now: Instant) {
        let Some(connection) = &mut self.connections[at] else { return };
        connection.read(&mut self.buf);
        if connection.is_operator {
            self.take_lines(at, node, syncs, now);
        } else {
            self.take_frames(at, node, now);
        }
    }

    /// Puts what leaves behind what waits; a message to a peer that is away, or has too much before it, is dropped.
    fn put(&mut self, departure: Departure) {
        match departure {
            Departure::Answer { caller, text } => {
                if let Some(connection) = &mut self.connections[caller] {
                    connection.leaves.extend_from_slice(text.as_bytes());
                    connection.leaves.push(b'\n');
                }
            }
            Departure::Frame { to, frame } => {
                let mut connections = self.connections.iter_mut().flatten();
                if let Some(connection) = connections.find(|it| it.peer == Some(to) && it.leaves.len() <= MOST_WAITING) {
                    connection.leaves.extend_from_slice(&frame);
                }
            }
        }
    }

    fn write_all(&mut self) {
        for place in &mut self.connections {
            let Some(connection) = place else { continue };
            if !connection.leaves.is_empty() {
                connection.write();
            }
            if connection.is_over {
                if let Some(dialer) = connection.peer.and_then(|peer| self.dialers.get(&peer)) {
                    let _ = dialer.send(());
                }
                *place = None;
            }
        }
    }

    /// Turn after turn.
    pub fn run(mut self, node: &mut Node, mut journal: Journal) -> Result<()> {
        loop {
            let polled = self.wait();
            let now = Instant::now();
            for (at, one) in polled.iter().skip(2).enumerate() {
                if one.came & !WRITABLE != 0 {
                    self.take(at, node, journal.syncs, now);
                }
            }
            node.tick_all(now);
            for departure in node.keep(&mut journal)? {
                self.put(departure);
            }
            self.write_all();
            self.accept()?;
        }
    }
}

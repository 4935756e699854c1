//! The HTTP part of an office in plain Rust, with fixed replies, for many connections in one thread, until it is ended.
//! Heads are read and judged as `docs/API.md` has them, and turns, times and ends are as there.
//!
//! usage: twin PORT

mod connection;
mod head;

use connection::{Connection, IDLE, Next, TIMEOUT};
use std::collections::{BTreeSet, VecDeque};
use std::io::{self, ErrorKind};
use std::net::{Shutdown, TcpListener};
use std::os::fd::{AsRawFd, FromRawFd, OwnedFd};
use std::time::{Duration, Instant};

/// The most connections at once, the least turns of a round, and the bytes that are read at once.
const PEERS: usize = 256;
const TURNS: usize = 32;
const PIECE: usize = 16_384;

const IN: u32 = 0x1;
const OUT: u32 = 0x4;
/// An error, the end of both sides, and the end of the peer's.
const ENDS: u32 = 0x8 | 0x10 | 0x2000;
const EDGES: u32 = 1 << 31;

#[derive(Clone, Copy)]
#[cfg_attr(target_arch = "x86_64", repr(C, packed))]
#[cfg_attr(not(target_arch = "x86_64"), repr(C))]
struct Event {
    flags: u32,
    key: u64,
}

unsafe extern "C" {
    fn epoll_create1(flags: i32) -> i32;
    fn epoll_ctl(epoll: i32, operation: i32, fd: i32, event: *mut Event) -> i32;
    fn epoll_wait(epoll: i32, events: *mut Event, most: i32, milliseconds: i32) -> i32;
}

struct Server {
    epoll: OwnedFd,
    listener: TcpListener,
    /// By their descriptors. A turn or an event of one that is gone does nothing, or is one more of the next.
    connections: Vec<Option<Connection>>,
    count: usize,
    /// Whether peers may wait to be accepted.
    is_waited_at: bool,
    turns: VecDeque<usize>,
    times: BTreeSet<(Instant, usize)>,
    now: Instant,
}

impl Server {
    fn new(port: u16) -> io::Result<Server> {
        let listener = TcpListener::bind(("127.0.0.1", port))?;
        listener.set_nonblocking(true)?;
        let epoll = unsafe { epoll_create1(0) };
        if epoll < 0 {
            return Err(io::Error::last_os_error());
        }
        let server = Server {
            epoll: unsafe { OwnedFd::from_raw_fd(epoll) },
            listener,
            connections: Vec::new(),
            count: 0,
            is_waited_at: false,
            turns: VecDeque::new(),
            times: BTreeSet::new(),
            now: Instant::now(),
        };
        server.register(&server.listener, IN)?;
        Ok(server)
    }

    /// Has the system report a socket once each time that it becomes ready.
    fn register(&self, socket: &impl AsRawFd, flags: u32) -> io::Result<()> {
        let fd = socket.as_raw_fd();
        let mut event = Event { flags: flags | EDGES, key: fd as u64 };
        match unsafe { epoll_ctl(self.epoll.as_raw_fd(), 1, fd, &mut event) } {
            0 => Ok(()),
            _ => Err(io::Error::last_os_error()),
        }
    }

    fn accept(&mut self) -> io::Result<()> {
        let (stream, _) = self.listener.accept()?;
        stream.set_nonblocking(true)?;
        stream.set_nodelay(true)?;
        self.register(&stream, IN | OUT | ENDS)?;
        let key = stream.as_raw_fd() as usize;
        if self.connections.len() <= key {
            self.connections.resize_with(key + 1, || None);
        }
        let deadline = self.now + IDLE;
        self.connections[key] = Some(Connection::new(stream, deadline));
        self.times.insert((deadline, key));
        self.count += 1;
        Ok(())
    }

    fn accept_all(&mut self) {
        while self.is_waited_at && self.count < PEERS {
            if let Err(error) = self.accept() {
                self.is_waited_at = error.kind() != ErrorKind::WouldBlock;
                return;
            }
        }
    }

    fn drop(&mut self, key: usize) {
        if let Some(connection) = self.connections[key].take() {
            self.times.remove(&(connection.listed, key));
            self.count -= 1;
        }
    }

    /// Notes until when a connection waits. An order of times that is too early is mended when that time comes.
    fn wait_until(&mut self, key: usize, deadline: Instant) {
        let Some(connection) = &mut self.connections[key] else { return };
        connection.deadline = deadline;
        if deadline < connection.listed {
            self.times.remove(&(connection.listed, key));
            self.times.insert((deadline, key));
            connection.listed = deadline;
        }
    }

    fn turn(&mut self, key: usize, room: &mut [u8]) {
        let Some(connection) = &mut self.connections[key] else { return };
        connection.is_queued = false;
        match connection.turn(room, self.now) {
            Next::Turn => {
                connection.is_queued = true;
                self.turns.push_back(key);
            }
            Next::Wait(deadline) => self.wait_until(key, deadline),
            Next::Leave if connection.has_ended || connection.stream.shutdown(Shutdown::Write).is_err() => self.drop(key),
            Next::Leave => {
                connection.is_leaving = true;
                connection.is_queued = true;
                self.turns.push_back(key);
                self.wait_until(key, self.now + TIMEOUT);
            }
            Next::Drop => self.drop(key),
        }
    }

    /// Drops the connections whose time is over.
    fn drop_late(&mut self) {
        while let Some(&(listed, key)) = self.times.first() {
            if listed > self.now {
                return;
            }
            let Some(connection) = &mut self.connections[key] else { return };
            if connection.deadline <= self.now && !connection.is_queued {
                self.drop(key);
            } else {
                self.times.remove(&(listed, key));
                connection.listed = connection.deadline.max(self.now + Duration::from_millis(1));
                self.times.insert((connection.listed, key));
            }
        }
    }

    /// Waits until a socket is ready or a time is over, and notes what is ready.
    fn wait(&mut self, events: &mut [Event]) {
        let milliseconds = match self.times.first() {
            _ if !self.turns.is_empty() || self.is_waited_at && self.count < PEERS => 0,
            Some((end, _)) => end.duration_since(self.now).as_nanos().div_ceil(1_000_000) as i32,
            None => -1,
        };
        let count = unsafe { epoll_wait(self.epoll.as_raw_fd(), events.as_mut_ptr(), events.len() as i32, milliseconds) };
        self.now = Instant::now();
        for event in &events[..count.max(0) as usize] {
            let (flags, key) = (event.flags, event.key as usize);
            if key == self.listener.as_raw_fd() as usize {
                self.is_waited_at = true;
                continue;
            }
            let Some(Some(connection)) = self.connections.get_mut(key) else { continue };
            connection.is_ending |= flags & ENDS != 0;
            connection.can_read |= flags & (IN | ENDS) != 0;
            connection.can_write |= flags & (OUT | ENDS) != 0;
            if !connection.is_queued {
                connection.is_queued = true;
                self.turns.push_back(key);
            }
        }
    }

    fn serve(&mut self) -> ! {
        let mut events = [Event { flags: 0, key: 0 }; PEERS + 1];
        let mut room = [0; PIECE];
        loop {
            self.wait(&mut events);
            self.accept_all();
            for _ in 0..self.turns.len().max(TURNS) {
                let Some(key) = self.turns.pop_front() else { break };
                self.turn(key, &mut room);
            }
            self.drop_late();
        }
    }
}

fn main() -> io::Result<()> {
    let port = std::env::args().nth(1).and_then(|port| port.parse().ok()).unwrap_or(0u16);
    Server::new(port)?.serve()
}

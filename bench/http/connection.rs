//! One connection of the twin: what came, what is to be sent, and what it does in its turn.

use crate::head::{self, Head, LIMIT, Refusal, Route, find_end, read_head};
use std::io::{ErrorKind, Read, Write};
use std::net::TcpStream;
use std::time::{Duration, Instant};

const PERIOD: &[u8] = br#"{"closed":false,"documents":1,"net":"225.00","period":"24011"}"#;
const HELD: &[u8] = br#"{"results":[{"n":1,"period":"24011","verdict":"held"}]}"#;
/// From how many bytes on output is written before all is answered, and with how many nothing more is answered until the
/// peer takes some.
const WRITE_FROM: usize = 16_384;
const OUTPUT_LIMIT: usize = 65_536;
const MESSAGES: usize = 65_536;
/// How long a message or a response may take, and how long a connection may be between messages.
pub const TIMEOUT: Duration = Duration::from_secs(30);
pub const IDLE: Duration = Duration::from_secs(60);

/// What a connection does after its turn.
pub enum Next {
    /// It has another turn after those of the others.
    Turn,
    /// It waits until then at most.
    Wait(Instant),
    /// All was sent, and the end too. What the peer still sends is dropped.
    Leave,
    Drop,
}

/// A message whose head was read, and whose body is still to come.
struct Begun {
    head: Head,
    left: usize,
}

pub struct Connection {
    pub stream: TcpStream,
    input: Vec<u8>,
    /// Where the next message starts, and up to where it was searched for its end.
    start: usize,
    searched: usize,
    begun: Option<Begun>,
    body: Vec<u8>,
    output: Vec<u8>,
    sent: usize,
    answered: usize,
    is_closed: bool,
    pub is_leaving: bool,
    pub has_ended: bool,
    /// Whether the peer may have more to read, or room for more, and whether a read that is not full may leave some.
    pub can_read: bool,
    pub can_write: bool,
    pub is_ending: bool,
    pub is_queued: bool,
    /// Since when the message or the output lasts.
    since: Option<Instant>,
    pub deadline: Instant,
    /// With what time it is in the order of times: this is never behind its deadline.
    pub listed: Instant,
}

impl Connection {
    pub fn new(stream: TcpStream, deadline: Instant) -> Connection {
        Connection {
            stream,
            input: Vec::new(),
            start: 0,
            searched: 0,
            begun: None,
            body: Vec::new(),
            output: Vec::new(),
            sent: 0,
            answered: 0,
            is_closed: false,
            is_leaving: false,
            has_ended: false,
            can_read: false,
            can_write: true,
            is_ending: false,
            is_queued: false,
            since: None,
            deadline,
            listed: deadline,
        }
    }

    fn waiting(&self) -> usize {
        self.output.len() - self.sent
    }

    /// Drops what came up to there.
    fn take(&mut self, end: usize) {
        self.start = end;
        self.searched = end;
        if end == self.input.len() {
            self.input.clear();
            (self.start, self.searched) = (0, 0);
        }
    }

    fn refuse(&mut self, (status, body, bare): Refusal) {
        respond(&mut self.output, status, "", body, bare, true);
        self.is_closed = true;
    }

    /// Reads the head of the next message, where it has come. Answers whether one is begun now.
    fn begin(&mut self) -> bool {
        let text = &self.input[self.start..];
        let Some(len) = find_end(text, self.searched - self.start) else {
            self.searched = self.input.len();
            if text.len() >= LIMIT {
                self.refuse(head::TOO_LARGE);
            }
            return false;
        };
        match read_head(&text[..len]) {
            Ok(head) => {
                if head.expects {
                    self.output.extend_from_slice(b"HTTP/1.1 100 Continue\r\n\r\n");
                }
                self.begun = Some(Begun { left: head.body, head });
                self.take(self.start + len);
                true
            }
            Err(refusal) => {
                self.refuse(refusal);
                false
            }
        }
    }

    /// Answers one message, where it is whole. Answers whether it did.
    fn answer(&mut self) -> bool {
        if self.is_closed || self.waiting() >= OUTPUT_LIMIT || self.begun.is_none() && !self.begin() {
            return false;
        }
        let Some(begun) = &mut self.begun else { return false };
        let end = self.start + begun.left.min(self.input.len() - self.start);
        begun.left -= end - self.start;
        let (is_whole, head) = (begun.left == 0, begun.head);
        if head.is_kept() {
            self.body.extend_from_slice(&self.input[self.start..end]);
        }
        self.take(end);
        if is_whole {
            self.begun = None;
            self.since = None;
            self.answered += 1;
            self.is_closed = head.closes || self.answered == MESSAGES;
            reply(&mut self.output, &head, &self.body, self.is_closed);
            self.body.clear();
        }
        is_whole
    }

    /// Writes what waits. Answers whether the peer takes no more.
    fn write(&mut self, now: Instant) -> bool {
        match self.stream.write(&self.output[self.sent..]) {
            Ok(0) => return true,
            Ok(count) => {
                self.sent += count;
                self.since = Some(now);
            }
            Err(error) if error.kind() == ErrorKind::WouldBlock => {}
            Err(error) => return error.kind() != ErrorKind::Interrupted,
        }
        self.can_write = self.waiting() == 0;
        if self.can_write {
            self.output.clear();
            self.sent = 0;
            self.since = None;
        }
        false
    }

    /// Reads what came. Answers whether that failed.
    fn read(&mut self, room: &mut [u8]) -> bool {
        match self.stream.read(room) {
            Ok(count) => {
                self.has_ended = count == 0;
                self.can_read = count == room.len() || self.is_ending;
                if !self.is_leaving {
                    self.input.drain(..self.start);
                    self.searched -= self.start;
                    self.start = 0;
                    self.input.extend_from_slice(&room[..count]);
                }
                false
            }
            Err(error) if error.kind() == ErrorKind::WouldBlock => {
                self.can_read = false;
                false
            }
            Err(error) => error.kind() != ErrorKind::Interrupted,
        }
    }

    /// At most one read, one answer and one write.
    pub fn turn(&mut self, room: &mut [u8], now: Instant) -> Next {
        if self.is_leaving {
            return match self.can_read && self.read(room) || self.has_ended {
                true => Next::Drop,
                false if self.can_read => Next::Turn,
                false => Next::Wait(self.deadline),
            };
        }
        let has_answered = self.answer();
        let waits = self.waiting() > 0;
        if waits && self.can_write && (!has_answered || self.waiting() >= WRITE_FROM) && self.write(now) {
            return Next::Drop;
        }
        if has_answered {
            return Next::Turn;
        }
        if self.waiting() > 0 {
            return if self.can_write { Next::Turn } else { Next::Wait(*self.since.get_or_insert(now) + TIMEOUT) };
        }
        if self.is_closed || self.has_ended {
            return Next::Leave;
        }
        if self.can_read {
            return if self.read(room) { Next::Drop } else { Next::Turn };
        }
        if self.begun.is_some() || self.start < self.input.len() {
            Next::Wait(*self.since.get_or_insert(now) + TIMEOUT)
        } else {
            Next::Wait(now + IDLE)
        }
    }
}

/// The reply to a message that is whole.
fn reply(out: &mut Vec<u8>, head: &Head, body: &[u8], closes: bool) {
    let (status, allow, text): (_, _, &[u8]) = match head.route {
        Route::None => ("404 Not Found", "", br#"{"code":"N02"}"#),
        Route::Method(allow) => ("405 Method Not Allowed", allow, br#"{"code":"N05"}"#),
        _ if head.tokens != 1 => ("403 Forbidden", "", br#"{"code":"N01"}"#),
        Route::Period => ("200 OK", "", PERIOD),
        Route::Sale if body.len() == head.body => ("200 OK", "", HELD),
        Route::Sale => ("400 Bad Request", "", br#"{"code":"N04"}"#),
    };
    respond(out, status, allow, text, head.bare, closes);
}

fn respond(out: &mut Vec<u8>, status: &str, allow: &str, body: &[u8], bare: bool, closes: bool) {
    out.extend_from_slice(b"HTTP/1.1 ");
    out.extend_from_slice(status.as_bytes());
    out.extend_from_slice(b"\r\nContent-Type: application/json\r\nContent-Length: ");
    let _ = write!(out, "{}", body.len());
    out.extend_from_slice(allow.as_bytes());
    out.extend_from_slice(if closes { b"\r\nConnection: close\r\n\r\n" } else { b"\r\n\r\n" });
    out.extend_from_slice(if bare { b"" } else { body });
}

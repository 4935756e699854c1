//! Sends one request again and again on one connection, so many at once, and prints the nanoseconds that a request takes:
//! the least of five rounds.
//!
//! usage: client PORT COUNT DEPTH FILE   (FILE has the request; DEPTH requests are sent before their responses are read)

use std::io::{Read, Write};
use std::net::TcpStream;
use std::time::Instant;

/// How many bytes a response has: its head, and the body that it states.
fn response_len(bytes: &[u8]) -> Option<usize> {
    let head = bytes.windows(4).position(|it| it == b"\r\n\r\n")? + 4;
    let text = std::str::from_utf8(&bytes[..head]).ok()?;
    let line = text.lines().find(|line| line.starts_with("Content-Length: "))?;
    let body: usize = line["Content-Length: ".len()..].parse().ok()?;
    (bytes.len() >= head + body).then_some(head + body)
}

fn main() {
    let words: Vec<String> = std::env::args().collect();
    let count: usize = words[2].parse().expect("a count");
    let depth: usize = words[3].parse().expect("a depth");
    let request = std::fs::read(&words[4]).expect("a request");
    let mut stream = TcpStream::connect(format!("127.0.0.1:{}", words[1])).expect("a connection");
    stream.set_nodelay(true).expect("an option");
    stream.write_all(&request).expect("a write");
    let (mut room, mut have) = (vec![0; 65_536], 0);
    let response = loop {
        let got = stream.read(&mut room[have..]).expect("a read");
        assert!(got > 0, "the connection was closed");
        have += got;
        if let Some(len) = response_len(&room[..have]) {
            break room[..len].to_vec();
        }
    };
    let batch = request.repeat(depth);
    let mut best = f64::INFINITY;
    for _ in 0..5 {
        let begun = Instant::now();
        for _ in 0..count / depth {
            stream.write_all(&batch).expect("a write");
            stream.read_exact(&mut room[..response.len() * depth]).expect("a read");
            assert!(room[..response.len()] == response, "another response");
        }
        best = best.min(begun.elapsed().as_nanos() as f64 / (count / depth * depth) as f64);
    }
    println!("{best:.0}");
}

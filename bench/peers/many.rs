//! Sends one request again and again on several connections at once, so many on each before their responses are read, and
//! prints the nanoseconds that a request takes: the least of five rounds.
//!
//! usage: many PORT COUNT DEPTH CONNECTIONS   (COUNT requests in all in each round)

use std::io::{Read, Write};
use std::net::TcpStream;
use std::time::Instant;

const REQUEST: &[u8] = b"GET /x HTTP/1.1\r\nHost: 127.0.0.1\r\nUser-Agent: curl/7.88.1\r\nAccept: */*\r\nBsp-Token: agenttoken000001\r\n\r\n";

fn main() {
    let words: Vec<usize> = std::env::args().skip(1).map(|it| it.parse().expect("a number")).collect();
    let (count, depth, connections) = (words[1], words[2], words[3]);
    let connect = |_| {
        let stream = TcpStream::connect(("127.0.0.1", words[0] as u16)).expect("a connection");
        stream.set_nodelay(true).expect("an option");
        stream
    };
    let mut streams: Vec<TcpStream> = (0..connections).map(connect).collect();
    let mut room = vec![0; 1 << 20];
    streams[0].write_all(REQUEST).expect("a write");
    let response = streams[0].read(&mut room).expect("a read");
    let batch = REQUEST.repeat(depth);
    let rounds = count / depth / connections;
    let mut best = f64::INFINITY;
    for _ in 0..5 {
        let begun = Instant::now();
        for _ in 0..rounds {
            for stream in &mut streams {
                stream.write_all(&batch).expect("a write");
            }
            for stream in &mut streams {
                stream.read_exact(&mut room[..response * depth]).expect("a read");
            }
        }
        best = best.min(begun.elapsed().as_nanos() as f64 / (rounds * depth * connections) as f64);
    }
    println!("{best:.0}");
}

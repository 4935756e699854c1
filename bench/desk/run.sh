#!/usr/bin/env bash
# Measures the requests of a desk over a ListBook of 10,000 and of 100,000 sales by 500 agents of 50 airlines, as
# make_requests.py writes them, and the RET files among them also at a desk in plain Rust (plain/). The two
# programs run in turn on one processor, ROUNDS times. Their replies to RET files are compared after each round. Prints, for
# each request, the median of a round, of the rounds the best, and the growth and the ratio of these. With `taxed` the plan
# has a tax on commission.
#
# usage: bench/desk/run.sh [ROUNDS [PROCESSOR [taxed]]]     (7 and 3 by default)
rounds=${1:-7}
processor=${2:-3}
taxed=${3:-}
. "$(dirname "$0")/../over_library.sh"

for items in 10000 100000; do
  python3 "$here/make_requests.py" "$items" "$work/$items" ${taxed:+taxed}
done
rustc --edition 2024 -O -o "$work/plain" "$here/plain/main.rs"

workspace serving bsp_fields bsp_routes bsp_messages bsp_book bsp_desk_writes bsp_desk
source_file serving main.rt <<'PROGRAM'
#![tactic(auto)]

use bsp_book::ListBook;
use bsp_desk::{Desk, Request};
use bsp_fields::Token;
use bsp_messages::Reply;
use bsp_routes::Routes;
use bsp_desk_writes::Content;
use std::fs;
use std::io;
use std::time::Instant;

/// A request, as a line has it.
#[derive(Clone, Copy)]
struct Line<'a> {
    name: &'a str,
    method: &'a str,
    path: &'a str,
    token: &'a str,
    body: &'a str,
}

fn read_line(text: &str) -> Option<Line<'_>> {
    let (name, rest) = text.split_once('\t')?;
    let (method, rest) = rest.split_once('\t')?;
    let (path, rest) = rest.split_once('\t')?;
    let (token, body) = rest.split_once('\t')?;
    Some(Line {
        name,
        method,
        path,
        token,
        body,
    })
}

/// The bytes of a body, which may be those of a file that it names.
fn bytes_of(rt: &HostRuntime, body: &str) -> io::Result<Vec<u8>> {
    match body.strip_prefix('@') {
        Some(name) => fs::read(rt, name),
        None => Ok(Vec::from_slice(rt.alloc(), body.as_bytes())?),
    }
}

/// Prints the name of a request, its nanoseconds, and the status and the length of its reply.
fn time(rt: &HostRuntime, desk: &mut Desk<ListBook>, name: &str, request: &Request<'_>) -> io::Result<Reply> {
    let begun = Instant::now(rt)?;
    let reply = desk.answer(request);
    let took = begun.elapsed(rt)?.as_nanos();
    let length = reply.body.as_bytes().len();
    println!(rt; "{name}\t{took}\t{}\t{length}", reply.status.code())?;
    Ok(reply)
}

/// Answers a request. The reply to a RET file is kept.
fn serve(
    rt: &HostRuntime,
    desk: &mut Desk<ListBook>,
    routes: &Routes,
    line: &Line<'_>,
    replies: &mut Vec<u8>,
) -> io::Result<()> {
    let bytes = bytes_of(rt, line.body)?;
    let request = Request {
        token: Some(line.token.as_bytes()),
        call: routes.ask(line.method.as_bytes(), line.path.as_bytes()),
        content: Content::Bytes(&bytes),
    };
    let reply = time(rt, desk, line.name, &request)?;
    if line.path.ends_with("/ret") {
        replies.extend_from_slice(reply.body.as_bytes())?;
        replies.push(b'\n')?;
    }
    Ok(())
}

/// The replies to the RET files of the requests, a line each.
fn serve_all(rt: &HostRuntime, desk: &mut Desk<ListBook>, routes: &Routes, text: &str) -> io::Result<Vec<u8>> {
    let mut replies = Vec::new(rt.alloc());
    for line in text.lines() {
        if let Some(line) = read_line(line) {
            serve(rt, desk, routes, &line, &mut replies)?;
        }
    }
    Ok(replies)
}

fn opened(rt: &HostRuntime) -> Option<Desk<ListBook>> {
    let office = Token::read(b"officetoken00001")?;
    let book = ListBook::new(rt.alloc());
    match Desk::open(rt.alloc(), book, office) {
        Ok(desk) => Some(desk),
        Err(_) => None,
    }
}

/// Answers the requests of the folder that it runs in.
fn main(rt: HostRuntime) -> io::Result<()> {
    let text = fs::read_to_string(&rt, "requests")?;
    if let Some(mut desk) = opened(&rt) {
        if let Ok(routes) = Routes::new(rt.alloc()) {
            let replies = serve_all(&rt, &mut desk, &routes, &text)?;
            fs::write(&rt, "desk.replies", replies.as_slice())?;
        }
    }
    Ok(())
}
PROGRAM
build serving

for round in $(seq "$rounds"); do
  for items in 10000 100000; do
    (cd "$work/$items" && taskset -c "$processor" "$program") >"$work/$items.desk.$round"
    taskset -c "$processor" "$work/plain" "$work/$items" >"$work/$items.plain.$round"
    cmp "$work/$items/desk.replies" "$work/$items/plain.replies"
  done
done
python3 "$here/table.py" "$work"

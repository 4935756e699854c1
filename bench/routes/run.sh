#!/usr/bin/env bash
# Measures `Routes::ask` on targets of 100 KB and of 1 MB, in one run: with a long value, with many words, and with
# many slashes; the best of twenty of each, and the growth from the shorter target to the longer one.
#
# usage: bench/routes/run.sh
. "$(dirname "$0")/../over_library.sh"

workspace asking bsp_routes
source_file asking main.rt <<'PROGRAM'
#![tactic(auto)]

use bsp_routes::{Asking, Routes};
use std::alloc::Global;
use std::io;
use std::time::Instant;

/// A target with the word in the middle, until it has as many bytes.
fn target(alloc: Global, start: &str, word: &str, end: &str, size: usize) -> Option<Vec<u8>> {
    let mut bytes = Vec::new(alloc);
    bytes.extend_from_slice(start.as_bytes()).ok()?;
    for _ in 0..size {
        if bytes.len() >= size {
            break;
        }
        bytes.extend_from_slice(word.as_bytes()).ok()?;
    }
    bytes.extend_from_slice(end.as_bytes()).ok()?;
    Some(bytes)
}

fn time(rt: &HostRuntime, name: &str, routes: &Routes, target: &[u8]) -> io::Result<()> {
    let begun = Instant::now(rt)?;
    let asking = routes.ask(b"GET", target);
    let took = begun.elapsed(rt)?.as_micros();
    let is_call = matches!(asking, Asking::Call(_));
    println!(rt; "{name} {} {took} {is_call}", target.len())
}

fn main(rt: HostRuntime) -> io::Result<()> {
    let Ok(routes) = Routes::new(rt.alloc()) else {
        return Ok(());
    };
    for (name, start, word, end) in [
        ("value", "/agents/", "1", "/memos"),
        ("words", "/agents/", "memos", "/memos/agree/x"),
        ("slashes", "/agents/1", "/", "memos"),
        ("segments", "/agents", "/memos", "/agree"),
    ] {
        for size in [100_000, 1_000_000] {
            let Some(bytes) = target(rt.alloc(), start, word, end, size) else {
                return Ok(());
            };
            for _ in 0..20 {
                time(&rt, name, &routes, &bytes)?;
            }
        }
    }
    Ok(())
}
PROGRAM
build asking

"$program" | awk '
  { key = $1 " " $2; if (!(key in best) || $3 < best[key]) best[key] = $3; found[$1] = $4; sizes[$1] = sizes[$1] " " $2 }
  END { for (name in found) { split(sizes[name], size, " ")
      short = best[name " " size[1]]; long = best[name " " size[21]]
      printf "%s: %d bytes %d us, %d bytes %d us, growth %.1f, a call: %s\n", name, size[1], short, size[21], long, long / (short + (short == 0)), found[name] } }'

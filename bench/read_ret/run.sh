#!/usr/bin/env bash
# Measures read_ret and RetReader against a plain Rust reader of the same format, in one run: the best
# of five readings each of one file in memory, as ratios, and the growth from a tenth of the file. The plain reader
# also puts the file together from the same pieces first.
#
# usage: bench/read_ret/run.sh [MEGABYTES]     (300 by default; needs python3 and rustc)
megabytes=${1:-300}
. "$(dirname "$0")/../over_library.sh"

python3 "$here/make_file.py" "$megabytes" "$work/whole.ret"
python3 "$here/make_file.py" "$((megabytes / 10))" "$work/tenth.ret"
rustc -O -o "$work/plain" "$here/plain.rs" 2>/dev/null

workspace reading bsp_ret
source_file reading main.rt <<'PROGRAM'
#![tactic(auto)]

use bsp_ret::{RetReader, read_ret};
use std::io::{self, Read};
use std::time::Instant;

fn whole(rt: &HostRuntime, bytes: &[u8]) -> io::Result<()> {
    let begun = Instant::now(rt)?;
    let count = match read_ret(rt.alloc(), bytes) {
        Ok(file) => file.transactions(),
        Err(fault) => fault.at,
    };
    let took = begun.elapsed(rt)?.as_micros();
    println!(rt; "read_ret {took} {count}")
}

fn pieces(rt: &HostRuntime, bytes: &[u8]) -> io::Result<()> {
    let begun = Instant::now(rt)?;
    let mut reader = RetReader::new(rt.alloc());
    for piece in bytes.chunks(65_536) {
        let _ = reader.feed(piece);
    }
    let _ = reader.finish();
    let count = match reader.file() {
        Ok(file) => file.transactions(),
        Err(fault) => fault.at,
    };
    let took = begun.elapsed(rt)?.as_micros();
    println!(rt; "RetReader {took} {count}")
}

fn main(rt: HostRuntime) -> io::Result<()> {
    let mut bytes = Vec::new(rt.alloc());
    rt.reader().read_to_end(&mut bytes)?;
    for _ in 0..5 {
        whole(&rt, &bytes)?;
        pieces(&rt, &bytes)?;
    }
    Ok(())
}
PROGRAM
build reading

best() { awk -v name="$1" '$1 == name && (!n++ || $2 < least) {least = $2} END {print least}'; }
for file in tenth whole; do
  "$program" <"$work/$file.ret" >"$work/$file.out"
  "$work/plain" <"$work/$file.ret" >"$work/$file.plain"
  plain=$(sed 's/.* in \([0-9]*\) us, .*/\1/' "$work/$file.plain")
  pieces=$(sed 's/.* in pieces in \([0-9]*\) us/\1/' "$work/$file.plain")
  ours=$(best read_ret <"$work/$file.out")
  fed=$(best RetReader <"$work/$file.out")
  echo "$file: $(stat -c %s "$work/$file.ret") bytes; plain Rust: $(cat "$work/$file.plain")"
  echo "$file: read_ret $ours us, $(awk "BEGIN {printf \"%.2f\", $ours / $plain}") of plain; RetReader with finish and file $fed us, $(awk "BEGIN {printf \"%.2f, %.2f\", $fed / $plain, $fed / $pieces}") of plain and of plain in pieces"
done

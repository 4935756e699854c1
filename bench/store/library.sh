#!/usr/bin/env bash
# Measures an opening of a book against what the kit's sqlite alone takes to open the same files and to read their rows,
# both in one run. An opening tests the whole file. openings.py fills the book, and prints what was measured.
#
# usage: bench/store/library.sh [PROGRAM [ITEMS..]]     (by default the one that is built, 100,000 and 1,000,000 items)
. "$(dirname "$0")/../over_library.sh"

workspace opening sqlite
sed -i 's/^opening: .*/opening: sqlite/' "$work/space/crates.txt"
source_file opening main.rt <<'PROGRAM'
#![tactic(auto)]

use sqlite::{Connection, Error, FileFrom, FileStore, Wary};
use std::io;
use std::time::Instant;

/// How many rows the query shows, one at a time.
fn count(conn: &mut Connection<FileStore<FileFrom<Wary>>>, text: &str) -> Result<u64, Error> {
    let mut found: u64 = 0;
    let mut rows = conn.query(text, &[])?;
    for _ in 0..u64::MAX {
        if rows.next()?.is_none() {
            return Ok(found);
        }
        found = found.saturating_add(1);
    }
    Ok(found)
}

fn opened(rt: &HostRuntime) -> io::Result<()> {
    let begun = Instant::now(rt)?;
    let mut conn = match Connection::open_from(rt, "book.db", false, Wary) {
        Ok(conn) => conn,
        Err(_) => {
            println!(rt; "no book.db")?;
            return Ok(());
        }
    };
    let opening = begun.elapsed(rt)?.as_micros();
    let reading = Instant::now(rt)?;
    let items = count(&mut conn, "SELECT * FROM item").unwrap_or(0);
    let taxes = count(&mut conn, "SELECT * FROM item_tax").unwrap_or(0);
    let read = reading.elapsed(rt)?.as_micros();
    println!(rt; "open {opening} read {read} items {items} taxes {taxes}")?;
    Ok(())
}

fn main(rt: HostRuntime) -> io::Result<()> {
    opened(&rt)
}
PROGRAM
build opening
python3 "$here/openings.py" "$program" "$@"

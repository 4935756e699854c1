#!/usr/bin/env bash
# Measures write_hot against a plain Rust writer of the same file (plain.rs) over the same items in memory, sales
# of one airline by 500 agents in no order: at 43,800 items (30 MB written) and at 438,000 (300 MB), the best of
# five each, as a ratio, and the growth; then 438,000 with a tax on commission, a file of form 2. The files of both are
# compared by their sizes and checksums.
#
# usage: bench/hot/run.sh
. "$(dirname "$0")/../over_library.sh"
. "$top/bench/market.sh"

rustc -O -o "$work/plain" "$here/plain.rs" 2>/dev/null

workspace writing bsp_fields bsp_calendar bsp_ret_records bsp_rules bsp_hot
market_module | source_file writing market.rt
source_file writing main.rt <<'PROGRAM'
#![tactic(auto)]

mod market;

use bsp_calendar::Plan;
use bsp_fields::{AgentCode, AirlineCode, PeriodCode, write_digits};
use bsp_hot::write_hot;
use bsp_rules::Item;
use market::{agents, closed_plan, sale, taxed_plan, taxed_sale};
use std::alloc::Global;
use std::io;
use std::time::Instant;

fn spread(items: &mut [Item], agents: &[AgentCode]) {
    for i in 0..items.len() {
        if let Some(agent) = agents.get(i % 500) {
            let number = 1_300_000_000 + (i as u64).wrapping_mul(7_919) % 1_000_003;
            items[i].agent = *agent;
            items[i].transaction.document.number = write_digits::<10>(number);
        }
    }
}

fn checksum(bytes: &[u8]) -> u64 {
    let mut sum: u64 = 0;
    for byte in bytes {
        sum = (sum ^ u64::from(*byte)).wrapping_mul(1_099_511_628_211);
    }
    sum
}

fn measure(rt: &HostRuntime, name: &str, plan: &Plan, items: &[Item]) -> io::Result<()> {
    let (Ok(period), Ok(airline)) = (PeriodCode::read(b"24011"), AirlineCode::read(b"125")) else {
        return Ok(());
    };
    let begun = Instant::now(rt)?;
    let written = write_hot(rt.alloc(), airline, period, items, &[], plan);
    let took = begun.elapsed(rt)?.as_micros();
    match written {
        Ok(text) => println!(rt; "{name} {} {took} {} {}", items.len(), text.len(), checksum(&text)),
        Err(fault) => println!(rt; "{name} {} {took} {fault}", items.len()),
    }
}

fn sales(alloc: Global, sale: Option<Item>, count: usize, agents: &[AgentCode]) -> io::Result<Vec<Item>> {
    let sale = sale.ok_or(io::ErrorKind::Other)?;
    let mut items = vec![in alloc; sale; count]?;
    spread(&mut items, agents);
    Ok(items)
}

fn main(rt: HostRuntime) -> io::Result<()> {
    let plan = closed_plan(rt.alloc()).ok_or(io::ErrorKind::Other)?;
    let agents = agents(rt.alloc())?;
    for count in [43_800, 438_000] {
        let items = sales(rt.alloc(), sale(), count, &agents)?;
        for _ in 0..5 {
            measure(&rt, "write_hot", &plan, &items)?;
        }
    }
    let plan = taxed_plan(rt.alloc()).ok_or(io::ErrorKind::Other)?;
    let items = sales(rt.alloc(), taxed_sale(), 438_000, &agents)?;
    for _ in 0..5 {
        measure(&rt, "write_hot_taxed", &plan, &items)?;
    }
    Ok(())
}
PROGRAM
build writing
"$program" >"$work/said"
"$work/plain" 43800 438000 taxed 438000 >>"$work/said"

# best NAME COUNT: microseconds; file NAME COUNT: bytes and checksum
best() { awk -v c="$1" -v n="$2" '$1 == c && $2 == n {print $3}' "$work/said" | sort -n | head -1; }
file() { awk -v c="$1" -v n="$2" '$1 == c && $2 == n {print $4, $5; exit}' "$work/said"; }
# compare WHAT COUNT: the two programs on the items, of which the names of both end in WHAT
compare() {
  local what=$1 count=$2 ours plain
  if [ -z "$(file "write_hot$what" "$count")" ] || [ "$(file "write_hot$what" "$count")" != "$(file "plain$what" "$count")" ]; then
    echo "the files of $count items$what differ: $(file "write_hot$what" "$count"), plain Rust $(file "plain$what" "$count")"
    exit 1
  fi
  ours=$(best "write_hot$what" "$count")
  plain=$(best "plain$what" "$count")
  echo "$count items$what, $(file "write_hot$what" "$count" | cut -d' ' -f1) bytes: write_hot $ours us, plain Rust $plain us, ratio $(awk "BEGIN {printf \"%.2f\", $ours / $plain}")"
}
compare "" 43800
compare "" 438000
compare _taxed 438000
echo "growth: $(awk "BEGIN {printf \"%.1f\", $(best write_hot 438000) / $(best write_hot 43800)}")"

#!/usr/bin/env bash
# Measures statement and settlement over 10,000 and 100,000 items in memory, of 500 agents and 50 airlines, without a
# tax on commission and with one (`taxed`): the best of five each, in microseconds.
#
# usage: bench/statement/run.sh
. "$(dirname "$0")/../over_library.sh"
. "$top/bench/market.sh"

workspace reporting bsp_fields bsp_calendar bsp_ret_records bsp_rules bsp_statement
market_module | source_file reporting market.rt
source_file reporting main.rt <<'PROGRAM'
#![tactic(auto)]

mod market;

use bsp_calendar::Plan;
use bsp_fields::{AgentCode, AirlineCode, PeriodCode, write_digits};
use bsp_rules::Item;
use bsp_statement::{settlement, statement};
use market::{agent, agents, closed_plan, sale, taxed_plan, taxed_sale};
use std::alloc::Global;
use std::io;
use std::time::Instant;

fn airlines(alloc: Global) -> io::Result<Vec<AirlineCode>> {
    let mut airlines = Vec::new(alloc);
    for number in 0..50 {
        airlines.push(AirlineCode::read(&write_digits::<3>(100 + number)).ok().ok_or(io::ErrorKind::Other)?)?;
    }
    Ok(airlines)
}

fn spread(items: &mut [Item], agents: &[AgentCode], airlines: &[AirlineCode]) {
    for i in 0..items.len() {
        if let (Some(agent), Some(airline)) = (agents.get(i % 500), airlines.get(i % 50)) {
            items[i].agent = *agent;
            items[i].transaction.document.airline = *airline;
        }
    }
}

/// A plan, and what its figures are called.
struct Case<'a> {
    form: &'a str,
    period: PeriodCode,
    plan: &'a Plan,
}

fn settle(rt: &HostRuntime, case: &Case<'_>, items: &[Item]) -> io::Result<()> {
    let begun = Instant::now(rt)?;
    let is_made = settlement(rt.alloc(), case.period, items, &[], case.plan).is_ok();
    let took = begun.elapsed(rt)?.as_micros();
    println!(rt; "settlement{} {} {took} {is_made}", case.form, items.len())
}

fn state(rt: &HostRuntime, of: AgentCode, case: &Case<'_>, items: &[Item]) -> io::Result<()> {
    let begun = Instant::now(rt)?;
    let is_made = statement(rt.alloc(), of, case.period, items, &[], case.plan).is_ok();
    let took = begun.elapsed(rt)?.as_micros();
    println!(rt; "statement{} {} {took} {is_made}", case.form, items.len())
}

fn measure(rt: &HostRuntime, form: &str, plan: &Plan, items: &[Item]) -> io::Result<()> {
    let (Ok(period), Some(first)) = (PeriodCode::read(b"24011"), agent(0)) else {
        return Ok(());
    };
    let case = Case { form, period, plan };
    for _ in 0..5 {
        settle(rt, &case, items)?;
        state(rt, first, &case, items)?;
    }
    Ok(())
}

/// Measures over 10,000 and 100,000 items like the first.
fn measure_all(rt: &HostRuntime, form: &str, plan: Option<Plan>, first: Option<Item>) -> io::Result<()> {
    let Some(plan) = plan else {
        return Ok(());
    };
    let Some(first) = first else {
        return Ok(());
    };
    let agents = agents(rt.alloc())?;
    let airlines = airlines(rt.alloc())?;
    for count in [10_000, 100_000] {
        let mut items = vec![in rt.alloc(); first; count]?;
        spread(&mut items, &agents, &airlines);
        measure(rt, form, &plan, &items)?;
    }
    Ok(())
}

fn main(rt: HostRuntime) -> io::Result<()> {
    measure_all(&rt, "", closed_plan(rt.alloc()), sale())?;
    measure_all(&rt, "-taxed", taxed_plan(rt.alloc()), taxed_sale())
}
PROGRAM
build reporting
"$program" >"$work/said"

for call in settlement statement settlement-taxed statement-taxed; do
  for count in 10000 100000; do
    best=$(awk -v c="$call" -v n="$count" '$1 == c && $2 == n { print $3 }' "$work/said" | sort -n | head -1)
    echo "$call $count $best us"
  done
done

#!/usr/bin/env bash
# Measures the plan on a text of 10,000 and on one of 100,000 entries, in one run: reading the text,
# publishing it, and looking up each of its rates, periods, targets, airlines and taxes on commission; the best
# of five of each, and the growth from the smaller text to the larger one.
#
# usage: bench/calendar/run.sh     (needs python3)
. "$(dirname "$0")/../over_library.sh"

for entries in 10000 100000; do
  python3 "$here/make_plan.py" "$entries" >"$work/$entries.toml"
done

workspace publishing bsp_calendar
source_file publishing main.rt <<'PROGRAM'
#![tactic(auto)]

use bsp_calendar::{Plan, PlanText, read_plan};
use std::io::{self, Read};
use std::time::Instant;

#[derive(Clone, Copy)]
enum Call {
    Rate,
    Period,
    Target,
    HasAirline,
    CommissionTax,
}

fn name(call: Call) -> &'static str {
    match call {
        Call::Rate => "rate",
        Call::Period => "period",
        Call::Target => "target",
        Call::HasAirline => "has_airline",
        Call::CommissionTax => "commission_tax",
    }
}

fn answered(call: Call, plan: &Plan, text: &PlanText) -> usize {
    match call {
        Call::Rate => text.rates.iter().filter(|rate| plan.rate(rate.airline, rate.from) == rate.hundredths).count(),
        Call::Period => text.periods.iter().filter(|period| plan.period(period.code).is_some()).count(),
        Call::Target => text.periods.iter().filter(|period| plan.target(period.last).is_some()).count(),
        Call::HasAirline => text.rates.iter().filter(|rate| plan.has_airline(rate.airline)).count(),
        Call::CommissionTax => {
            text.commission_taxes.iter().filter(|tax| plan.commission_tax(tax.from) == tax.hundredths).count()
        }
    }
}

fn read(rt: &HostRuntime, bytes: &[u8]) -> io::Result<Option<PlanText>> {
    let begun = Instant::now(rt)?;
    let text = read_plan(rt.alloc(), bytes).ok();
    let took = begun.elapsed(rt)?.as_micros();
    println!(rt; "read_plan {took} {}", text.is_some())?;
    Ok(text)
}

fn publish(rt: &HostRuntime, plan: &mut Plan, text: &PlanText) -> io::Result<()> {
    let begun = Instant::now(rt)?;
    let published = plan.extend(text).is_ok();
    let took = begun.elapsed(rt)?.as_micros();
    println!(rt; "extend {took} {published}")
}

fn set_last_day(plan: &mut Plan, text: &PlanText) {
    if let Some(period) = text.periods.last() {
        let _ = plan.set_day(period.last);
    }
}

fn time(rt: &HostRuntime, call: Call, plan: &Plan, text: &PlanText) -> io::Result<()> {
    let begun = Instant::now(rt)?;
    let found = answered(call, plan, text);
    let took = begun.elapsed(rt)?.as_micros();
    println!(rt; "{} {took} {found}", name(call))
}

fn look_up(rt: &HostRuntime, plan: &Plan, text: &PlanText) -> io::Result<()> {
    for call in [Call::Rate, Call::Period, Call::Target, Call::HasAirline, Call::CommissionTax] {
        time(rt, call, plan, text)?;
    }
    Ok(())
}

fn measured(rt: &HostRuntime, bytes: &[u8]) -> io::Result<()> {
    let Some(text) = read(rt, bytes)? else {
        return Ok(());
    };
    let mut plan = Plan::empty(rt.alloc());
    publish(rt, &mut plan, &text)?;
    set_last_day(&mut plan, &text);
    look_up(rt, &plan, &text)
}

fn main(rt: HostRuntime) -> io::Result<()> {
    let mut bytes = Vec::new(rt.alloc());
    rt.reader().read_to_end(&mut bytes)?;
    for _ in 0..5 {
        measured(&rt, &bytes)?;
    }
    Ok(())
}
PROGRAM
build publishing

best() { awk -v name="$1" '$1 == name && (!n++ || $2 < least) {least = $2; told = $3} END {print least, told}' "$2"; }
for entries in 10000 100000; do
  "$program" <"$work/$entries.toml" >"$work/$entries.out"
done
echo "call, microseconds at 10,000 entries (calls that answered, or entries), at 100,000, growth"
for call in read_plan extend rate period target has_airline commission_tax; do
  small=$(best "$call" "$work/10000.out")
  large=$(best "$call" "$work/100000.out")
  echo "$call ${small% *} (${small#* }) ${large% *} (${large#* }) $(awk "BEGIN {printf \"%.1f\", ${large% *} / ${small% *}}")"
done

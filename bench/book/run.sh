#!/usr/bin/env bash
# Measures a ListBook of 10,000 and of 100,000 items of 500 agents: adding them, 100 in a transaction; then, in the
# book so filled, a request (the look-ups and the writes of one accepted sale, in a transaction of its own), a
# look-up of the items that share a number with a transaction, a tally, and the audit. The best of five each, in
# microseconds for one, and the growth from the smaller book to the larger one.
#
# usage: bench/book/run.sh
. "$(dirname "$0")/../over_library.sh"
. "$top/bench/market.sh"

workspace booking bsp_fields bsp_calendar bsp_ret_records bsp_rules bsp_rows bsp_book
market_module | source_file booking market.rt
source_file booking main.rt <<'PROGRAM'
#![tactic(auto)]

mod market;

use bsp_book::{Book, BookFault, ListBook};
use bsp_calendar::PlanText;
use bsp_fields::{AgentCode, Day, DocNumber, Token, write_digits};
use bsp_rows::{ItemKey, TallyKey};
use bsp_rules::{Item, Range};
use market::{agents, plan_text, sale};
use std::io;
use std::time::Instant;

/// How often a call is made for one figure.
const CALLS: u64 = 5_000;

/// Makes each item the sale that is added as number n: agents take turns.
fn set_nth(items: &mut [Item], agents: &[AgentCode], n: u64) {
    let turn = n % 500;
    let number = 1_000_000_000 + turn * 1_000_000 + n / 500;
    if let Some(agent) = agents.get(turn as usize) {
        for i in 0..items.len() {
            items[i].agent = *agent;
            items[i].transaction.agent = agent.digits();
            items[i].transaction.document.number = write_digits::<10>(number);
            items[i].transaction.document.check_digit = (number % 7) as u8;
        }
    }
}

fn number(value: u64) -> Option<DocNumber> {
    DocNumber::read(&write_digits::<10>(value), (value % 7) as u8).ok()
}

/// The range of an agent, of a million numbers.
fn range(turn: u64) -> Option<Range> {
    let first = 1_000_000_000 + turn % 500 * 1_000_000;
    Some(Range {
        first: number(first)?,
        last: number(first + 999_999)?,
    })
}

fn publish(book: &mut ListBook, text: &PlanText, day: Day) -> Result<bool, BookFault> {
    book.begin()?;
    let is_published = book.publish(text)?.is_ok();
    let is_set = book.set_day(day)?.is_ok();
    book.commit()?;
    Ok(is_published && is_set)
}

fn register(book: &mut ListBook, agent: AgentCode, token: Token, range: Range) -> Result<(), BookFault> {
    book.begin()?;
    book.set_agent_token(agent, token)?;
    book.add_range(agent, range)?;
    book.commit()
}

/// Adds an item whose number has its check digit.
fn add(book: &mut ListBook, item: &Item) -> Result<(), BookFault> {
    if ItemKey::of(item).is_some() {
        book.add_item(item)?;
    }
    Ok(())
}

/// Adds the sales from number `from` on, 100 in a transaction.
fn fill(book: &mut ListBook, items: &mut [Item], agents: &[AgentCode], count: u64) -> Result<(), BookFault> {
    for n in 0..count {
        if n % 100 == 0 {
            book.begin()?;
        }
        set_nth(items, agents, n);
        if let Some(item) = items.first() {
            add(book, item)?;
        }
        if n % 100 == 99 {
            book.commit()?;
        }
    }
    Ok(())
}

/// The look-ups and the writes of an accepted sale.
fn request(book: &mut ListBook, item: &Item) -> Result<(), BookFault> {
    book.begin()?;
    let _token = book.agent_token(item.agent)?;
    let _ranges = book.ranges(item.agent)?;
    let _items = book.items_bearing(item.agent, &item.transaction)?;
    let _tally = book.tally(TallyKey::of_item(item))?;
    add(book, item)?;
    book.commit()
}

fn requests(book: &mut ListBook, items: &mut [Item], agents: &[AgentCode], count: u64) -> Result<(), BookFault> {
    for n in count..count.saturating_add(CALLS) {
        set_nth(items, agents, n);
        if let Some(item) = items.first() {
            request(book, item)?;
        }
    }
    Ok(())
}

/// Gives how many items were found.
fn look_up(book: &mut ListBook, items: &mut [Item], agents: &[AgentCode]) -> Result<usize, BookFault> {
    let mut found = 0_usize;
    book.begin()?;
    for n in 0..CALLS {
        set_nth(items, agents, n);
        if let Some(item) = items.first() {
            found = found.saturating_add(book.items_bearing(item.agent, &item.transaction)?.len());
        }
    }
    book.commit()?;
    Ok(found)
}

/// Gives how many items the tallies count.
fn tallies(book: &mut ListBook, items: &mut [Item], agents: &[AgentCode]) -> Result<u32, BookFault> {
    let mut counted = 0_u32;
    book.begin()?;
    for n in 0..CALLS {
        set_nth(items, agents, n);
        if let Some(item) = items.first() {
            counted = counted.saturating_add(book.tally(TallyKey::of_item(item))?.accepted);
        }
    }
    book.commit()?;
    Ok(counted)
}

fn opened(rt: &HostRuntime, agents: &[AgentCode]) -> Option<ListBook> {
    let mut book = ListBook::new(rt.alloc());
    let text = plan_text(rt.alloc())?;
    publish(&mut book, &text, Day::read_text(b"2024-01-16").ok()?).ok()?;
    let token = Token::read(b"agenttoken000001")?;
    let mut turn = 0_u64;
    for agent in agents {
        register(&mut book, *agent, token, range(turn)?).ok()?;
        turn = turn.saturating_add(1);
    }
    Some(book)
}

fn measure_fill(rt: &HostRuntime, book: &mut ListBook, items: &mut [Item], agents: &[AgentCode], count: u64) -> io::Result<()> {
    let begun = Instant::now(rt)?;
    let is_done = fill(book, items, agents, count).is_ok();
    let took = begun.elapsed(rt)?.as_micros();
    println!(rt; "add {count} {took} {count} {is_done}")
}

fn measure_requests(rt: &HostRuntime, book: &mut ListBook, items: &mut [Item], agents: &[AgentCode], count: u64) -> io::Result<()> {
    let begun = Instant::now(rt)?;
    let is_done = requests(book, items, agents, count).is_ok();
    let took = begun.elapsed(rt)?.as_micros();
    println!(rt; "request {count} {took} {CALLS} {is_done}")
}

fn measure_look_ups(rt: &HostRuntime, book: &mut ListBook, items: &mut [Item], agents: &[AgentCode], count: u64) -> io::Result<()> {
    let begun = Instant::now(rt)?;
    let found = look_up(book, items, agents).unwrap_or(0);
    let took = begun.elapsed(rt)?.as_micros();
    println!(rt; "items_bearing {count} {took} {CALLS} {found}")
}

fn measure_tallies(rt: &HostRuntime, book: &mut ListBook, items: &mut [Item], agents: &[AgentCode], count: u64) -> io::Result<()> {
    let begun = Instant::now(rt)?;
    let counted = tallies(book, items, agents).unwrap_or(0);
    let took = begun.elapsed(rt)?.as_micros();
    println!(rt; "tally {count} {took} {CALLS} {counted}")
}

fn measure_audit(rt: &HostRuntime, book: &ListBook, count: u64) -> io::Result<()> {
    let begun = Instant::now(rt)?;
    let is_sound = book.sound().unwrap_or(false);
    let took = begun.elapsed(rt)?.as_micros();
    println!(rt; "audit {count} {took} 1 {is_sound}")
}

fn measure(rt: &HostRuntime, items: &mut [Item], agents: &[AgentCode], count: u64) -> io::Result<()> {
    let Some(mut book) = opened(rt, agents) else {
        return Ok(());
    };
    measure_fill(rt, &mut book, items, agents, count)?;
    measure_audit(rt, &book, count)?;
    measure_look_ups(rt, &mut book, items, agents, count)?;
    measure_tallies(rt, &mut book, items, agents, count)?;
    measure_requests(rt, &mut book, items, agents, count)
}

fn main(rt: HostRuntime) -> io::Result<()> {
    let agents = agents(rt.alloc())?;
    if let Some(sample) = sale() {
        let mut items = vec![in rt.alloc(); sample; 1]?;
        measure(&rt, &mut items, &agents, 10_000)?;
        measure(&rt, &mut items, &agents, 100_000)?;
    }
    Ok(())
}
PROGRAM
build booking
for _ in 1 2 3 4 5; do "$program"; done >"$work/said"

awk '
  { took = $3 / $4; key = $1 " " $2
    if (!(key in best) || took < best[key]) best[key] = took
    told[key] = $5; if (!($1 in seen)) { seen[$1] = 1; names[++count] = $1 } }
  END { for (i = 1; i <= count; i++) { small = names[i] " 10000"; large = names[i] " 100000"
    printf "%s: %.2f us at 10,000 items (%s), %.2f us at 100,000 (%s), growth %.2f\n", names[i], best[small], told[small],
      best[large], told[large], best[large] / best[small] } }' "$work/said"

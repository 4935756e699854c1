# Sourced by the scripts that measure over items in memory: a module of their programs, with a plan whose one
# period is closed, and items of it. Both are without a tax on commission, or with one.

market_module() {
  cat <<'MODULE'
//! A plan whose period 24011 is closed, 500 agents and a sale.

use bsp_calendar::{CommissionTax, Currency, Period, Plan, PlanText, Terms};
use bsp_fields::{AgentCode, AirlineCode, Amount, Day, PeriodCode, write_digits};
use bsp_ret_records::{Amounts, ReportedDocument, Tax, Transaction, TransactionCode};
use bsp_rules::Item;
use std::alloc::Global;
use std::io;

pub fn plan_text(alloc: Global) -> Option<PlanText> {
    let mut text = PlanText {
        terms: Terms {
            currency: Currency::read(b"EUR")?,
            review_days: 14,
            documents_limit: 1000,
        },
        airlines: Vec::new(alloc),
        rates: Vec::new(alloc),
        periods: Vec::new(alloc),
        commission_taxes: Vec::new(alloc),
    };
    text.periods
        .push(Period {
            code: PeriodCode::read(b"24011").ok()?,
            first: Day::read_text(b"2024-01-01").ok()?,
            last: Day::read_text(b"2024-01-15").ok()?,
            remittance: Day::read_text(b"2024-02-15").ok()?,
        })
        .ok()?;
    Some(text)
}

fn closed(alloc: Global, text: &PlanText) -> Option<Plan> {
    let mut plan = Plan::empty(alloc);
    plan.extend(text).ok()?;
    plan.set_day(Day::read_text(b"2024-01-16").ok()?).ok()?;
    plan.close_next(PeriodCode::read(b"24011").ok()?).ok()?;
    Some(plan)
}

pub fn closed_plan(alloc: Global) -> Option<Plan> {
    closed(alloc, &plan_text(alloc)?)
}

/// The same with a tax on commission of 19.00 percent, so that its reports have form 2.
pub fn taxed_plan(alloc: Global) -> Option<Plan> {
    let mut text = plan_text(alloc)?;
    text.commission_taxes
        .push(CommissionTax {
            from: Day::read_text(b"2024-01-01").ok()?,
            hundredths: 1900,
        })
        .ok()?;
    closed(alloc, &text)
}

pub fn agent(number: u64) -> Option<AgentCode> {
    let front = 1_000_000 + number % 500;
    AgentCode::read(&write_digits::<8>(front * 10 + front % 7)).ok()
}

pub fn agents(alloc: Global) -> io::Result<Vec<AgentCode>> {
    let mut agents = Vec::new(alloc);
    for number in 0..500 {
        agents.push(agent(number).ok_or(io::ErrorKind::Other)?)?;
    }
    Ok(agents)
}

fn amounts() -> Option<Amounts> {
    let tax = Tax {
        code: *b"RA",
        amount: Amount::new(3500).ok()?,
    };
    Some(Amounts {
        fare: Amount::new(20000).ok()?,
        taxes: [Some(tax), None, None, None, None, None],
        rate: 500,
        commission: Amount::new(1000).ok()?,
    })
}

fn passenger() -> [u8; 49] {
    let mut name = [b' '; 49];
    name[..8].copy_from_slice(b"DOE/JANE");
    name
}

/// Of the first agent and airline 125, for cash.
pub fn sale() -> Option<Item> {
    let transaction = Transaction {
        code: TransactionCode::Tktt,
        agent: *b"12345675",
        document: ReportedDocument {
            airline: AirlineCode::read(b"125").ok()?,
            number: *b"1300000000",
            check_digit: 0,
        },
        issued: Day::read_text(b"2024-01-05").ok()?,
        passenger: passenger(),
        related: [None, None],
        amounts: amounts(),
        cash: Some(Amount::new(23500).ok()?),
        credit: None,
        exchange: None,
    };
    Some(Item {
        agent: agent(0)?,
        period: PeriodCode::read(b"24011").ok()?,
        transaction,
        lives: true,
        tax: Amount::new(0).ok()?,
        hundredths: 0,
    })
}

/// The same under the tax of 19.00 percent.
pub fn taxed_sale() -> Option<Item> {
    let mut item = sale()?;
    item.tax = Amount::new(190).ok()?;
    item.hundredths = 1900;
    Some(item)
}
MODULE
}

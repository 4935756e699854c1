// The plan: its airlines, rates, periods and taxes on commission. A day is YYMMDD as a number.
use std::collections::{BTreeMap, HashSet};

pub struct Period {
    pub code: u32,
    first: u32,
    last: u32,
}

#[derive(Default)]
pub struct Plan {
    pub limit: u32,
    pub day: u32,
    pub closed: usize,
    airlines: HashSet<u16>,
    rates: BTreeMap<(u16, u32), u16>,
    periods: Vec<Period>,
    taxes: BTreeMap<u32, u16>,
}

// The digits of a text, as a number: of a day 2024-01-05, 240105.
pub fn number(text: &str) -> u64 {
    text.bytes().filter(u8::is_ascii_digit).fold(0, |n, digit| n * 10 + u64::from(digit - b'0'))
}

pub fn day(text: &str) -> u32 {
    (number(text) % 1_000_000) as u32
}

// The value of a key in a table of one value a line.
fn at(table: &str, key: &str) -> u64 {
    let line = table.lines().find(|line| line.split(' ').next() == Some(key));
    line.map_or(0, number)
}

fn day_at(table: &str, key: &str) -> u32 {
    (at(table, key) % 1_000_000) as u32
}

impl Plan {
    // A plan text of one value a line, without faults.
    pub fn read(text: &str) -> Plan {
        let mut plan = Plan::default();
        for (place, table) in text.split("[[").enumerate() {
            if place == 0 {
                let airlines = table.lines().find(|line| line.starts_with("airline"));
                plan.limit = at(table, "documents_limit") as u32;
                plan.airlines = airlines.unwrap_or("").split(',').map(|code| number(code) as u16).collect();
            } else if table.starts_with("rate") {
                let key = (at(table, "airline") as u16, day_at(table, "from"));
                plan.rates.insert(key, at(table, "hundredths") as u16);
            } else if table.starts_with("commission_tax") {
                plan.taxes.insert(day_at(table, "from"), at(table, "hundredths") as u16);
            } else {
                let (first, last) = (day_at(table, "first"), day_at(table, "last"));
                plan.periods.push(Period { code: at(table, "code") as u32, first, last });
            }
        }
        plan
    }

    pub fn has_airline(&self, airline: u16) -> bool {
        self.airlines.contains(&airline)
    }

    pub fn rate(&self, airline: u16, day: u32) -> u16 {
        match self.rates.range(..=(airline, day)).next_back() {
            Some((key, rate)) if key.0 == airline => *rate,
            _ => 0,
        }
    }

    pub fn commission_tax(&self, day: u32) -> u16 {
        self.taxes.range(..=day).next_back().map_or(0, |(_, hundredths)| *hundredths)
    }

    pub fn target(&self, issued: u32) -> Option<u32> {
        let place = self.periods.partition_point(|period| period.last < issued).max(self.closed);
        let period = self.periods.get(place)?;
        (period.first <= self.day).then_some(period.code)
    }

    pub fn is_closed(&self, code: u32) -> bool {
        self.periods[..self.closed].iter().any(|period| period.code == code)
    }
}

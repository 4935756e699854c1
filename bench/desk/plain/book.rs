// The rows in std's maps, with what takes back the writes of a request that ends without room.
use crate::plan::Plan;
use crate::transaction::{Code, Transaction};
use std::collections::{BTreeMap, BTreeSet, HashMap};

// The number of a document, and whether the item is a CANX.
pub type Key = (u64, bool);

// An airline and a period.
pub type Place = (u16, u32);

#[derive(Clone, Copy)]
pub struct Item {
    pub transaction: Transaction,
    pub period: u32,
    pub lives: bool,
    // The tax on its commission, and the hundredths of a percent that were taken, which are kept for the reports alone.
    pub tax: i64,
    #[allow(dead_code)]
    pub hundredths: u16,
}

#[derive(Clone, Copy, Default)]
pub struct Tally {
    pub accepted: u32,
    pub living: u32,
    pub cancelled: u32,
    pub cash: i64,
    pub credit: i64,
    pub commission: i64,
    pub tax: i64,
}

#[derive(Default)]
pub struct Agent {
    pub token: Vec<u8>,
    pub ranges: BTreeMap<u64, u64>,
    pub items: BTreeMap<Key, Item>,
    // A number that an item's record 3 names, and the item.
    pub relations: BTreeSet<(u64, Key)>,
    pub tallies: BTreeMap<Place, Tally>,
}

enum Write {
    Added(u32, Key),
    Ended(u32, Key),
    Counted(u32, Place, Option<Tally>),
}

pub struct NoRoom;

// The commission of a rate in hundredths of a percent, halves away from zero.
pub fn commission_on(rate: u16, basis: i64) -> i64 {
    let size = (u128::from(rate) * u128::from(basis.unsigned_abs()) + 5_000) / 10_000;
    let size = size as i64;
    if basis < 0 { -size } else { size }
}

#[derive(Default)]
pub struct Book {
    pub plan: Plan,
    pub agents: HashMap<u32, Agent>,
    by_airline: HashMap<Place, BTreeSet<(u32, Key)>>,
    by_period: HashMap<u32, BTreeSet<(u32, u16)>>,
    undo: Vec<Write>,
}

impl Item {
    fn key(&self) -> Key {
        (self.transaction.document.number, self.transaction.code == Code::Canx)
    }

    fn place(&self) -> Place {
        (self.transaction.document.airline, self.period)
    }
}

impl Tally {
    // With what a TKTT or an RFND posts while it lives, or without it.
    fn with_sums(mut self, item: &Item, sign: i64) -> Option<Tally> {
        let transaction = &item.transaction;
        let credit = transaction.credit.map_or(0, |card| card.amount);
        let commission = transaction.amounts.map_or(0, |amounts| amounts.commission);
        self.living = self.living.checked_add_signed(sign as i32)?;
        self.cash = self.cash.checked_add(sign * transaction.cash.unwrap_or(0))?;
        self.credit = self.credit.checked_add(sign * credit)?;
        self.commission = self.commission.checked_add(sign * commission)?;
        self.tax = self.tax.checked_add(sign * item.tax)?;
        Some(self)
    }

    fn with(mut self, item: &Item) -> Option<Tally> {
        self.accepted = self.accepted.checked_add(1)?;
        if item.transaction.code == Code::Canx {
            self.cancelled = self.cancelled.checked_add(1)?;
            return Some(self);
        }
        self.with_sums(item, 1)
    }
}

impl Agent {
    pub fn has_in_stock(&self, number: u64) -> bool {
        let below = self.ranges.range(..=number).next_back();
        below.is_some_and(|(_, last)| number <= *last)
    }

    // Whether a living TKTT or RFND relates to the number.
    pub fn is_related_to(&self, number: u64) -> bool {
        let from = (number, (0, false));
        let named = self.relations.range(from..).take_while(|(other, _)| *other == number);
        named.into_iter().any(|(_, key)| self.items.get(key).is_some_and(|item| item.lives))
    }

    pub fn count(&self, place: Place) -> u32 {
        self.tallies.get(&place).map_or(0, |tally| tally.accepted)
    }
}

impl Book {
    fn count(&mut self, code: u32, place: Place, change: impl Fn(Tally) -> Option<Tally>) -> Result<(), NoRoom> {
        let agent = self.agents.get_mut(&code).ok_or(NoRoom)?;
        let old = agent.tallies.get(&place).copied();
        let new = change(old.unwrap_or_default()).ok_or(NoRoom)?;
        self.undo.push(Write::Counted(code, place, old));
        agent.tallies.insert(place, new);
        if old.is_none() {
            self.by_period.entry(place.1).or_default().insert((code, place.0));
        }
        Ok(())
    }

    // A CANX ends the TKTT or RFND of its number.
    fn end(&mut self, code: u32, key: Key) -> Result<(), NoRoom> {
        let agent = self.agents.get_mut(&code).ok_or(NoRoom)?;
        let Some(item) = agent.items.get_mut(&key) else {
            return Ok(());
        };
        item.lives = false;
        let ended = *item;
        self.undo.push(Write::Ended(code, key));
        self.count(code, ended.place(), |tally| tally.with_sums(&ended, -1))
    }

    // The tax of a TKTT on its day of issue; of an RFND on the earlier of that and its ticket's.
    fn taxed(&self, code: u32, transaction: &Transaction) -> (i64, u16) {
        let Some(amounts) = &transaction.amounts else {
            return (0, 0);
        };
        let ticket = match (transaction.code, &transaction.related) {
            (Code::Rfnd, Some(related)) => self.agents.get(&code).and_then(|agent| agent.items.get(&(related.number, false))),
            _ => None,
        };
        let issued = ticket.map_or(transaction.issued, |ticket| ticket.transaction.issued.min(transaction.issued));
        let hundredths = self.plan.commission_tax(issued);
        (commission_on(hundredths, amounts.commission), hundredths)
    }

    pub fn accept(&mut self, code: u32, transaction: &Transaction, period: u32) -> Result<(), NoRoom> {
        let (tax, hundredths) = self.taxed(code, transaction);
        let item = Item { transaction: *transaction, period, lives: true, tax, hundredths };
        let (key, place) = (item.key(), item.place());
        if key.1 {
            self.end(code, (key.0, false))?;
        }
        self.count(code, place, |tally| tally.with(&item))?;
        let agent = self.agents.get_mut(&code).ok_or(NoRoom)?;
        self.undo.push(Write::Added(code, key));
        if let Some(related) = &transaction.related {
            agent.relations.insert((related.number, key));
        }
        agent.items.insert(key, item);
        self.by_airline.entry(place).or_default().insert((code, key));
        Ok(())
    }

    pub fn commit(&mut self) {
        self.undo.clear();
    }

    fn remove(&mut self, code: u32, key: Key) {
        let Some(agent) = self.agents.get_mut(&code) else {
            return;
        };
        let Some(item) = agent.items.remove(&key) else {
            return;
        };
        if let Some(related) = &item.transaction.related {
            agent.relations.remove(&(related.number, key));
        }
        if let Some(keys) = self.by_airline.get_mut(&item.place()) {
            keys.remove(&(code, key));
        }
    }

    fn put_tally_back(&mut self, code: u32, place: Place, old: Option<Tally>) {
        let Some(agent) = self.agents.get_mut(&code) else {
            return;
        };
        if let Some(old) = old {
            agent.tallies.insert(place, old);
            return;
        }
        agent.tallies.remove(&place);
        if let Some(keys) = self.by_period.get_mut(&place.1) {
            keys.remove(&(code, place.0));
        }
    }

    pub fn roll_back(&mut self) {
        while let Some(write) = self.undo.pop() {
            match write {
                Write::Added(code, key) => self.remove(code, key),
                Write::Counted(code, place, old) => self.put_tally_back(code, place, old),
                Write::Ended(code, key) => {
                    let agent = self.agents.get_mut(&code);
                    if let Some(item) = agent.and_then(|agent| agent.items.get_mut(&key)) {
                        item.lives = true;
                    }
                }
            }
        }
    }
}

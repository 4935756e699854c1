// The table of verdicts, over look-ups by key.
use crate::book::{Agent, Book, Item, commission_on};
use crate::plan::Plan;
use crate::transaction::{Amounts, Code, Document, Transaction};

#[derive(Clone, Copy)]
pub enum Verdict {
    Held(u32),
    Accepted(u32),
    Refused(&'static str),
}

fn has_commission(amounts: &Amounts, basis: i64) -> bool {
    amounts.commission == commission_on(amounts.rate, basis)
}

fn has_right_amounts(transaction: &Transaction, amounts: &Amounts, published: u16) -> bool {
    let sign = if transaction.code == Code::Rfnd { -1 } else { 1 };
    let taxes = amounts.taxes.iter().flatten().map(|tax| tax.amount);
    let forms = [transaction.cash, transaction.credit.map(|card| card.amount), transaction.exchange];
    let mut all = [amounts.fare, amounts.commission].into_iter().chain(taxes).chain(forms.into_iter().flatten());
    all.all(|amount| sign * amount >= 0)
        && amounts.gross() == transaction.paid()
        && (transaction.code == Code::Rfnd
            || amounts.rate <= published
                && (transaction.exchange.is_some() || has_commission(amounts, amounts.fare)))
}

fn fits_exchange(transaction: &Transaction, amounts: &Amounts, ticket: &Amounts) -> bool {
    transaction.exchange == Some(ticket.gross()) && has_commission(amounts, (amounts.fare - ticket.fare).max(0))
}

fn fits_refund(amounts: &Amounts, ticket: &Amounts) -> bool {
    amounts.fare.abs() <= ticket.fare.abs()
        && amounts.rate == ticket.rate
        && amounts.taxes.iter().flatten().all(|tax| {
            let mut of_ticket = ticket.taxes.iter().flatten();
            of_ticket.any(|other| other.code == tax.code && tax.amount.abs() <= other.amount.abs())
        })
        && has_commission(amounts, amounts.fare)
}

// E08, E09 and E12 of an RFND, and of a TKTT with EX.
fn judge_relation(
    agent: &Agent,
    transaction: &Transaction,
    amounts: &Amounts,
    related: &Document,
) -> Result<(), &'static str> {
    let is_ticket = |item: &&Item| {
        let other = &item.transaction;
        other.code == Code::Tktt && other.document.airline == related.airline
    };
    let ticket = agent.items.get(&(related.number, false)).filter(is_ticket);
    let Some(ticket) = ticket.filter(|_| related.airline == transaction.document.airline) else {
        return Err("E08");
    };
    if !ticket.lives || agent.is_related_to(related.number) {
        return Err("E09");
    }
    let fits = ticket.transaction.amounts.is_none_or(|ticket| match transaction.code {
        Code::Tktt => fits_exchange(transaction, amounts, &ticket),
        _ => fits_refund(amounts, &ticket),
    });
    if fits { Ok(()) } else { Err("E12") }
}

fn judge_canx(plan: &Plan, agent: &Agent, transaction: &Transaction, own: Option<&Item>) -> Result<(), &'static str> {
    if own.is_some_and(|item| item.transaction.document.airline != transaction.document.airline) {
        return Err("E08");
    }
    let is_closed = own.is_some_and(|item| plan.is_closed(item.period));
    if is_closed || agent.is_related_to(transaction.document.number) {
        return Err("E09");
    }
    Ok(())
}

// E01 and E03 to E12: the target period where none applies.
fn ruled(plan: &Plan, agent: &Agent, transaction: &Transaction, sale: Option<&Item>) -> Result<u32, &'static str> {
    let Document { airline, number, .. } = transaction.document;
    let refuse_if = |applies: bool, code| if applies { Err(code) } else { Ok(()) };
    refuse_if(!plan.has_airline(airline), "E01")?;
    let mut documents = [Some(transaction.document), transaction.related].into_iter().flatten();
    refuse_if(!documents.all(|document| document.has_check_digit()), "E03")?;
    refuse_if(plan.day < transaction.issued, "E04")?;
    refuse_if(!agent.has_in_stock(number), "E05")?;
    let is_cancelled = agent.items.contains_key(&(number, true));
    refuse_if(is_cancelled || transaction.code != Code::Canx && sale.is_some(), "E06")?;
    match &transaction.amounts {
        Some(amounts) => {
            let rate = plan.rate(airline, transaction.issued);
            refuse_if(!has_right_amounts(transaction, amounts, rate), "E07")?;
            if let Some(related) = &transaction.related {
                judge_relation(agent, transaction, amounts, related)?;
            }
        }
        None => judge_canx(plan, agent, transaction, sale)?,
    }
    let target = plan.target(transaction.issued).ok_or("E10")?;
    refuse_if(agent.count((airline, target)) >= plan.limit, "E11")?;
    Ok(target)
}

// The verdict over the rows of the owner, who reports or whose code the transaction bears.
pub fn judge(book: &Book, owner: u32, transaction: &Transaction) -> Verdict {
    let agent = book.agents.get(&owner).filter(|_| owner == transaction.agent);
    let Some(agent) = agent else {
        return Verdict::Refused("E02");
    };
    let number = transaction.document.number;
    let sale = agent.items.get(&(number, false));
    let own = if transaction.code == Code::Canx { agent.items.get(&(number, true)) } else { sale };
    if let Some(item) = own.filter(|item| item.transaction == *transaction) {
        return Verdict::Held(item.period);
    }
    match ruled(&book.plan, agent, transaction, sale) {
        Ok(period) => Verdict::Accepted(period),
        Err(code) => Verdict::Refused(code),
    }
}

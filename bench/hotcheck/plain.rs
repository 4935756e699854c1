// A plain Rust twin of `bsp_office hotcheck FILE`, written for speed: the same report and the same
// statuses, in one pass.
use program::{Output, write_money};
use reader::{alnum, day, digits, digits_only, next_record, spaces, taxes, zoned};
use std::io::{self, Write};
use std::process::ExitCode;

#[path = "../plain_program.rs"]
mod program;
#[path = "../read_ret/plain.rs"]
#[allow(dead_code)]
mod reader;

const CODES: [&[u8]; 5] = [b"TKTT", b"RFND", b"CANX", b"ADMA", b"ACMA"];
const CANX: usize = 2;

#[derive(Clone, Copy, Default)]
struct Sums {
    documents: u64,
    cash: i64,
    credit: i64,
    commission: i64,
    tax: i64,
}

impl Sums {
    fn add(&mut self, other: Sums) {
        self.documents += other.documents;
        self.cash += other.cash;
        self.credit += other.credit;
        self.commission += other.commission;
        self.tax += other.tax;
    }

    fn net(&self) -> i64 {
        self.cash - self.commission - self.tax
    }

    // whether the characters are these totals, with the tax in form 2, and spaces behind them
    fn are(&self, text: &[u8], is_taxed: bool) -> bool {
        let total = |from: usize| zoned(&text[from..from + 15]);
        digits(&text[..8]) == Some(self.documents)
            && total(8) == Some(self.cash)
            && total(23) == Some(self.credit)
            && total(38) == Some(self.commission)
            && total(53) == Some(self.net())
            && (!is_taxed || total(68) == Some(self.tax))
            && spaces(&text[if is_taxed { 83 } else { 68 }..])
    }
}

#[derive(Clone, Copy, PartialEq)]
enum Last {
    Document,
    Amounts,
    // in form 2 the tax is still to come
    Untaxed,
    Commission,
    Related,
    SecondRelated,
    Cash,
    Credit,
    Exchange,
}

#[derive(Clone, Copy)]
enum Place {
    Start,
    Headed,
    Between,
    Opened,
    Begun,
    InDocument { code: usize, last: Last, related: bool },
    Totalled(usize),
    Closed,
    Ended,
}

fn is_complete(code: usize, last: Last, related: bool) -> bool {
    match code {
        0 => last == Last::Exchange || matches!(last, Last::Cash | Last::Credit) && !related,
        1 => matches!(last, Last::Cash | Last::Credit),
        CANX => last == Last::Document,
        _ => last == Last::Cash,
    }
}

struct Checker<'a> {
    records: u64,
    place: Place,
    is_taxed: bool,
    // the number of the last BKS45
    related: &'a [u8],
    airline: &'a [u8],
    period: &'a [u8],
    currency: &'a [u8],
    offices: u64,
    transactions: u64,
    file: Sums,
    agent: &'a [u8],
    codes: [Sums; 5],
    latest: Option<(usize, &'a [u8])>,
}

impl<'a> Checker<'a> {
    fn new() -> Self {
        Checker {
            records: 0,
            place: Place::Start,
            is_taxed: false,
            related: b"",
            airline: b"",
            period: b"",
            currency: b"",
            offices: 0,
            transactions: 0,
            file: Sums::default(),
            agent: b"",
            codes: [Sums::default(); 5],
            latest: None,
        }
    }

    fn file_header(&mut self, line: &'a [u8]) -> bool {
        let Place::Start = self.place else { return false };
        self.airline = &line[13..16];
        self.period = &line[16..21];
        self.currency = &line[27..30];
        self.is_taxed = &line[30..37] == b"PROD002";
        self.place = Place::Headed;
        digits_only(&line[13..21])
            && day(&line[21..27])
            && self.currency.iter().all(u8::is_ascii_uppercase)
            && (self.is_taxed || &line[30..37] == b"PROD001")
            && spaces(&line[37..])
    }

    fn period_header(&mut self, line: &[u8]) -> bool {
        let Place::Headed = self.place else { return false };
        self.place = Place::Between;
        &line[13..18] == self.period
            && line[18..36].chunks(6).all(day)
            && spaces(&line[36..])
    }

    fn office_header(&mut self, line: &'a [u8]) -> bool {
        let Place::Between = self.place else { return false };
        let before = std::mem::replace(&mut self.agent, &line[13..21]);
        self.place = Place::Opened;
        before < self.agent
            && digits_only(self.agent)
            && &line[21..26] == self.period
            && &line[26..29] == self.currency
            && spaces(&line[29..])
    }

    fn transaction_header(&mut self, line: &[u8]) -> bool {
        let may_begin = match self.place {
            Place::Opened => true,
            Place::InDocument { code, last, related } => is_complete(code, last, related),
            _ => false,
        };
        self.transactions += 1;
        self.place = Place::Begun;
        may_begin && self.is_numbered(line) && &line[21..24] == self.airline && spaces(&line[24..])
    }

    fn is_numbered(&self, line: &[u8]) -> bool {
        digits(&line[13..21]) == Some(self.transactions)
    }

    fn document(&mut self, line: &'a [u8]) -> bool {
        let Place::Begun = self.place else { return false };
        let Some(code) = CODES.iter().position(|code| *code == &line[38..42]) else {
            return false;
        };
        let key = (code, &line[27..37]);
        let is_later = self.latest.is_none_or(|before| before < key);
        self.latest = Some(key);
        self.place = Place::InDocument { code, last: Last::Document, related: false };
        self.codes[code].documents += 1;
        is_later
            && self.is_numbered(line)
            && day(&line[21..27])
            && digits_only(&line[27..38])
            && &line[42..50] == self.agent
            && spaces(&line[99..])
    }

    fn amounts(&mut self, line: &[u8]) -> bool {
        let Place::InDocument { code, last: Last::Document, related } = self.place else {
            return false;
        };
        self.place = Place::InDocument { code, last: Last::Amounts, related };
        code != CANX
            && self.is_numbered(line)
            && zoned(&line[21..32]).is_some()
            && if code < CANX { taxes(&line[14..]) } else { spaces(&line[32..110]) }
            && spaces(&line[110..])
    }

    fn commission(&mut self, line: &[u8]) -> bool {
        let Place::InDocument { code, last: Last::Amounts, related } = self.place else {
            return false;
        };
        let Some(amount) = zoned(&line[26..37]) else { return false };
        let last = if self.is_taxed { Last::Untaxed } else { Last::Commission };
        self.place = Place::InDocument { code, last, related };
        self.codes[code].commission += amount;
        code < CANX
            && self.is_numbered(line)
            && digits(&line[21..26]).is_some_and(|rate| rate <= 10_000)
            && spaces(&line[37..])
    }

    fn tax(&mut self, line: &[u8]) -> bool {
        let Place::InDocument { code, last: Last::Untaxed, related } = self.place else {
            return false;
        };
        let Some(amount) = zoned(&line[26..37]) else { return false };
        self.place = Place::InDocument { code, last: Last::Commission, related };
        self.codes[code].tax += amount;
        self.is_numbered(line)
            && digits(&line[21..26]).is_some_and(|hundredths| hundredths <= 10_000)
            && spaces(&line[37..])
    }

    fn related(&mut self, line: &'a [u8]) -> bool {
        let Place::InDocument { code, last, .. } = self.place else { return false };
        let number = &line[24..34];
        let (is_allowed, next) = match last {
            Last::Commission => (true, Last::Related),
            Last::Related => (code == 0 && self.related < number, Last::SecondRelated),
            _ => return false,
        };
        self.related = number;
        self.place = Place::InDocument { code, last: next, related: true };
        is_allowed
            && self.is_numbered(line)
            && &line[21..24] == self.airline
            && digits_only(&line[24..35])
            && spaces(&line[35..])
    }

    fn payment(&mut self, line: &[u8]) -> bool {
        let Place::InDocument { code, last, related } = self.place else { return false };
        let Some(amount) = zoned(&line[23..34]) else { return false };
        let (allowed, next) = match &line[21..23] {
            b"CA" => {
                self.codes[code].cash += amount;
                let allowed = match code {
                    0 => matches!(last, Last::Commission | Last::Related | Last::SecondRelated),
                    1 => last == Last::Related,
                    _ => last == Last::Amounts,
                };
                (allowed && spaces(&line[34..36]), Last::Cash)
            }
            b"CC" => {
                self.codes[code].credit += amount;
                let allowed = match code {
                    0 => matches!(last, Last::Commission | Last::Related | Last::SecondRelated | Last::Cash),
                    1 => matches!(last, Last::Related | Last::Cash),
                    _ => false,
                };
                (allowed && alnum(&line[34..36]), Last::Credit)
            }
            b"EX" => {
                let allowed = code == 0
                    && related
                    && matches!(last, Last::Related | Last::SecondRelated | Last::Cash | Last::Credit);
                (allowed && spaces(&line[34..36]), Last::Exchange)
            }
            _ => return false,
        };
        self.place = Place::InDocument { code, last: next, related };
        allowed && self.is_numbered(line) && spaces(&line[36..])
    }

    // the first code from this one on that has a document
    fn next_code(&self) -> Option<usize> {
        let first = match self.place {
            Place::InDocument { code, last, related } if is_complete(code, last, related) => 0,
            Place::Totalled(code) => code + 1,
            _ => return None,
        };
        (first..CODES.len()).find(|code| self.codes[*code].documents > 0)
    }

    fn code_totals(&mut self, line: &[u8]) -> bool {
        let Some(code) = self.next_code() else { return false };
        self.place = Place::Totalled(code);
        &line[13..21] == self.agent
            && &line[21..25] == CODES[code]
            && self.codes[code].are(&line[25..], self.is_taxed)
    }

    fn office_totals(&mut self, line: &[u8]) -> bool {
        let (Place::Totalled(_), None) = (self.place, self.next_code()) else { return false };
        let mut office = Sums::default();
        for sums in std::mem::take(&mut self.codes) {
            office.add(sums);
        }
        self.file.add(office);
        self.offices += 1;
        self.latest = None;
        self.place = Place::Between;
        &line[13..21] == self.agent && office.are(&line[21..], self.is_taxed)
    }

    fn period_totals(&mut self, line: &[u8]) -> bool {
        let Place::Between = self.place else { return false };
        self.place = Place::Closed;
        &line[13..18] == self.period
            && digits(&line[18..26]) == Some(self.offices)
            && self.file.are(&line[26..], self.is_taxed)
    }

    fn file_totals(&mut self, line: &[u8]) -> bool {
        let Place::Closed = self.place else { return false };
        self.place = Place::Ended;
        &line[13..16] == self.airline
            && digits(&line[16..24]) == Some(self.records)
            && self.file.are(&line[24..], self.is_taxed)
    }

    fn record(&mut self, line: &'a [u8]) -> bool {
        self.records += 1;
        if digits(&line[3..11]) != Some(self.records) {
            return false;
        }
        match (&line[..3], &line[11..13]) {
            (b"BFH", b"01") => self.file_header(line),
            (b"BCH", b"02") => self.period_header(line),
            (b"BOH", b"03") => self.office_header(line),
            (b"BKT", b"06") => self.transaction_header(line),
            (b"BKS", b"24") => self.document(line),
            (b"BKS", b"30") => self.amounts(line),
            (b"BKS", b"39") => self.commission(line),
            (b"BKS", b"42") => self.tax(line),
            (b"BKS", b"45") => self.related(line),
            (b"BKP", b"84") => self.payment(line),
            (b"BOT", b"93") => self.code_totals(line),
            (b"BOT", b"94") => self.office_totals(line),
            (b"BCT", b"95") => self.period_totals(line),
            (b"BFT", b"99") => self.file_totals(line),
            _ => false,
        }
    }
}

// the checker at the end of the text, or the record at fault
fn check(bytes: &[u8]) -> Result<Checker<'_>, u64> {
    let mut checker = Checker::new();
    let mut rest = bytes;
    while !rest.is_empty() {
        let Some((line, after)) = next_record(rest) else {
            return Err(checker.records + 1);
        };
        if !checker.record(line) {
            return Err(checker.records);
        }
        rest = after;
    }
    match checker.place {
        Place::Ended => Ok(checker),
        _ => Err(checker.records + 1),
    }
}

fn report(bytes: &[u8], out: &mut Output) -> io::Result<u8> {
    match check(bytes) {
        Ok(checker) => {
            write!(out, "OK records {} documents {} net ", checker.records, checker.file.documents)?;
            write_money(out, checker.file.net())?;
            out.write_all(b"\n")?;
            Ok(0)
        }
        Err(record) => {
            writeln!(out, "H04 record {record}")?;
            Ok(1)
        }
    }
}

fn main() -> ExitCode {
    program::run(report)
}

// A transaction, read from the records of its group, which the reader has judged.
use crate::reader::{Group, digits, next_record, zoned};

#[derive(Clone, Copy, PartialEq, Eq)]
pub enum Code {
    Tktt,
    Rfnd,
    Canx,
}

#[derive(Clone, Copy, PartialEq, Eq)]
pub struct Document {
    pub airline: u16,
    pub number: u64,
    pub check_digit: u8,
}

#[derive(Clone, Copy, PartialEq, Eq)]
pub struct Tax {
    pub code: [u8; 2],
    pub amount: i64,
}

#[derive(Clone, Copy, PartialEq, Eq)]
pub struct Amounts {
    pub fare: i64,
    pub taxes: [Option<Tax>; 6],
    pub rate: u16,
    pub commission: i64,
}

#[derive(Clone, Copy, PartialEq, Eq)]
pub struct Card {
    pub vendor: [u8; 2],
    pub amount: i64,
}

// Its content: all but its number in the file. A day is YYMMDD as a number.
#[derive(Clone, Copy, PartialEq, Eq)]
pub struct Transaction {
    pub code: Code,
    pub agent: u32,
    pub document: Document,
    pub issued: u32,
    pub passenger: [u8; 49],
    pub related: Option<Document>,
    pub amounts: Option<Amounts>,
    pub cash: Option<i64>,
    pub credit: Option<Card>,
    pub exchange: Option<i64>,
}

impl Document {
    fn read(text: &[u8]) -> Option<Document> {
        Some(Document {
            airline: digits(&text[..3])? as u16,
            number: digits(&text[3..13])?,
            check_digit: text[13] - b'0',
        })
    }

    pub fn has_check_digit(&self) -> bool {
        self.number % 7 == u64::from(self.check_digit)
    }
}

impl Amounts {
    fn read(line: &[u8]) -> Option<Amounts> {
        let mut taxes = [None; 6];
        for (tax, place) in taxes.iter_mut().zip(line[18..96].chunks(13)) {
            if place[0] == b' ' {
                break;
            }
            *tax = Some(Tax { code: [place[0], place[1]], amount: zoned(&place[2..])? });
        }
        Some(Amounts {
            fare: zoned(&line[7..18])?,
            taxes,
            rate: digits(&line[96..101])? as u16,
            commission: zoned(&line[101..112])?,
        })
    }

    pub fn gross(&self) -> i64 {
        self.fare + self.taxes.iter().flatten().map(|tax| tax.amount).sum::<i64>()
    }
}

impl Transaction {
    fn of_sale(line: &[u8]) -> Option<Transaction> {
        Some(Transaction {
            code: match line[7] {
                b'T' => Code::Tktt,
                b'R' => Code::Rfnd,
                _ => Code::Canx,
            },
            agent: digits(&line[11..19])? as u32,
            document: Document::read(&line[19..33])?,
            issued: digits(&line[33..39])? as u32,
            passenger: line[39..88].try_into().ok()?,
            related: None,
            amounts: None,
            cash: None,
            credit: None,
            exchange: None,
        })
    }

    fn add(&mut self, line: &[u8]) -> Option<()> {
        match (line[0], &line[7..9]) {
            (b'3', _) => self.related = Some(Document::read(&line[7..21])?),
            (b'5', _) => self.amounts = Some(Amounts::read(line)?),
            (_, b"CA") => self.cash = Some(zoned(&line[9..20])?),
            (_, b"CC") => {
                let vendor = [line[20], line[21]];
                self.credit = Some(Card { vendor, amount: zoned(&line[9..20])? });
            }
            _ => self.exchange = Some(zoned(&line[9..20])?),
        }
        Some(())
    }

    pub fn read(group: &Group<'_>) -> Option<Transaction> {
        let (line, mut rest) = next_record(group.text)?;
        let mut transaction = Transaction::of_sale(line)?;
        while !rest.is_empty() {
            let (line, after) = next_record(rest)?;
            transaction.add(line)?;
            rest = after;
        }
        Some(transaction)
    }

    pub fn paid(&self) -> i64 {
        self.cash.unwrap_or(0) + self.credit.map_or(0, |card| card.amount) + self.exchange.unwrap_or(0)
    }
}

// A plain Rust writer of HOT files over items in memory that does the work of write_hot: the rows of an
// airline and a period, their order, the records, and the totals of codes, offices and the file. The items are
// those of the other program of run.sh. For each number of items it prints five times: the time in
// microseconds, the bytes written and their checksum. A number behind `taxed` is of items with a tax on commission, whose
// file is of form 2.
use std::time::Instant;

#[derive(Clone, Copy, PartialEq)]
enum Code {
    Tktt,
    Rfnd,
    Canx,
}

#[derive(Clone, Copy)]
struct Tax {
    code: [u8; 2],
    amount: i64,
}

#[derive(Clone, Copy)]
struct Document {
    airline: u16,
    number: [u8; 10],
    check_digit: u8,
}

#[derive(Clone, Copy)]
struct Amounts {
    fare: i64,
    taxes: [Option<Tax>; 6],
    rate: u16,
    commission: i64,
}

#[derive(Clone, Copy)]
struct Item {
    agent: u32,
    period: u32,
    code: Code,
    document: Document,
    issued: [u8; 6],
    passenger: [u8; 49],
    related: [Option<Document>; 2],
    amounts: Option<Amounts>,
    cash: Option<i64>,
    credit: Option<(i64, [u8; 2])>,
    exchange: Option<i64>,
    lives: bool,
    tax: i64,
    hundredths: u16,
}

#[derive(Clone, Copy, Default)]
struct Sums {
    documents: usize,
    cash: i128,
    credit: i128,
    commission: i128,
    tax: i128,
}

impl Sums {
    fn add(&mut self, other: &Sums) {
        self.documents += other.documents;
        self.cash += other.cash;
        self.credit += other.credit;
        self.commission += other.commission;
        self.tax += other.tax;
    }
}

fn digits<const N: usize>(mut number: u64) -> [u8; N] {
    let mut text = [b'0'; N];
    for place in text.iter_mut().rev() {
        *place = b'0' + (number % 10) as u8;
        number /= 10;
    }
    text
}

fn zoned<const N: usize>(value: i128) -> [u8; N] {
    let size = value.unsigned_abs() as u64;
    let mut text = digits::<N>(size);
    text[N - 1] = match (value < 0, size % 10) {
        (false, 0) => b'{',
        (false, last) => b'A' + last as u8 - 1,
        (true, 0) => b'}',
        (true, last) => b'J' + last as u8 - 1,
    };
    text
}

fn total(value: i128) -> Option<[u8; 15]> {
    (value.unsigned_abs() <= 999_999_999_999_999).then(|| zoned::<15>(value))
}

fn count(value: usize) -> Option<[u8; 8]> {
    (value <= 99_999_999).then(|| digits::<8>(value as u64))
}

struct Output {
    text: Vec<u8>,
    records: usize,
    is_taxed: bool,
}

impl Output {
    fn record(&mut self, letters: &[u8], name: &[u8], fields: &[&[u8]]) {
        let begun = self.text.len();
        self.records += 1;
        self.text.extend_from_slice(letters);
        self.text.extend_from_slice(&digits::<8>(self.records as u64));
        self.text.extend_from_slice(name);
        for field in fields {
            self.text.extend_from_slice(field);
        }
        self.text.resize(begun + 136, b' ');
        self.text.push(b'\n');
    }

    fn totals(&mut self, letters: &[u8], name: &[u8], first: &[u8], second: &[u8], sums: &Sums) -> Option<()> {
        let fields: [&[u8]; 8] = [
            first,
            second,
            &count(sums.documents)?,
            &total(sums.cash)?,
            &total(sums.credit)?,
            &total(sums.commission)?,
            &total(sums.cash - sums.commission - sums.tax)?,
            &total(sums.tax)?,
        ];
        self.record(letters, name, &fields[..if self.is_taxed { 8 } else { 7 }]);
        Some(())
    }

    fn amounts(&mut self, number: &[u8], amounts: &Amounts) {
        let mut taxes = [b' '; 78];
        for (place, tax) in taxes.chunks_mut(13).zip(amounts.taxes) {
            if let Some(tax) = tax {
                place[..2].copy_from_slice(&tax.code);
                place[2..].copy_from_slice(&zoned::<11>(tax.amount.into()));
            }
        }
        self.record(b"BKS", b"30", &[number, &zoned::<11>(amounts.fare.into()), &taxes]);
        let commission = zoned::<11>(amounts.commission.into());
        self.record(b"BKS", b"39", &[number, &digits::<5>(amounts.rate.into()), &commission]);
    }

    fn payments(&mut self, number: &[u8], item: &Item) {
        if let Some(paid) = item.cash {
            self.record(b"BKP", b"84", &[number, b"CA", &zoned::<11>(paid.into())]);
        }
        if let Some((paid, vendor)) = item.credit {
            self.record(b"BKP", b"84", &[number, b"CC", &zoned::<11>(paid.into()), &vendor]);
        }
        if let Some(paid) = item.exchange {
            self.record(b"BKP", b"84", &[number, b"EX", &zoned::<11>(paid.into())]);
        }
    }

    fn item(&mut self, number: u64, item: &Item) {
        let number = &digits::<8>(number);
        let airline = digits::<3>(item.document.airline.into());
        let (check, agent) = (digits::<1>(item.document.check_digit.into()), digits::<8>(item.agent.into()));
        let code: &[u8] = [b"TKTT", b"RFND", b"CANX"][item.code as usize];
        self.record(b"BKT", b"06", &[number, &airline]);
        let fields: [&[u8]; 7] = [number, &item.issued, &item.document.number, &check, code, &agent, &item.passenger];
        self.record(b"BKS", b"24", &fields);
        if item.code == Code::Canx {
            return;
        }
        if let Some(amounts) = &item.amounts {
            self.amounts(number, amounts);
        }
        if self.is_taxed {
            let tax = zoned::<11>(item.tax.into());
            self.record(b"BKS", b"42", &[number, &digits::<5>(item.hundredths.into()), &tax]);
        }
        for related in item.related.iter().flatten() {
            let airline = digits::<3>(related.airline.into());
            let check = digits::<1>(related.check_digit.into());
            self.record(b"BKS", b"45", &[number, &airline, &related.number, &check]);
        }
        self.payments(number, item);
    }

    fn office(&mut self, agent: u32, first: usize, rows: &[Row]) -> Option<Sums> {
        if rows.len() > 99_999_999 - first {
            return None;
        }
        let digits_of_agent = digits::<8>(agent.into());
        self.record(b"BOH", b"03", &[&digits_of_agent, b"24011", b"EUR"]);
        let mut codes = [Sums::default(); 3];
        for (index, row) in rows.iter().enumerate() {
            self.item((first + index + 1) as u64, row.item);
            codes[row.item.code as usize].add(&sums_of(row.item));
        }
        let mut all = Sums::default();
        for (code, sums) in [b"TKTT", b"RFND", b"CANX"].iter().zip(&codes) {
            if sums.documents > 0 {
                self.totals(b"BOT", b"93", &digits_of_agent, *code, sums)?;
            }
            all.add(sums);
        }
        self.totals(b"BOT", b"94", &digits_of_agent, b"", &all)?;
        Some(all)
    }
}

fn sums_of(item: &Item) -> Sums {
    if item.code == Code::Canx {
        return Sums { documents: 1, ..Sums::default() };
    }
    Sums {
        documents: 1,
        cash: item.cash.unwrap_or(0).into(),
        credit: item.credit.map_or(0, |(paid, _)| paid).into(),
        commission: item.amounts.map_or(0, |amounts| amounts.commission).into(),
        tax: item.tax.into(),
    }
}

struct Row<'a> {
    agent: u32,
    number: u64,
    item: &'a Item,
}

fn rows_in_order(airline: u16, period: u32, items: &[Item]) -> Vec<Row<'_>> {
    let mut rows = Vec::new();
    for item in items {
        if item.document.airline == airline && item.period == period && (item.code == Code::Canx || item.lives) {
            let number = item.document.number.iter().fold(0, |n, b| n * 10 + u64::from(b - b'0'));
            rows.push(Row { agent: item.agent, number, item });
        }
    }
    rows.sort_by_key(|row| (row.agent, row.item.code as u8, row.number));
    rows
}

fn write_hot(airline: u16, period: u32, is_taxed: bool, items: &[Item]) -> Option<Vec<u8>> {
    let rows = rows_in_order(airline, period, items);
    let mut out = Output { text: Vec::new(), records: 0, is_taxed };
    let (airline, period) = (digits::<3>(airline.into()), digits::<5>(period.into()));
    let form = if is_taxed { b"PROD002" } else { b"PROD001" };
    out.record(b"BFH", b"01", &[&airline, &period, b"240215", b"EUR", form]);
    out.record(b"BCH", b"02", &[&period, b"240101", b"240115", b"240215"]);
    let (mut file, mut offices) = (Sums::default(), 0);
    for office in rows.chunk_by(|one, other| one.agent == other.agent) {
        let sums = out.office(office[0].agent, file.documents, office)?;
        file.add(&sums);
        offices += 1;
    }
    out.totals(b"BCT", b"95", &period, &count(offices)?, &file)?;
    let records = count(out.records + 1)?;
    out.totals(b"BFT", b"99", &airline, &records, &file)?;
    Some(out.text)
}

fn item(index: u64, is_taxed: bool) -> Item {
    let front = 1_000_000 + index % 500;
    let number = 1_300_000_000 + index.wrapping_mul(7_919) % 1_000_003;
    let mut passenger = [b' '; 49];
    passenger[..8].copy_from_slice(b"DOE/JANE");
    let tax = Tax { code: *b"RA", amount: 3_500 };
    Item {
        agent: (front * 10 + front % 7) as u32,
        period: 24_011,
        code: Code::Tktt,
        document: Document { airline: 125, number: digits(number), check_digit: 0 },
        issued: *b"240105",
        passenger,
        related: [None, None],
        amounts: Some(Amounts { fare: 20_000, taxes: [Some(tax), None, None, None, None, None], rate: 500, commission: 1_000 }),
        cash: Some(23_500),
        credit: None,
        exchange: None,
        lives: true,
        tax: if is_taxed { 190 } else { 0 },
        hundredths: if is_taxed { 1_900 } else { 0 },
    }
}

fn checksum(bytes: &[u8]) -> u64 {
    bytes.iter().fold(0, |sum: u64, byte| (sum ^ u64::from(*byte)).wrapping_mul(1_099_511_628_211))
}

fn main() {
    let mut is_taxed = false;
    for text in std::env::args().skip(1) {
        if text == "taxed" {
            is_taxed = true;
            continue;
        }
        let count = text.parse().expect("a number of items");
        let items: Vec<Item> = (0..count).map(|index| item(index, is_taxed)).collect();
        let name = if is_taxed { "plain_taxed" } else { "plain" };
        for _ in 0..5 {
            let begun = Instant::now();
            let written = write_hot(125, 24_011, is_taxed, &items).expect("a file");
            let took = begun.elapsed().as_micros();
            println!("{name} {} {took} {} {}", items.len(), written.len(), checksum(&written));
        }
    }
}

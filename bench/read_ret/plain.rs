// A plain Rust reader of RET files, written for speed, that does the work of read_ret: lines, fields,
// order, sums, and the list of the transactions' records. It reads all codes and forms, and tells the first fault.
use std::io::Read;
use std::time::Instant;

pub const WIDTH: usize = 136;

#[derive(Clone, Copy, PartialEq)]
enum Last {
    Start,
    Header,
    Sale,
    Related,
    Amounts,
    Form(u8),
    Trailer,
}

// Whether each character lies from one to another. It looks at all of them, so that the compiler tests
// many at once.
#[inline(always)]
fn within(t: &[u8], from: u8, to: u8) -> bool {
    let mut others = false;
    for b in t {
        others |= b.wrapping_sub(from) > to - from;
    }
    !others
}

#[inline(always)]
pub fn digits_only(t: &[u8]) -> bool {
    within(t, b'0', b'9')
}

#[inline(always)]
pub fn spaces(t: &[u8]) -> bool {
    t == &[b' '; WIDTH][..t.len()]
}

#[inline(always)]
pub fn digits(t: &[u8]) -> Option<u64> {
    if !digits_only(t) {
        return None;
    }
    let mut n = 0;
    for b in t {
        n = n * 10 + u64::from(b - b'0');
    }
    Some(n)
}

#[inline(always)]
pub fn zoned(t: &[u8]) -> Option<i64> {
    let (last, front) = t.split_last()?;
    let (digit, minus) = match last {
        b'0'..=b'9' => (last - b'0', false),
        b'{' => (0, false),
        b'A'..=b'I' => (last - b'A' + 1, false),
        b'}' => (0, true),
        b'J'..=b'R' => (last - b'J' + 1, true),
        _ => return None,
    };
    let size = digits(front)? as i64 * 10 + i64::from(digit);
    Some(if minus { -size } else { size })
}

// The first line and what is behind it and its end, where the line is a record. Most records end in LF
// at column 137, which is looked at first.
#[inline(always)]
pub fn next_record(bytes: &[u8]) -> Option<(&[u8], &[u8])> {
    if bytes.len() > WIDTH && bytes[WIDTH] == b'\n' && within(&bytes[..WIDTH], b' ', b'~') {
        return Some((&bytes[..WIDTH], &bytes[WIDTH + 1..]));
    }
    other_record(bytes)
}

// The same, for a record that ends otherwise.
#[cold]
fn other_record(bytes: &[u8]) -> Option<(&[u8], &[u8])> {
    let (line, rest) = match bytes.iter().position(|b| *b == b'\n') {
        Some(end) => {
            let line = &bytes[..end];
            (line.strip_suffix(b"\r").unwrap_or(line), &bytes[end + 1..])
        }
        None => (bytes, &bytes[bytes.len()..]),
    };
    let is_record = line.len() == WIDTH && within(line, b' ', b'~');
    is_record.then_some((line, rest))
}

#[inline(always)]
pub fn day(t: &[u8]) -> bool {
    let (Some(y), Some(m), Some(d)) = (digits(&t[..2]), digits(&t[2..4]), digits(&t[4..6])) else {
        return false;
    };
    let days = match m {
        1 | 3 | 5 | 7 | 8 | 10 | 12 => 31,
        4 | 6 | 9 | 11 => 30,
        2 if y % 4 == 0 => 29,
        2 => 28,
        _ => 0,
    };
    1 <= d && d <= days
}

#[inline(always)]
pub fn alnum(t: &[u8]) -> bool {
    t.iter().all(|b| b.is_ascii_digit() || b.is_ascii_uppercase())
}

fn sale(l: &[u8]) -> bool {
    matches!(&l[7..11], b"TKTT" | b"RFND" | b"CANX") && digits_only(&l[11..33]) && day(&l[33..39]) && spaces(&l[88..])
}

#[inline(always)]
pub fn taxes(l: &[u8]) -> bool {
    let mut before = 0;
    for at in (18..96).step_by(13) {
        let place = &l[at..at + 13];
        if place[0] == b' ' {
            return spaces(&l[at..96]);
        }
        let code = u16::from_be_bytes([place[0], place[1]]);
        if code <= before || !alnum(&place[..2]) || zoned(&place[2..]).is_none() {
            return false;
        }
        before = code;
    }
    true
}

fn amounts(l: &[u8]) -> bool {
    zoned(&l[7..18]).is_some()
        && taxes(l)
        && digits(&l[96..101]).is_some_and(|r| r <= 10000)
        && zoned(&l[101..112]).is_some()
        && spaces(&l[112..])
}

fn form(l: &[u8]) -> u8 {
    match &l[7..9] {
        b"CA" => 1,
        b"CC" => 2,
        b"EX" => 3,
        _ => 0,
    }
}

// The amount of a record 8 whose fields fit.
#[inline(always)]
fn payment(l: &[u8], form: u8) -> Option<i64> {
    let vendor = match form {
        0 => return None,
        2 => alnum(&l[20..22]),
        _ => spaces(&l[20..22]),
    };
    if !vendor || !spaces(&l[22..]) {
        return None;
    }
    zoned(&l[9..20])
}

fn header(l: &[u8]) -> bool {
    alnum(&l[1..5])
        && day(&l[5..11])
        && digits(&l[11..13]).is_some_and(|h| h <= 23)
        && digits(&l[13..15]).is_some_and(|m| m <= 59)
        && l[15..17].iter().all(u8::is_ascii_uppercase)
        && digits_only(&l[17..23])
        && spaces(&l[30..])
}

// The records of a transaction, and the sum of its forms.
pub struct Group<'a> {
    pub text: &'a [u8],
    pub sum: i64,
}

pub struct RetFile<'a> {
    pub groups: Vec<Group<'a>>,
    pub records: usize,
    pub sum: i64,
}

struct Reader<'a> {
    groups: Vec<Group<'a>>,
    records: usize,
    count: u64,
    sum: i64,
    last: Last,
    code: u8,
    related: bool,
    begun: &'a [u8],
    paid: i64,
}

impl<'a> Reader<'a> {
    fn is_complete(&self) -> bool {
        match self.last {
            Last::Header | Last::Form(3) => true,
            Last::Sale => self.code == b'C',
            Last::Form(_) => self.code != b'T' || !self.related,
            _ => false,
        }
    }

    fn close(&mut self, rest: &[u8]) {
        if self.count > 0 {
            let text = &self.begun[..self.begun.len() - rest.len()];
            self.groups.push(Group { text, sum: self.paid });
        }
    }

    fn header(&mut self, line: &[u8]) -> Result<(), u8> {
        if line[0] != b'1' || &line[27..30] != b"001" {
            return Err(2);
        }
        if &line[23..27] != b"PROD" {
            return Err(4);
        }
        if !header(line) {
            return Err(5);
        }
        self.last = Last::Header;
        Ok(())
    }

    fn has_form(&self, form: u8) -> bool {
        form != 3 || self.code == b'T' && self.related
    }

    fn takes_form(&self, form: u8) -> bool {
        match (self.last, form) {
            (Last::Amounts, 0) => true,
            (Last::Amounts, form) => self.has_form(form),
            (Last::Form(before), 0) => before == 1 || before == 2 && self.has_form(3),
            (Last::Form(before), form) => before < form && self.has_form(form),
            _ => false,
        }
    }

    #[inline(always)]
    fn later(&mut self, line: &'a [u8], rest: &'a [u8]) -> Result<(), u8> {
        let is_of = |count| digits(&line[1..7]) == Some(count);
        match line[0] {
            b'2' if self.is_complete() && is_of(self.count + 1) => {
                if !sale(line) {
                    return Err(5);
                }
                self.close(rest);
                self.begun = rest;
                self.paid = 0;
                self.count += 1;
                self.code = line[7];
                self.related = false;
                self.last = Last::Sale;
            }
            b'3' if self.last == Last::Sale && self.code != b'C' && is_of(self.count) => {
                if !digits_only(&line[7..21]) || !spaces(&line[21..]) {
                    return Err(5);
                }
                self.related = true;
                self.last = Last::Related;
            }
            b'5' if (self.last == Last::Related || self.last == Last::Sale && self.code == b'T')
                && is_of(self.count) =>
            {
                if !amounts(line) {
                    return Err(5);
                }
                self.last = Last::Amounts;
            }
            b'8' if self.takes_form(form(line)) && is_of(self.count) => {
                let form = form(line);
                let amount = payment(line, form).ok_or(5)?;
                self.paid += amount;
                self.sum += amount;
                self.last = Last::Form(form);
            }
            b'Z' if self.is_complete() => self.trailer(line, rest)?,
            _ => return Err(3),
        }
        Ok(())
    }

    fn trailer(&mut self, line: &[u8], rest: &[u8]) -> Result<(), u8> {
        let sum = zoned(&line[15..30]);
        if !digits_only(&line[1..15]) || sum.is_none() || !spaces(&line[30..]) {
            return Err(5);
        }
        let records = self.records as u64 + 1;
        if digits(&line[1..8]) != Some(records) || digits(&line[8..15]) != Some(self.count) {
            return Err(6);
        }
        if sum != Some(self.sum) {
            return Err(7);
        }
        self.close(rest);
        self.last = Last::Trailer;
        Ok(())
    }

    fn record(&mut self, rest: &'a [u8]) -> Result<&'a [u8], u8> {
        if self.last == Last::Trailer {
            return Err(9);
        }
        let (line, after) = next_record(rest).ok_or(1)?;
        if self.last == Last::Start {
            self.header(line)?;
        } else {
            self.later(line, rest)?;
        }
        self.records += 1;
        Ok(after)
    }
}

// The file, or a row of the fault table and the number of its record. A sum of a file of up to
// 1,073,741,824 bytes fits an i64.
pub fn read(bytes: &[u8]) -> Result<RetFile<'_>, (u8, usize)> {
    let mut reader = Reader {
        groups: Vec::new(),
        records: 0,
        count: 0,
        sum: 0,
        last: Last::Start,
        code: b'T',
        related: false,
        begun: bytes,
        paid: 0,
    };
    let mut rest = bytes;
    while !rest.is_empty() {
        rest = reader.record(rest).map_err(|code| (code, reader.records + 1))?;
    }
    if reader.last != Last::Trailer {
        return Err((8, reader.records + 1));
    }
    Ok(RetFile { groups: reader.groups, records: reader.records, sum: reader.sum })
}

// A text that comes in pieces, put together and then read.
fn read_pieces(bytes: &[u8]) -> String {
    let mut text = Vec::new();
    for piece in bytes.chunks(65_536) {
        text.extend_from_slice(piece);
    }
    outcome_text(read(&text))
}

fn outcome_text(outcome: Result<RetFile<'_>, (u8, usize)>) -> String {
    match outcome {
        Ok(file) => format!("transactions {}", file.groups.len()),
        Err((code, at)) => format!("F{code:02} record {at}"),
    }
}

// The best of five, in microseconds, and what the reading said.
fn best_of(reading: impl Fn() -> String) -> (u128, String) {
    let mut best = u128::MAX;
    let mut said = String::new();
    for _ in 0..5 {
        let begun = Instant::now();
        said = reading();
        best = best.min(begun.elapsed().as_micros());
    }
    (best, said)
}

fn main() {
    let mut bytes = Vec::new();
    std::io::stdin().read_to_end(&mut bytes).unwrap();
    let (best, said) = best_of(|| outcome_text(read(&bytes)));
    let (fed, _) = best_of(|| read_pieces(&bytes));
    println!("{said} in {best} us, in pieces in {fed} us");
}

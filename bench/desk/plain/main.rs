// A plain Rust desk for RET files, written for speed: the same rules and the same replies, over std's maps. It reads
// the requests of ../make_requests.py, takes over what registers callers, allots ranges, sets the day and closes,
// and times the RET files alone.
use book::{Book, NoRoom};
use plan::{Plan, day, number};
use std::io::{self, Write};
use std::path::Path;
use std::time::Instant;
use std::{env, fs};
use transaction::Transaction;
use verdict::{Verdict, judge};

mod book;
mod plan;
#[path = "../../read_ret/plain.rs"]
#[allow(dead_code)]
mod reader;
mod transaction;
mod verdict;

const OFFICE: &[u8] = b"officetoken00001";

// The text of a key of a JSON object, as the requests write it.
fn text_at<'a>(body: &'a str, key: &str) -> &'a str {
    let mut words = body.split('"');
    words.find(|word| *word == key);
    words.nth(1).unwrap_or("")
}

fn set_up(book: &mut Book, path: &str, body: &str) {
    let agent = number(text_at(body, "agent")) as u32;
    match path {
        "/office/plan" => book.plan = Plan::read(body),
        "/office/day" => book.plan.day = day(text_at(body, "day")),
        "/office/close" => book.plan.closed += 1,
        "/office/agents" => book.agents.entry(agent).or_default().token = text_at(body, "token").into(),
        "/office/stock/allot" => {
            let ranges = &mut book.agents.entry(agent).or_default().ranges;
            ranges.insert(number(text_at(body, "first")), number(text_at(body, "last")));
        }
        _ => {}
    }
}

fn push_number(text: &mut Vec<u8>, mut value: usize) {
    let mut digits = [0; 20];
    let mut from = digits.len();
    loop {
        from -= 1;
        digits[from] = b'0' + (value % 10) as u8;
        value /= 10;
        if value == 0 {
            break;
        }
    }
    text.extend_from_slice(&digits[from..]);
}

fn push_period(text: &mut Vec<u8>, period: u32, word: &[u8]) {
    text.extend_from_slice(b",\"period\":\"");
    push_number(text, period as usize);
    text.extend_from_slice(word);
}

fn push_verdict(text: &mut Vec<u8>, place: usize, verdict: Verdict) {
    text.extend_from_slice(b"{\"n\":");
    push_number(text, place);
    match verdict {
        Verdict::Accepted(period) => push_period(text, period, b"\",\"verdict\":\"accepted\"}"),
        Verdict::Held(period) => push_period(text, period, b"\",\"verdict\":\"held\"}"),
        Verdict::Refused(code) => {
            text.extend_from_slice(b",\"verdict\":\"");
            text.extend_from_slice(code.as_bytes());
            text.extend_from_slice(b"\"}");
        }
    }
}

// The reply to a file without fault. It grows by doubling, as no one knows its length.
fn report(book: &mut Book, reporter: Option<u32>, groups: &[reader::Group<'_>]) -> Result<Vec<u8>, NoRoom> {
    let mut text = b"{\"results\":[".to_vec();
    for (place, group) in groups.iter().enumerate() {
        let transaction = Transaction::read(group).ok_or(NoRoom)?;
        let owner = reporter.unwrap_or(transaction.agent);
        let verdict = judge(book, owner, &transaction);
        if let Verdict::Accepted(period) = verdict {
            book.accept(owner, &transaction, period)?;
        }
        if place > 0 {
            text.push(b',');
        }
        push_verdict(&mut text, place + 1, verdict);
    }
    text.extend_from_slice(b"]}");
    Ok(text)
}

// The status and the body of a reply to a RET file of an agent of this code, or of the office.
fn answer(book: &mut Book, code: Option<&str>, token: &[u8], bytes: &[u8]) -> (u16, Vec<u8>) {
    let reporter = code.map(|code| number(code) as u32);
    let own = match reporter {
        Some(agent) => book.agents.get(&agent).map(|agent| agent.token.as_slice()),
        None => Some(OFFICE),
    };
    if own != Some(token) {
        return (403, b"{\"code\":\"N01\"}".to_vec());
    }
    let file = match reader::read(bytes) {
        Ok(file) => file,
        Err((code, at)) => return (422, format!("{{\"code\":\"F{code:02}\",\"record\":{at}}}").into_bytes()),
    };
    match report(book, reporter, &file.groups) {
        Ok(text) => {
            book.commit();
            (200, text)
        }
        Err(NoRoom) => {
            book.roll_back();
            (503, b"{\"code\":\"B01\"}".to_vec())
        }
    }
}

fn bytes_of(folder: &Path, body: &str) -> io::Result<Vec<u8>> {
    match body.strip_prefix('@') {
        Some(name) => fs::read(folder.join(name)),
        None => Ok(body.as_bytes().to_vec()),
    }
}

fn main() -> io::Result<()> {
    let folder = env::args().nth(1).unwrap_or_default();
    let folder = Path::new(&folder);
    let mut book = Book::default();
    let mut replies = Vec::new();
    for line in fs::read_to_string(folder.join("requests"))?.lines() {
        let words: Vec<&str> = line.split('\t').collect();
        let [name, _, path, token, body] = words[..] else {
            continue;
        };
        let bytes = bytes_of(folder, body)?;
        let Some(reporter) = path.strip_suffix("/ret") else {
            set_up(&mut book, path, &String::from_utf8_lossy(&bytes));
            continue;
        };
        let code = reporter.strip_prefix("/agents/");
        let begun = Instant::now();
        let (status, text) = answer(&mut book, code, token.as_bytes(), &bytes);
        let took = begun.elapsed().as_nanos();
        println!("{name}\t{took}\t{status}\t{}", text.len());
        replies.write_all(&text)?;
        replies.push(b'\n');
    }
    fs::write(folder.join("plain.replies"), replies)
}

// What the plain Rust twins of the program's commands share. A twin reads the whole file, and prints
// nothing before it has judged it.
use std::fs::File;
use std::io::{self, BufWriter, Read, StdoutLock, Write};
use std::process::ExitCode;

const MOST: u64 = 1_073_741_824;

pub type Output = BufWriter<StdoutLock<'static>>;

fn read_whole(name: &str) -> io::Result<Vec<u8>> {
    let mut bytes = Vec::new();
    if name == "-" {
        io::stdin().take(MOST + 1).read_to_end(&mut bytes)?;
    } else {
        let file = File::open(name)?;
        bytes.reserve_exact(file.metadata()?.len().min(MOST + 1) as usize);
        file.take(MOST + 1).read_to_end(&mut bytes)?;
    }
    if bytes.len() as u64 > MOST {
        return Err(io::Error::other("too long"));
    }
    Ok(bytes)
}

// Writes units, a point and two digits, from the last digit to the first.
pub fn write_money(out: &mut impl Write, amount: i64) -> io::Result<()> {
    let mut text = [0; 24];
    let mut from = text.len();
    let mut left = amount.unsigned_abs();
    loop {
        if from == text.len() - 2 {
            from -= 1;
            text[from] = b'.';
        }
        from -= 1;
        text[from] = b'0' + (left % 10) as u8;
        left /= 10;
        if left == 0 && from < text.len() - 3 {
            break;
        }
    }
    if amount < 0 {
        from -= 1;
        text[from] = b'-';
    }
    out.write_all(&text[from..])
}

type Report = fn(&[u8], &mut Output) -> io::Result<u8>;

fn report_file(name: &str, report: Report) -> io::Result<u8> {
    let bytes = read_whole(name)?;
    let mut out = BufWriter::with_capacity(65_536, io::stdout().lock());
    let status = report(&bytes, &mut out)?;
    out.flush()?;
    Ok(status)
}

// Writes the report on the FILE of the command line; the exit status is that of the program.
pub fn run(report: Report) -> ExitCode {
    match std::env::args().nth(1) {
        Some(name) => ExitCode::from(report_file(&name, report).unwrap_or(3)),
        None => ExitCode::from(2),
    }
}

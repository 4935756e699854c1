// A plain Rust twin of `bsp_office check FILE`: the same report and the same statuses, by the reader
// of ../read_ret/plain.rs.
use program::{Output, write_money};
use std::io::{self, Write};
use std::process::ExitCode;

#[path = "../plain_program.rs"]
mod program;
#[path = "../read_ret/plain.rs"]
#[allow(dead_code)]
mod reader;

/// The line of a transaction, from the columns of its record 2.
fn write_group(out: &mut impl Write, group: &reader::Group<'_>) -> io::Result<()> {
    let sale = group.text;
    let mut line = *b"000000 CODE 00000000 000-0000000000-0 2000-00-00 ";
    line[..6].copy_from_slice(&sale[1..7]);
    line[7..11].copy_from_slice(&sale[7..11]);
    line[12..20].copy_from_slice(&sale[11..19]);
    line[21..24].copy_from_slice(&sale[19..22]);
    line[25..35].copy_from_slice(&sale[22..32]);
    line[36] = sale[32];
    line[40..42].copy_from_slice(&sale[33..35]);
    line[43..45].copy_from_slice(&sale[35..37]);
    line[46..48].copy_from_slice(&sale[37..39]);
    out.write_all(&line)?;
    write_money(out, group.sum)?;
    out.write_all(b"\n")
}

fn report(bytes: &[u8], out: &mut Output) -> io::Result<u8> {
    let file = match reader::read(bytes) {
        Ok(file) => file,
        Err((code, at)) => {
            writeln!(out, "F{code:02} record {at}")?;
            return Ok(1);
        }
    };
    for group in &file.groups {
        write_group(out, group)?;
    }
    write!(out, "records {} transactions {} sum ", file.records, file.groups.len())?;
    write_money(out, file.sum)?;
    out.write_all(b"\n")?;
    Ok(0)
}

fn main() -> ExitCode {
    program::run(report)
}

// Writes the text of verdicts with the standard library alone, verdict by verdict: the best of nine, in microseconds.
use std::fmt::Write;
use std::time::Instant;

enum Verdict {
    Accepted(u32),
    Held(u32),
    Refused(&'static str),
}

fn results_text(verdicts: &[Verdict]) -> String {
    let mut text = String::from("{\"results\":[");
    for (index, verdict) in verdicts.iter().enumerate() {
        if index > 0 {
            text.push(',');
        }
        let n = index + 1;
        let _ = match verdict {
            Verdict::Accepted(period) => {
                write!(text, "{{\"n\":{n},\"period\":\"{period:05}\",\"verdict\":\"accepted\"}}")
            }
            Verdict::Held(period) => {
                write!(text, "{{\"n\":{n},\"period\":\"{period:05}\",\"verdict\":\"held\"}}")
            }
            Verdict::Refused(code) => write!(text, "{{\"n\":{n},\"verdict\":\"{code}\"}}"),
        };
    }
    text.push_str("]}");
    text
}

fn main() {
    for count in [20_000, 200_000] {
        let verdicts: Vec<Verdict> = (0..count)
            .map(|i| match i % 4 {
                0 => Verdict::Refused("E05"),
                1 => Verdict::Held(24_011),
                _ => Verdict::Accepted(24_011),
            })
            .collect();
        for _ in 0..9 {
            let begun = Instant::now();
            let text = results_text(&verdicts);
            println!("plain {count} {} {}", begun.elapsed().as_micros(), text.len());
        }
    }
}

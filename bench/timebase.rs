// timebase -t 16 in plain Rust: four columns as they stand, durations in 768ths of a whole note, nothing is refused.
mod lines;

use std::io::{self, Write};

const STEP: u64 = 768 / 16;

// The duration of a token's digits and dots.
fn lasting(token: &[u8]) -> Option<u64> {
    let start = token.iter().position(u8::is_ascii_digit)?;
    let digits = token[start..].iter().take_while(|b| b.is_ascii_digit()).count();
    let number = token[start..start + digits].iter().fold(0, |n, b| 10 * n + u64::from(b - b'0'));
    let mut added = if number == 0 { 2 * 768 } else { 768 / number };
    let mut all = added;
    for _ in token[start + digits..].iter().take_while(|b| **b == b'.') {
        added /= 2;
        all += added;
    }
    Some(all)
}

fn write_nulls(count: u64, width: usize, output: &mut impl Write) -> io::Result<()> {
    for _ in 0..count {
        for j in 0..width {
            output.write_all(if j == 0 { b"." } else { b"\t." })?;
        }
        output.write_all(b"\n")?;
    }
    Ok(())
}

fn main() -> io::Result<()> {
    let (mut lines, mut output) = lines::bytes()?;
    let mut ends: Vec<u64> = Vec::new();
    let mut time = 0;
    while let Some(line) = lines.next()? {
        let text = line.strip_suffix(b"\n").unwrap_or(line);
        if text.starts_with(b"**") {
            output.write_all(line)?;
            for (j, _) in text.split(|b| *b == b'\t').enumerate() {
                output.write_all(if j == 0 { b"*tb16" } else { b"\t*tb16" })?;
                ends.push(0);
            }
            output.write_all(b"\n")?;
            continue;
        }
        if text.starts_with(b"!") || text.starts_with(b"*") || text.starts_with(b"=") {
            output.write_all(line)?;
            continue;
        }
        let last = time;
        time = ends.iter().copied().filter(|end| *end > last).min().unwrap_or(0);
        let mut is_timed = false;
        for (j, token) in text.split(|b| *b == b'\t').enumerate() {
            if token != b"." {
                if let Some(lasting) = lasting(token) {
                    ends[j] = time + lasting;
                    is_timed = true;
                }
            }
        }
        if !is_timed {
            time = last;
            continue;
        }
        if time % STEP == 0 {
            output.write_all(line)?;
        }
        let end = ends.iter().copied().filter(|end| *end > time).min().unwrap_or(time);
        write_nulls((end - 1).saturating_sub(time) / STEP, ends.len(), &mut output)?;
    }
    output.flush()
}

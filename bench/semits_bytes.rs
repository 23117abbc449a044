// semits in Rust over bytes, made to be fast: the columns are those of the opening record, no spine is followed and nothing is refused.
mod lines;

use std::io::{self, Write};

// The semitones of the first pitch of a subtoken.
fn semits(part: &[u8]) -> Option<i32> {
    let start = part.iter().position(|b| matches!(b, b'a'..=b'g' | b'A'..=b'G'))?;
    let letter = part[start];
    let count = part[start..].iter().take_while(|b| **b == letter).count();
    let natural = match letter.to_ascii_lowercase() {
        b'c' => 0,
        b'd' => 2,
        b'e' => 4,
        b'f' => 5,
        b'g' => 7,
        b'a' => 9,
        _ => 11,
    };
    let octave = if letter.is_ascii_lowercase() { count as i32 - 1 } else { -(count as i32) };
    let mut semits = natural + 12 * octave;
    for sign in &part[start + count..] {
        match sign {
            b'#' => semits += 1,
            b'-' => semits -= 1,
            b'n' => {}
            _ => break,
        }
    }
    Some(semits)
}

fn write_token(token: &[u8], output: &mut impl Write) -> io::Result<()> {
    if token == b"." || token.starts_with(b"=") {
        return output.write_all(token);
    }
    let mut is_first = true;
    for part in token.split(|b| *b == b' ') {
        let rest = part.contains(&b'r');
        let number = if rest { None } else { semits(part) };
        if !rest && number.is_none() {
            continue;
        }
        if !is_first {
            output.write_all(b" ")?;
        }
        is_first = false;
        match number {
            None => output.write_all(b"r")?,
            Some(number) => write!(output, "{number}")?,
        }
    }
    if is_first { output.write_all(b".") } else { Ok(()) }
}

fn main() -> io::Result<()> {
    let (mut lines, mut output) = lines::bytes()?;
    let mut kern: Vec<bool> = Vec::new();
    while let Some(line) = lines.next()? {
        let text = line.strip_suffix(b"\n").unwrap_or(line);
        if text.starts_with(b"!") {
            output.write_all(line)?;
            continue;
        }
        let is_data = !text.starts_with(b"*");
        for (j, token) in text.split(|b| *b == b'\t').enumerate() {
            if j > 0 {
                output.write_all(b"\t")?;
            }
            if token.starts_with(b"**") {
                kern.push(token == b"**kern");
            }
            if token == b"**kern" {
                output.write_all(b"**semits")?;
            } else if is_data && kern.get(j) == Some(&true) {
                write_token(token, &mut output)?;
            } else {
                output.write_all(token)?;
            }
        }
        output.write_all(b"\n")?;
    }
    output.flush()
}

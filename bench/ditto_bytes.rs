// ditto in Rust over bytes: one buffer for each line, tokens where they stand in it, and what is remembered in buffers that stay.
// The columns are those of each line as they stand, no spine is followed and nothing is refused.
mod lines;

use std::io::{self, Write};

fn main() -> io::Result<()> {
    let (mut lines, mut output) = lines::bytes()?;
    // the last token of each column that isn't null, or a null one where there was none
    let mut last: Vec<Vec<u8>> = Vec::new();
    while let Some(line) = lines.next()? {
        if line.starts_with(b"!") || line.starts_with(b"*") {
            output.write_all(line)?;
            continue;
        }
        let text = line.strip_suffix(b"\n").unwrap_or(line);
        for (j, token) in text.split(|b| *b == b'\t').enumerate() {
            if j > 0 {
                output.write_all(b"\t")?;
            }
            if j == last.len() {
                last.push(b".".to_vec());
            }
            if token != b"." {
                last[j].clear();
                last[j].extend_from_slice(token);
            }
            output.write_all(&last[j])?;
        }
        output.write_all(b"\n")?;
    }
    output.flush()
}

// extract -f 1,3 in Rust over bytes: one buffer for each line, tokens where they stand in it, and nothing asked for anew.
// The columns are those of each line as they stand, no spine is followed and nothing is refused.
use std::io::{self, BufRead, BufReader, BufWriter, Write};

fn main() -> io::Result<()> {
    let path = std::env::args().nth(1).expect("a file");
    let mut input = BufReader::with_capacity(65536, std::fs::File::open(path)?);
    let mut output = BufWriter::with_capacity(65536, io::stdout().lock());
    let mut line = Vec::new();
    loop {
        line.clear();
        if input.read_until(b'\n', &mut line)? == 0 {
            return output.flush();
        }
        if line.starts_with(b"!!") {
            output.write_all(&line)?;
            continue;
        }
        let text = line.strip_suffix(b"\n").unwrap_or(&line);
        let mut tokens = text.split(|b| *b == b'\t');
        output.write_all(tokens.next().unwrap_or(b""))?;
        output.write_all(b"\t")?;
        output.write_all(tokens.nth(1).unwrap_or(b""))?;
        output.write_all(b"\n")?;
    }
}

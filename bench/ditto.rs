// ditto in Rust as one would first write it: lines as strings, tokens as iterators, a new line joined from them.
// The columns are those of each line as they stand, no spine is followed and nothing is refused.
mod lines;

use std::io::{self, Write};

fn main() -> io::Result<()> {
    let (lines, mut output) = lines::strings()?;
    // the last token of each column that isn't null, or a null one where there was none
    let mut last: Vec<String> = Vec::new();
    for line in lines {
        let line = line?;
        if line.starts_with('!') || line.starts_with('*') {
            writeln!(output, "{line}")?;
            continue;
        }
        let tokens: Vec<&str> = line.split('\t').collect();
        if last.len() < tokens.len() {
            last.resize(tokens.len(), ".".to_string());
        }
        for (seen, token) in last.iter_mut().zip(&tokens) {
            if *token != "." {
                *seen = token.to_string();
            }
        }
        writeln!(output, "{}", last[..tokens.len()].join("\t"))?;
    }
    output.flush()
}

// extract -f 1,3 in Rust as one would first write it: lines as strings, tokens as iterators, a new line joined from them.
// The columns are those of each line as they stand, no spine is followed and nothing is refused.
mod lines;

use std::io::{self, Write};

// The columns that are taken, the first being 0.
const TAKEN: [usize; 2] = [0, 2];

fn main() -> io::Result<()> {
    let (lines, mut output) = lines::strings()?;
    for line in lines {
        let line = line?;
        if line.starts_with("!!") {
            writeln!(output, "{line}")?;
        } else {
            let tokens: Vec<&str> = line.split('\t').collect();
            let taken: Vec<&str> = TAKEN.iter().map(|j| tokens.get(*j).copied().unwrap_or("")).collect();
            writeln!(output, "{}", taken.join("\t"))?;
        }
    }
    output.flush()
}

// A plain filter in Rust: drops the lines that begin with two exclamation marks, checks nothing.
mod lines;

use std::io::{self, Write};

fn main() -> io::Result<()> {
    let (mut lines, mut output) = lines::bytes()?;
    while let Some(line) = lines.next()? {
        if !line.starts_with(b"!!") {
            output.write_all(line)?;
        }
    }
    output.flush()
}

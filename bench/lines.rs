// What the programs in Rust beside it share: the lines of the file that they are given, and standard output.
#![allow(dead_code)]

use std::fs::File;
use std::io::{self, BufRead, BufReader, BufWriter, Lines, StdoutLock};

fn given_file() -> io::Result<File> {
    File::open(std::env::args().nth(1).expect("a file"))
}

// Lines as strings and a buffer for what is written, as one would first have them.
pub fn strings() -> io::Result<(Lines<BufReader<File>>, BufWriter<StdoutLock<'static>>)> {
    Ok((BufReader::new(given_file()?).lines(), BufWriter::new(io::stdout().lock())))
}

// Lines as bytes with their LF, one after another in one buffer.
pub struct ByteLines {
    input: BufReader<File>,
    line: Vec<u8>,
}

impl ByteLines {
    #[inline(always)]
    pub fn next(&mut self) -> io::Result<Option<&[u8]>> {
        self.line.clear();
        let size = self.input.read_until(b'\n', &mut self.line)?;
        Ok(if size == 0 { None } else { Some(&self.line) })
    }
}

// They and a buffer for what is written, each of 64 KiB.
pub fn bytes() -> io::Result<(ByteLines, BufWriter<StdoutLock<'static>>)> {
    let input = BufReader::with_capacity(65536, given_file()?);
    Ok((ByteLines { input, line: Vec::new() }, BufWriter::with_capacity(65536, io::stdout().lock())))
}

// The parts of a token with blanks between, or a null token where there are none.
pub fn joined_or_null<T: std::borrow::Borrow<str>>(parts: &[T]) -> String {
    if parts.is_empty() { ".".to_string() } else { parts.join(" ") }
}

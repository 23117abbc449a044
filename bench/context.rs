// context -n 3 -o '^=' in Rust over bytes: the columns stand as they are in each line, no spine is followed and nothing is refused.
mod lines;

use std::collections::VecDeque;
use std::io::{self, Write};

const WANTED: usize = 3;

// A line that waits: its tokens, and how many of them aren't decided.
struct Line {
    tokens: Vec<Vec<u8>>,
    undecided: usize,
}

// The lines that wait, how many were given before them, and for each column the lines whose tokens want more, and how many more.
#[derive(Default)]
struct Windows {
    waiting: VecDeque<Line>,
    given: usize,
    columns: Vec<VecDeque<(usize, usize)>>,
}

impl Windows {
    // One more token of a column goes to each that wants one.
    fn collect(&mut self, j: usize, token: &[u8]) {
        for (line, missing) in &mut self.columns[j] {
            let line = &mut self.waiting[*line - self.given];
            line.tokens[j].push(b' ');
            line.tokens[j].extend_from_slice(token);
            *missing -= 1;
            if *missing == 0 {
                line.undecided -= 1;
            }
        }
        while self.columns[j].front().is_some_and(|(_, missing)| *missing == 0) {
            self.columns[j].pop_front();
        }
    }

    // What still wants tokens of a column has a null token.
    fn close(&mut self, j: usize) {
        for (line, _) in std::mem::take(&mut self.columns[j]) {
            let line = &mut self.waiting[line - self.given];
            line.tokens[j] = b".".to_vec();
            line.undecided -= 1;
        }
    }

    fn put(&mut self, text: &[u8]) {
        let tokens: Vec<Vec<u8>> = text.split(|b| *b == b'\t').map(<[u8]>::to_vec).collect();
        let place = self.given + self.waiting.len();
        let mut undecided = 0;
        self.columns.resize_with(tokens.len().max(self.columns.len()), VecDeque::new);
        let is_data = !text.starts_with(b"!") && !text.starts_with(b"*");
        for (j, token) in tokens.iter().enumerate() {
            if token == b"*-" || token.starts_with(b"**") {
                self.close(j);
            } else if is_data && token != b"." && !token.starts_with(b"=") {
                self.collect(j, token);
                self.columns[j].push_back((place, WANTED - 1));
                undecided += 1;
            }
        }
        self.waiting.push_back(Line { tokens, undecided });
    }

    fn give(&mut self, output: &mut impl Write) -> io::Result<()> {
        while self.waiting.front().is_some_and(|line| line.undecided == 0) {
            let Some(line) = self.waiting.pop_front() else { break };
            self.given += 1;
            output.write_all(&line.tokens.join(&b'\t'))?;
            output.write_all(b"\n")?;
        }
        Ok(())
    }
}

fn main() -> io::Result<()> {
    let (mut lines, mut output) = lines::bytes()?;
    let mut windows = Windows::default();
    while let Some(line) = lines.next()? {
        windows.put(line.strip_suffix(b"\n").unwrap_or(line));
        windows.give(&mut output)?;
    }
    output.flush()
}

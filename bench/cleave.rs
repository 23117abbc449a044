// cleave in Rust as one would first write it: lines as strings, tokens as iterators, a new line joined from them.
// The columns are those of the opening record, no spine is followed and nothing is refused.
mod lines;

use std::io::{self, Write};

// What stands in the one column, from the tokens of those that become one.
fn joined(kind: Option<char>, tokens: &[&str]) -> String {
    match kind {
        Some('!') => tokens.iter().find(|token| **token != "!").unwrap_or(&"!").to_string(),
        Some('*') => tokens.iter().find(|token| !["*", "*^", "*v"].contains(token)).unwrap_or(&"*").to_string(),
        _ => {
            let mut taken: Vec<&str> = Vec::new();
            for token in tokens {
                if *token != "." && !(token.starts_with('=') && taken.contains(token)) {
                    taken.push(token);
                }
            }
            lines::joined_or_null(&taken)
        }
    }
}

fn main() -> io::Result<()> {
    let (lines, mut output) = lines::strings()?;
    let mut kern: Vec<bool> = Vec::new();
    for line in lines {
        let line = line?;
        if line.starts_with("!!") {
            writeln!(output, "{line}")?;
            continue;
        }
        let tokens: Vec<&str> = line.split('\t').collect();
        let opens = line.starts_with("**");
        if opens {
            kern = tokens.iter().map(|token| *token == "**kern").collect();
        }
        let cleaved: Vec<&str> = tokens.iter().zip(&kern).filter(|(_, is)| **is).map(|(token, _)| *token).collect();
        let one = if opens { "**chord".to_string() } else { joined(line.chars().next(), &cleaved) };
        let place = kern.iter().position(|is| *is);
        let left: Vec<String> = tokens
            .iter()
            .enumerate()
            .filter(|(j, _)| place == Some(*j) || kern.get(*j) != Some(&true))
            .map(|(j, token)| if place == Some(j) { one.clone() } else { token.to_string() })
            .collect();
        writeln!(output, "{}", left.join("\t"))?;
    }
    output.flush()
}

// semits in Rust as one would first write it: lines as strings, tokens and parts as iterators, a new line joined from them.
// The columns are those of the opening record, no spine is followed and nothing is refused.
mod lines;

use std::io::{self, Write};

// The semitones of the first pitch of a subtoken.
fn semits(part: &str) -> Option<i32> {
    let start = part.find(|c| matches!(c, 'a'..='g' | 'A'..='G'))?;
    let letter = part[start..].chars().next()?;
    let behind = part[start..].trim_start_matches(letter);
    let count = (part.len() - start - behind.len()) as i32;
    let natural = [0, 2, 4, 5, 7, 9, 11]["cdefgab".find(letter.to_ascii_lowercase())?];
    let octave = if letter.is_ascii_lowercase() { count - 1 } else { -count };
    let signs = &behind[..behind.len() - behind.trim_start_matches(['#', '-', 'n']).len()];
    let sharps = signs.matches('#').count() as i32;
    let flats = signs.matches('-').count() as i32;
    Some(natural + 12 * octave + sharps - flats)
}

fn retold(token: &str) -> String {
    if token == "." || token.starts_with('=') {
        return token.to_string();
    }
    let parts: Vec<String> = token
        .split(' ')
        .filter_map(|part| if part.contains('r') { Some("r".to_string()) } else { semits(part).map(|n| n.to_string()) })
        .collect();
    lines::joined_or_null(&parts)
}

fn main() -> io::Result<()> {
    let (lines, mut output) = lines::strings()?;
    let mut kern = Vec::new();
    for line in lines {
        let line = line?;
        if line.starts_with("**") {
            kern = line.split('\t').map(|token| token == "**kern").collect();
            writeln!(output, "{}", line.replace("**kern", "**semits"))?;
        } else if line.starts_with('!') || line.starts_with('*') {
            writeln!(output, "{line}")?;
        } else {
            let tokens: Vec<String> = line
                .split('\t')
                .enumerate()
                .map(|(j, token)| if kern.get(j) == Some(&true) { retold(token) } else { token.to_string() })
                .collect();
            writeln!(output, "{}", tokens.join("\t"))?;
        }
    }
    output.flush()
}

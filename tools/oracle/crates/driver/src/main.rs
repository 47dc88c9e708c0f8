//! The oracle: the store's Rust behind the lines of the program `session`.
//! One call a line on standard input, one answer a line on standard output, flushed at once.
mod calls;
mod target;
mod words;

use calls::Oracle;
use std::io::{self, BufRead, Write};

const LINE_LIMIT: usize = 16_384;

/// None where a line prints nothing: a blank one, or a comment of any length.
fn answer(oracle: &mut Oracle, line: &[u8]) -> Option<String> {
    if line.is_empty() || line[0] == b'#' {
        return None;
    }
    let served = if line.len() > LINE_LIMIT { None } else { oracle.call(line) };
    Some(served.unwrap_or_else(|| "bad".to_string()))
}

fn main() -> io::Result<()> {
    let mut input = io::stdin().lock();
    let mut output = io::stdout().lock();
    let mut oracle = Oracle::new();
    let mut line = Vec::new();
    while input.read_until(b'\n', &mut line)? > 0 {
        if line.last() == Some(&b'\n') {
            line.pop();
        }
        if let Some(text) = answer(&mut oracle, &line) {
            writeln!(output, "{text}")?;
            output.flush()?;
        }
        line.clear();
    }
    Ok(())
}

//! The lines of a list that are to be answered.

use std::io::{self, BufRead};

/// Hands over each line with its number from 1, but for empty ones and comments. Lines are bytes: one that is no
/// text at all is no command either.
pub fn each(
    mut input: impl BufRead,
    mut answer: impl FnMut(u64, &[u8]) -> io::Result<()>,
) -> io::Result<()> {
    let mut line = Vec::new();
    let mut number = 0;
    while input.read_until(b'\n', &mut line)? > 0 {
        number += 1;
        let text = line.strip_suffix(b"\n").unwrap_or(&line);
        if !text.is_empty() && !text.starts_with(b"#") {
            answer(number, text)?;
        }
        line.clear();
    }
    Ok(())
}

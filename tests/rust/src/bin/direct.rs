//! Reads a report text from standard input and prints the rows of its join tree.

use std::io::{Read, Write};

fn main() -> std::io::Result<()> {
    let mut text = Vec::with_capacity(hashjoin::TEXT + 1);
    std::io::stdin().take(hashjoin::TEXT as u64 + 1).read_to_end(&mut text)?;
    std::io::stdout().write_all(&hashjoin::print_direct(&text))
}

//! Reads a stream on standard input and prints a line for each reply.

use reference::lines::printed;
use std::io::{self, Read, Write};

fn main() -> io::Result<()> {
    let mut input = Vec::new();
    io::stdin().lock().read_to_end(&mut input)?;
    io::stdout().lock().write_all(printed(&input).as_bytes())
}

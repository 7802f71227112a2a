//! The program: reads a step text from standard input and prints what became
//! of each step, then a report on each reply of the house.

use std::io::{self, Read, Write};

fn main() -> io::Result<()> {
    let mut text = Vec::new();
    io::stdin().read_to_end(&mut text)?;
    io::stdout().write_all(&independent::bench(&text))
}

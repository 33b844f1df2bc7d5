//! `oracle`: 01's history program, answered by the old product.

use std::io::{self, Read, Write};

fn main() -> io::Result<()> {
    let mut input = Vec::new();
    io::stdin().lock().read_to_end(&mut input)?;
    let mut text = String::new();
    for line in driver::program::lines(&input) {
        text += &line;
        text.push('\n');
    }
    io::stdout().lock().write_all(text.as_bytes())
}

//! Document 01's program by this implementation: a session on standard input, one
//! line per event on standard output.

use std::io::{self, Read, Write};

fn main() -> io::Result<()> {
    let mut input = Vec::new();
    io::stdin().lock().read_to_end(&mut input)?;
    let text = irga_tests::file::program(&input);
    io::stdout().lock().write_all(text.as_bytes())
}

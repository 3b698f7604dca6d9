//! Prints the table of docs/DRIFT.md, and writes the picture to the file that is named.

use std::error::Error;
use std::fs;

use irga_tests::drift::{measure, picture, table};

fn main() -> Result<(), Box<dyn Error>> {
    let drift = measure()?;
    print!("{}", table::text(&drift));
    if let Some(path) = std::env::args_os().nth(1) {
        fs::write(path, picture::text(&drift))?;
    }
    Ok(())
}

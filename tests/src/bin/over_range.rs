//! Writes the session file of samples that are over range, examples/over_range.session.

use irga_tests::lesson;

fn main() -> Result<(), Box<dyn std::error::Error>> {
    lesson::write_as_named(&lesson::over_range())
}

//! Writes the lesson's session file, examples/lesson.session.

use irga_tests::lesson;

fn main() -> Result<(), Box<dyn std::error::Error>> {
    lesson::write_as_named(&lesson::session())
}

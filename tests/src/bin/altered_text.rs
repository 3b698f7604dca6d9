//! Prints what the program `altered` is to print: records with an altered finding, by this
//! implementation.

fn main() {
    print!("{}", irga_tests::altered::text());
}

//! Prints what the program `charts` is to print: how long integrations of either start count, by
//! this implementation.

fn main() {
    print!("{}", irga_tests::charts::text());
}

//! Prints the bench text: the refused bench cases and the maker's Table 3-1 beside
//! this implementation's readings.

fn main() {
    print!("{}", irga_tests::bench::table_text());
}

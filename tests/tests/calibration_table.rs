//! The maker's Table 3-1 of source document 000: 72 printed readings of a real sheet.

use irga_tests::bench::{
    table_text, PMOL_PER_TENTH, TABLE_3_1, TABLE_AIR, TABLE_SHEET, UNITS_PER_MV,
};
use irga_tests::exact::{equation_11, Fraction};
use irga_tests::rules::{absolute_reading, near};

fn ours(millivolts: i64) -> i64 {
    let reading = absolute_reading(&TABLE_SHEET, &TABLE_AIR, millivolts * UNITS_PER_MV);
    reading.expect("the table lies within the range")
}

#[test]
fn rows_stand_every_20_millivolts() {
    for (row, (millivolts, _)) in TABLE_3_1.iter().enumerate() {
        assert_eq!(*millivolts, 1_600 + 20 * row as i64);
    }
}

/// The document prints a tenth of a ppm: every row of ours, rounded to that, is the
/// document's figure.
#[test]
fn every_row_rounds_to_the_printed_tenth() {
    for (millivolts, tenths) in TABLE_3_1 {
        let wet = ours(millivolts);
        let rounded = near(i128::from(wet), i128::from(PMOL_PER_TENTH));
        assert_eq!(rounded, i128::from(tenths), "{millivolts} mV reads {wet}");
    }
}

/// The same from the exact equation, so that the table also vouches for that side.
#[test]
fn the_exact_equation_gives_the_table_too() {
    for (millivolts, tenths) in TABLE_3_1 {
        let signal = Fraction::whole(i128::from(millivolts * UNITS_PER_MV));
        let exact = equation_11(&TABLE_SHEET, &TABLE_AIR, &signal);
        let printed = i128::from(tenths * PMOL_PER_TENTH);
        assert!(exact.within(printed, i128::from(PMOL_PER_TENTH / 2)), "{millivolts} mV");
        assert!(exact.within(i128::from(ours(millivolts)), 450), "{millivolts} mV");
    }
}

/// The proved program is held to this text, so that its figures have a source of their own.
#[test]
fn the_proved_program_is_held_to_this_text() {
    assert_eq!(table_text(), include_str!("../../crates/bench/stdout"));
}

#[test]
fn bench_text_has_its_form() {
    let text = table_text();
    let lines: Vec<&str> = text.lines().collect();
    assert_eq!(lines.len(), 3 + 72);
    let head = ["V 70000000: refusal 8", "A1 0: refusal 2", "mV document ours difference"];
    assert_eq!(lines[..3], head);
    for (line, (millivolts, tenths)) in lines[3..].iter().zip(TABLE_3_1) {
        let numbers: Vec<i64> = line.split(' ').map(|word| word.parse().unwrap()).collect();
        assert_eq!(numbers[..2], [millivolts, tenths * PMOL_PER_TENTH]);
        assert_eq!(numbers[2] - numbers[1], numbers[3]);
    }
}

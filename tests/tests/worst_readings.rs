//! The named readings with large errors, each run again and its error computed again
//! in exact fractions. An allowed distance below one of them would be broken by it.

use irga_tests::engine::Event;
use irga_tests::exact::Fraction;
use irga_tests::file::{EventRecord, Session};
use irga_tests::ledger::{area_allowed, check_list, Ledger};
use irga_tests::worst::{climb, Kind, Reading, KINDS};

const NAMED: &str = include_str!("../named_readings.txt");

fn blocks() -> Vec<&'static str> {
    NAMED.split("\n\n").filter(|block| block.starts_with('[')).collect()
}

/// The bounds that the must-fail edits of `crates/exact` and `crates/ledger` try, in
/// pmol/mol. Each is below the error of the reading that the edit names: a bound that
/// no reading broke would be refused for want of a proof and not because it is false.
const TRIED: [(Kind, i128); 5] = [
    (Kind::WetAbsolute, 248),
    (Kind::WetAgainst, 401),
    (Kind::Dry, 443),
    (Kind::AtReference, 115),
    (Kind::BelowReference, 114),
];

fn named(kind: Kind) -> Reading {
    let mut named = blocks().into_iter().filter_map(Reading::parse);
    named.find(|reading| reading.kind == kind).expect("a reading of every kind")
}

/// The error of the named reading of a kind.
fn error_of(kind: Kind) -> Fraction {
    named(kind).replay().unwrap().1
}

#[test]
fn every_block_says_what_the_engine_and_the_fractions_say() {
    let blocks = blocks();
    assert_eq!(blocks.len(), KINDS.len());
    for block in blocks {
        let reading = Reading::parse(block).expect("a block of inputs");
        let text = reading.text().unwrap_or_else(|why| panic!("{block}: {why}"));
        assert_eq!(text.trim_end(), block.trim_end());
    }
}

#[test]
fn every_bound_that_an_edit_tries_is_broken() {
    for (kind, bound) in TRIED {
        assert!(!error_of(kind).within(0, bound), "{kind:?}");
    }
}

/// The session that the edit `claim_area_320` of `crates/ledger` names: the named reading
/// against a reference, which is too high, stands first and last of these readings, and between
/// them one that is too low.
const READINGS: usize = 2_000;
const TOO_LOW: i32 = 8_042_466;

fn session_with_an_area() -> Session {
    let mut session = named(Kind::WetAgainst).session();
    let high = session.events.pop().expect("its sample");
    let low = EventRecord { raw: TOO_LOW, ..high };
    session.events.extend([EventRecord::of(&Event::Start), high]);
    session.events.extend([low; READINGS - 2]);
    session.events.extend([high, EventRecord::of(&Event::Area)]);
    session
}

/// Its area, and how far that is from the exact one.
fn area_with_error() -> (i64, Fraction) {
    let session = session_with_an_area();
    let (mut ledger, answers) = (Ledger::fresh(), session.answers());
    for (record, answer) in session.events.iter().zip(&answers) {
        assert_eq!(answer.refusal, 0);
        ledger
            .check(&session.sheets, &record.entry(), answer)
            .unwrap_or_else(|why| panic!("{why}"));
    }
    let area = answers.last().expect("an area");
    assert_eq!(area.m as usize, READINGS);
    let exact = ledger.exact_area().expect("readings");
    (area.x, Fraction::whole(i128::from(area.x)).minus(&exact))
}

/// The area rule comes to 2 × 1,998 × (low − high) here.
#[test]
fn the_bound_of_an_area_that_an_edit_tries_is_broken() {
    let (area, error) = area_with_error();
    let periods = READINGS as i128 - 1;
    assert_eq!(area, 2 * 1_998 * (2_999_891_006 - 2_999_343_337));
    assert!(!error.within(0, 320 * 4 * periods));
    assert_eq!(area_allowed(READINGS as u64), 1_800 * 4 * periods);
    let share = error.times(&Fraction::of(1, 4 * periods));
    let row = "| area of n values, each within 1,800";
    assert_eq!(last_cells(row), [format!("{} (4n − 4)", hundredths(&share)), String::new()]);
}

/// The last two cells of the page's row that begins so.
fn last_cells(begin: &str) -> [String; 2] {
    let page = include_str!("../../docs/ERRORS.md");
    let row = page.lines().find(|line| line.starts_with(begin));
    let row = row.unwrap_or_else(|| panic!("docs/ERRORS.md has no row {begin}"));
    let cells: Vec<&str> = row.trim_matches('|').split('|').map(str::trim).collect();
    [cells[cells.len() - 2], cells[cells.len() - 1]].map(str::to_string)
}

/// The last two cells of each row of the page's table: the error of the kind's named
/// reading, and of the one below zero.
#[test]
fn the_page_on_errors_quotes_them() {
    let rows = [
        ("| equation (11) at R and R − 1,", Kind::AtReference, None),
        ("| wet, absolute (k = 1)", Kind::WetAbsolute, Some(Kind::WetAbsoluteBelowZero)),
        ("| wet, against a reference (k = 2)", Kind::WetAgainst, Some(Kind::WetAgainstBelowZero)),
        ("| dry, either mode", Kind::Dry, Some(Kind::DryBelowZero)),
    ];
    for (begin, above, below) in rows {
        let quoted = |kind: Kind| hundredths(&error_of(kind));
        let expected = [quoted(above), below.map_or(String::new(), quoted)];
        assert_eq!(last_cells(begin), expected, "{begin}");
    }
}

/// The size of an error to two decimals.
fn hundredths(error: &Fraction) -> String {
    format!("{:.2}", error.error_of(0).abs())
}

/// No named reading has a wet or dry value that errs by more than that of its own kind.
#[test]
fn each_kind_has_the_largest_of_them() {
    for reading in blocks().into_iter().filter_map(Reading::parse) {
        let wet = match reading.reference {
            None => [Kind::WetAbsolute, Kind::WetAbsoluteBelowZero],
            Some(_) => [Kind::WetAgainst, Kind::WetAgainstBelowZero],
        };
        for kind in [wet[0], wet[1], Kind::Dry, Kind::DryBelowZero] {
            // A reading from zero on is none of a kind below it.
            if let Ok((_, error)) = (Reading { kind, ..reading }).replay() {
                let larger = error.is_farther_than(&error_of(kind));
                assert!(!larger, "{:?} as {kind:?}: {}", reading.kind, error.decimal(6));
            }
        }
    }
}

/// The named readings keep within demand 3 all the same.
#[test]
fn named_readings_keep_their_distances() {
    for reading in blocks().into_iter().filter_map(Reading::parse) {
        let session: Session = reading.session();
        let entries = session.events.iter().map(EventRecord::entry);
        let checked = check_list(&session.sheets, entries, &session.answers());
        assert!(checked.is_ok(), "{checked:?}");
    }
}

/// Looks for larger ones and prints them; run with --ignored --nocapture.
#[test]
#[ignore = "a search of some minutes"]
fn look_for_larger_errors() {
    for kind in KINDS {
        let time = std::time::Duration::from_secs(60);
        let found = climb(kind, 2, time).expect("a reading");
        println!("{}", found.text().unwrap());
    }
}

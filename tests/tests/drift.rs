//! Table and picture of the drift: what docs/ holds is what the program makes today, and
//! it shows what is said of it, there and in README.md.

use std::sync::OnceLock;

use irga_tests::drift::{self, picture, table, Drift, Point};
use irga_tests::exact::Fraction;
use irga_tests::figures::{grouped, in_one_line};
use irga_tests::ledger::area_allowed;

const README: &str = include_str!("../../README.md");
const PAGE: &str = include_str!("../../docs/DRIFT.md");
const PICTURE: &str = include_str!("../../docs/drift.svg");

/// The long lesson, gone through once.
fn measured() -> &'static Drift {
    static DRIFT: OnceLock<Drift> = OnceLock::new();
    DRIFT.get_or_init(|| drift::measure().unwrap_or_else(|why| panic!("{why}")))
}

#[test]
fn the_page_has_the_table() {
    assert!(PAGE.contains(&table::text(measured())), "docs/DRIFT.md has another table");
}

#[test]
fn the_picture_is_the_one_that_is_made() {
    assert!(PICTURE == picture::text(measured()), "docs/drift.svg is another picture");
}

/// After a day the old way is far beyond what is proved of the engine, which keeps within
/// a hundredth of it after every cycle.
#[test]
fn the_old_way_slides_and_the_engine_does_not() {
    let points = &measured().points;
    for point in points {
        let allowed = area_allowed(u64::from(point.readings));
        assert!(point.engine.within(0, allowed / 100), "{} readings", point.readings);
        if point.readings == 432_000 {
            assert!(!point.shown.within(0, 10 * allowed));
            assert!(!point.unrounded.within(0, 10 * allowed));
        }
    }
    assert_eq!(points.last().map(|point| point.readings), Some(600_000));
    assert_eq!((points.len(), measured().areas), (100, 600_000));
}

/// The worst area of each way is no better than any that is shown.
#[test]
fn no_shown_area_is_worse_than_the_worst() {
    for (distance, worst) in drift::WAYS.iter().zip(measured().worst_distances()) {
        assert!(measured().points.iter().all(|point| !distance(point).is_farther_than(worst)));
    }
}

fn after(readings: u32) -> &'static Point {
    let found = measured().points.iter().find(|point| point.readings == readings);
    found.expect("a whole number of cycles")
}

/// How far the old way is off, of the exact area, in per cent with a decimal.
fn per_cent(readings: u32) -> String {
    let point = after(readings);
    let share = point.shown.error_of(0) / point.exact.error_of(0);
    format!("{:.1}", 100.0 * share.abs())
}

/// In pmol/mol times 0.1 s, so many are a thousandth of a µmol/mol s.
const THOUSANDTH: i128 = 10_000;

/// The old way's worst area to the nearest µmol/mol s, the engine's to the next thousandth.
fn worst() -> (String, String) {
    let [shown, unrounded, engine] = measured().worst_distances();
    assert!(shown.is_farther_than(unrounded), "the other line is the worse one");
    let nearest = shown.error_of(0).abs() / (1_000 * THOUSANDTH) as f64;
    let above = |count: &i128| !engine.is_farther_than(&Fraction::whole(count * THOUSANDTH));
    let thousandths = (0..).find(above).expect("a distance has an end");
    let engine = format!("{}.{:03}", thousandths / 1_000, thousandths % 1_000);
    (grouped(&format!("{nearest:.0}")), engine)
}

/// The sentences are looked for word by word: another figure, or the same in other words,
/// has to be looked at here.
#[test]
fn readme_quotes_these_figures() {
    let (old, engine) = worst();
    let areas = grouped(&measured().areas.to_string());
    let sentences = [
        format!(
            "is off by {} per cent after three hours, by {}",
            per_cent(54_000),
            per_cent(432_000)
        ),
        format!("after a day, and at its worst by {old} µmol/mol s."),
        format!("this engine is never off by more than {engine} µmol/mol s"),
        format!("{areas} readings and an area after each"),
    ];
    for sentence in sentences {
        assert!(in_one_line(README).contains(&sentence), "README.md does not say: {sentence}");
    }
}

#[test]
fn the_page_says_the_same() {
    let (old, engine) = worst();
    let sentences = [
        format!("After an afternoon the old way is off by {} per cent", per_cent(54_000)),
        format!("after a day by {} per cent.", per_cent(432_000)),
        format!("At its worst it is off by {old} µmol/mol s;"),
        format!("the engine is never off by more than {engine}."),
    ];
    for sentence in sentences {
        assert!(in_one_line(PAGE).contains(&sentence), "docs/DRIFT.md does not say: {sentence}");
    }
}

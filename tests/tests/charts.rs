//! Document 02's R-10: integrations of both starts, longer than any session file. The proved program
//! `charts` takes the engine's step over them and prints how long each counts, and what it leaves of
//! the one before.

use std::sync::OnceLock;

use irga_tests::charts::{self, lengths, starts};
use irga_tests::engine::{step, Answer, Entry, Event, Integration, SheetRecord, State};

/// Made once: it takes millions of samples.
fn text() -> &'static str {
    static TEXT: OnceLock<String> = OnceLock::new();
    TEXT.get_or_init(charts::text)
}

/// The proved program is held to this text, so that its figures have a source of their own.
#[test]
fn the_proved_program_is_held_to_this_text() {
    assert_eq!(text(), include_str!("../../crates/charts/stdout"));
}

/// The wet value of a row's sample, from its number: P and T are the sheet's, and the air is dry, so
/// that z is V and wet is f. All of it is above zero, where a half goes up.
fn wet(number: i64) -> i64 {
    let near = |a: i64, b: i64| (2 * a + b) / (2 * b);
    let v = 45_000_000 - 30 * number + 700 * (number % 11);
    let h2 = 5_000_000 + near(v, 2);
    let h1 = 150_000_000 + near(h2 * v, 10_000_000);
    near(v * h1, 10_000_000)
}

/// The area of the samples from a number on: what those after the first have above the middle of
/// first and last, twice.
fn area(from: i64, readings: i64) -> i64 {
    let (first, last) = (wet(from), wet(from + readings - 1));
    (from + 1..from + readings).map(|number| 2 * wet(number) - first - last).sum()
}

fn assert_row(row: &str) {
    assert!(text().lines().any(|line| line == row), "no row {row}");
}

/// Both sides of both limits: how many readings count, and the area that these have.
#[test]
fn lengths_by_hand() {
    for (kind, samples, counted, stands) in [
        (10, 5_999, 5_999, "running 5999 of 6000"),
        (10, 6_000, 6_000, "closed 6000"),
        (10, 6_001, 6_000, "closed 6000"),
        (7, 5_999, 5_999, "running 5999 of 600000"),
        (7, 6_000, 6_000, "running 6000 of 600000"),
        (7, 6_001, 6_001, "running 6001 of 600000"),
        (7, 599_999, 599_999, "running 599999 of 600000"),
        (7, 600_000, 600_000, "closed 600000"),
        (7, 600_001, 600_000, "closed 600000"),
    ] {
        let area = area(1, counted);
        assert_row(&format!("{kind} | {samples} | {counted} {area} | {stands}"));
    }
    // The areas of the two limits apart: one reading more or less would show.
    assert!([5_999, 6_001].iter().all(|n| area(1, *n) != area(1, 6_000)));
}

/// A start begins anew with the sample after those that stood before, and has its own limit.
#[test]
fn starts_by_hand() {
    let (three, closed) = (area(1, 3), area(1, 6_000));
    for (before, from) in [
        ("idle", 1),
        ("kind 7, 3 samples", 4),
        ("kind 10, 3 samples", 4),
        ("kind 10, 6000 samples", 6_001),
        ("kind 7, 6001 samples", 6_002),
    ] {
        for (kind, limit) in [(7, 600_000), (10, 6_000)] {
            let begun = format!("accepted | running 0 of {limit} | {limit} {}", area(from, limit));
            assert_row(&format!("{before} | kind {kind} | {begun}"));
        }
    }
    for (kind, limit) in [(7, 600_000), (10, 6_000)] {
        let before = format!("kind {kind}, 3 samples");
        let goes_on = format!("running 3 of {limit} | {limit} {}", area(1, limit));
        let ends = format!("closed 3 | 3 {three}");
        assert_row(&format!("{before} | stop | accepted | {ends}"));
        assert_row(&format!("{before} | area | 3 {three} | {goes_on}"));
        assert_row(&format!("{before} | refused sample | refused 6 | {ends}"));
        assert_row(&format!("{before} | malformed 6 | refused 11 | {ends}"));
        assert_row(&format!("{before} | malformed 10 | refused 11 | {goes_on}"));
        assert_row(&format!("{before} | zero | accepted | idle | refused 10"));
        assert_row(&format!("no sheet | kind {kind} | refused 1 | idle | refused 1"));
    }
    let stays = format!("closed 6000 | 6000 {closed}");
    assert_row(&format!("kind 10, 6000 samples | stop | refused 10 | {stays}"));
    assert_row(&format!("kind 10, 6000 samples | area | 6000 {closed} | {stays}"));
}

#[test]
fn as_many_rows_as_there_are_cases() {
    let text = text();
    let widths: Vec<usize> = text.lines().map(|line| line.split(" | ").count()).collect();
    assert_eq!(widths, [vec![4; 1 + 9], vec![5; 1 + 2 + 2 + 8 + 8 + 4 + 2]].concat());
    assert!(text.ends_with('\n') && !text.contains("  "));
}

/// A right step that leaves a running integration with the limit that `other` gives it: from the
/// event, the state before it, and the right limit.
fn limited(
    other: impl Fn(&Entry, &State, u64) -> u64,
) -> impl Fn(&[SheetRecord], &State, &Entry) -> (Answer, State) {
    move |sheets, state, entry| {
        let (answer, mut next) = step(sheets, state, entry);
        if let Integration::Running { limit, .. } = &mut next.integration {
            *limit = other(entry, state, *limit);
        }
        (answer, next)
    }
}

/// Another limit for either start cannot show in a session file. In this text it does, and so does a
/// limit that passes from one integration to the next.
#[test]
fn wrong_limits_change_the_text() {
    let right = |table: &str| text().contains(table);
    assert!(right(&lengths(&limited(|_, _, limit| limit))));
    for (of, wrong) in [
        (6_000, 5_999),
        (6_000, 6_001),
        (6_000, 600_000),
        (600_000, 599_999),
        (600_000, 600_001),
        (600_000, 6_000),
    ] {
        let other = limited(|_, _, limit| if limit == of { wrong } else { limit });
        assert!(!right(&lengths(&other)), "{wrong} for {of}");
    }
    for start in [Event::Start, Event::StartShort] {
        let passed_on = limited(|entry, before, limit| match before.integration {
            Integration::Running { limit: old, .. } if *entry == Entry::Known(start) => old,
            _ => limit,
        });
        assert!(!right(&starts(&passed_on)), "{start:?} leaves the limit that stood");
    }
}

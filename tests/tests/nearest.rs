//! R-3 of document 02: however the nearest number is taken, a call divides once. Read from the
//! sources: `near`, with all it calls, holds one division or remainder sign and no loop.

use irga_tests::sources::{files, Files, Holding, Sources};
use irga_tests::trial;

fn crates() -> Files {
    files(&trial::root().join("crates"))
}

fn holding(files: &Files, function: &str) -> Holding {
    Sources::of(files).holding(function).expect("every name is among the sources")
}

/// The first sentence of R-3, and its second.
fn divides_once(files: &Files) -> bool {
    let near = holding(files, "rounding::near");
    near.divides == Some(1) && near.signs == 1 && near.loops == 0 && near.recursive.is_empty()
}

#[test]
fn near_divides_once() {
    let near = Holding {
        code: [
            "rounding::near",
            "rounding::quotient",
            "rounding::signed::negative",
            "rounding::signed::positive",
        ]
        .map(String::from)
        .to_vec(),
        signs: 1,
        loops: 0,
        recursive: vec![],
        divides: Some(1),
    };
    assert_eq!(holding(&crates(), "rounding::near"), near);
    assert!(divides_once(&crates()));
}

/// The crates with one place in a file changed.
fn changed(file: &str, old: &str, new: &str) -> Files {
    let mut files = crates();
    let text = files.get_mut(file).expect("a file of the crates");
    assert_eq!(text.matches(old).count(), 1, "{file} has this once: {old}");
    *text = text.replace(old, new);
    files
}

#[test]
fn a_second_sign_or_a_loop_is_found() {
    let (near, signed) = ("rounding/src/lib.rt", "rounding/src/signed.rt");
    for (file, old, new) in [
        // A sign more in each of the four functions.
        (near, "    if a < 0 {\n", "    if a / 2 < 0 {\n"),
        (near, "    (2 * m + b) /", "    (2 * m + b) % 2 /"),
        (signed, "    0 - (m as i64)", "    0 - (m as i64) % 3"),
        (signed, "    m as i64\n", "    m as i64 / 1\n"),
        // One that stands in another crate, reached by its whole path.
        (near, "    (2 * m + b) /", "    (2 * curve::limits::air_within(m) + b) /"),
        // The one sign gone, or gone round twice.
        (near, "    (2 * m + b) /", "    (2 * m + b) -"),
        (near, "negative(quotient(", "negative(quotient(quotient(m, b), b) + quotient("),
        // Loops, and functions that call themselves.
        (near, "    (2 * m + b) /", "    while m < b { m += 1; }\n    (2 * m + b) /"),
        (signed, "    m as i64\n", "    loop { break; }\n    m as i64\n"),
        (signed, "    m as i64\n", "    for i in 0..m { negative(i); }\n    m as i64\n"),
        (near, "    (2 * m + b) /", "    (2 * quotient(m, b) + b) /"),
        (signed, "    0 - (m as i64)", "    0 - crate::near(m as i64, 2)"),
    ] {
        assert!(!divides_once(&changed(file, old, new)), "not seen: {new}");
    }
}

#[test]
fn comments_contracts_and_what_near_does_not_call_are_no_signs() {
    let (near, signed) = ("rounding/src/lib.rt", "rounding/src/signed.rt");
    for (file, old, new) in [
        (near, "    (2 * m + b) /", "    // m / b, and while it lasts\n    (2 * m + b) /"),
        (near, "    ensures { result ≡ nearest a b }", "    ensures { result ≡ a / b % 2 }"),
        (near, "    near(product(a, b), d)", "    near(product(a, b), d) / 1"),
        (signed, "    a * b", "    a / b"),
    ] {
        assert!(divides_once(&changed(file, old, new)), "seen: {new}");
    }
}

#[test]
fn a_name_from_elsewhere_is_not_passed_over() {
    for call in [
        "m.div_euclid(b)",
        "m.div_ceil(b)",
        "bytes::half(m)",
        "halved(m)",
        "halved!(m)",
        "negative(m)?",
        "(|m: u64| m % 7)",
    ] {
        let files = changed("rounding/src/lib.rt", "    (2 * m + b) /", &format!("    {call} /"));
        assert!(Sources::of(&files).holding("rounding::near").is_err(), "passed over: {call}");
    }
}

/// Where docs/SPEED.md says so: a reading rounds six times, all by that one sign; the search
/// has one more, which halves the stretch, and is the one function that calls itself.
#[test]
fn a_reading_and_a_search() {
    let reading = holding(&crates(), "curve::absolute");
    assert_eq!((reading.signs, reading.loops, reading.divides), (1, 0, Some(6)));
    assert!(reading.recursive.is_empty());
    let search = holding(&crates(), "reference::reference_signal");
    assert_eq!((search.signs, search.loops), (2, 0));
    assert_eq!(search.recursive, ["reference::search"]);
}

/// The trial that docs/SPEED.md measures is the same function, proved to be, with two signs.
#[test]
fn the_trial_has_two_signs_and_is_proved() {
    let tree = trial::two_signs("proved");
    let near = holding(&files(&tree.join("crates")), "rounding::near");
    assert_eq!((near.signs, near.loops, near.divides), (2, 0, Some(2)));
    trial::prove(&tree, "near_alone");
}

/// Every place in the crates that divides, with its signs; `div_ceil` counts as one. None of them
/// but `quotient` rounds to the nearest: they take dates apart, test e by P / 10, halve the stretch
/// of a search, take numbers, records and digits apart, count the header lines of a page, and let
/// the signals of `charts` flicker. A new one is to be looked at, and put here.
#[test]
fn nothing_else_rounds() {
    let places = [
        ("calendar::leap", 3),
        ("calendar::next", 4),
        ("calendar::valid", 4),
        ("charts::raw_of", 1),
        ("curve::limits::air_within", 1),
        ("figures::put_hundredths", 1),
        ("figures::put_pointed", 4),
        ("layout::records::event_at", 1),
        ("layout::records::put_event", 1),
        ("packing::put_records", 1),
        ("packing::write_records", 2),
        ("page::length_of", 1),
        ("reference::search", 1),
        ("rounding::quotient", 1),
        ("rows::put_header_due", 1),
        ("sheets::find_sheet", 1),
        ("text::digits", 1),
        ("text::writer::Writer::decimal", 2),
        ("validation::is_packed", 2),
    ];
    assert_eq!(Sources::of(&crates()).dividing(), places.into());
    let own = "    let q = m / b; q + m % b";
    let dry = changed("curve/src/steps.rt", "    near_scaled(c, a.p, a.p - a.e)", own);
    assert_eq!(Sources::of(&dry).dividing()["curve::steps::dry"], 2);
}

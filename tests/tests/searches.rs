//! The reference signal and the span setting against their definitions: the least
//! that serves. The searches lean on monotonicity; these tests do not.

use irga_tests::bench;
use irga_tests::random::Random;
use irga_tests::rules::{
    absolute_reading, reference_signal, signal_from_raw, span_setting, Air, Refusal, Sheet,
};

fn serves(sheet: &Sheet, air: &Air, v: i64, cylinder: i64) -> bool {
    absolute_reading(sheet, air, v).is_ok_and(|wet| wet >= cylinder)
}

/// The definition of R, walked from 0 to a signal after which all are at or above K.
fn walked_reference(sheet: &Sheet, cylinder: i64, air: &Air) -> Option<i64> {
    (0..=150_000_000.min(sheet.k)).find(|v| serves(sheet, air, *v, cylinder))
}

/// The definition of the span, walked over every setting.
fn walked_span(sheet: &Sheet, raw: i64, q: i64, cylinder: i64, air: &Air) -> Option<i64> {
    let works = |s: i64| serves(sheet, air, signal_from_raw(raw, q, s), cylinder);
    if works(499_999) {
        return None;
    }
    (500_000..=2_000_000).find(|s| works(*s))
}

fn between_limits(random: &mut Random) -> (Sheet, Air) {
    let sheet = Sheet {
        a1: random.between(1, 1_000_000_000) >> random.below(20),
        a2: random.between(0, 100_000_000) >> random.below(20),
        a3: random.between(0, 10_000_000) >> random.below(20),
        t0: random.between(27_315, 32_315),
        k: random.between(10_000_000, 400_000_000),
    };
    let p = random.between(60_000, 115_000);
    let air = Air { p, t: random.between(27_315, 32_315), e: random.between(0, p / 10) };
    (Sheet { a1: sheet.a1.max(1), ..sheet }, air)
}

/// Whatever R is found, it serves and its lower neighbours do not; where none is
/// found, no signal of a wide sample serves, nor any near the top of the range.
#[test]
fn reference_is_least_among_its_neighbours() {
    let mut random = Random::new(21);
    let mut found = 0;
    for _ in 0..4_000 {
        let (sheet, air) = between_limits(&mut random);
        let cylinder = random.between(0, 3_000_000_000) >> random.below(20);
        match reference_signal(&sheet, cylinder, &air) {
            Ok(r) => {
                found += 1;
                assert!((0..=150_000_000).contains(&r) && serves(&sheet, &air, r, cylinder));
                let below = (r - 30).max(0)..r;
                assert!(below.into_iter().all(|v| !serves(&sheet, &air, v, cylinder)));
                let lower = random.between(0, r - 1);
                assert!(r == 0 || !serves(&sheet, &air, lower, cylinder));
            }
            Err(refusal) => {
                assert_eq!(refusal, Refusal::NoReferenceSignal);
                for _ in 0..100 {
                    let v = random.between(0, 150_000_000) >> random.below(6);
                    assert!(!serves(&sheet, &air, v, cylinder));
                }
            }
        }
    }
    assert!(found > 1_000, "only {found} references were found");
}

#[test]
fn reference_by_walking_from_zero() {
    let steep = Sheet { a1: 900_000_000, a2: 90_000_000, a3: 9_000_000, t0: 27_315, k: 10_000_000 };
    let flat = Sheet { a1: 1, a2: 0, a3: 1, t0: 32_315, k: 10_000_000 };
    let air = Air { p: 60_000, t: 32_315, e: 6_000 };
    let bench_sheet = bench::sheet().accepted().unwrap();
    let cases = [
        (steep, 0, air),
        (steep, 1, air),
        (steep, 123_456_789, air),
        (steep, 3_000_000_000, air),
        (flat, 0, air),
        (flat, 1, air),
        (flat, 2, bench::AIR),
        (bench_sheet, 1, bench::AIR),
        (bench_sheet, 30_000_000, Air { e: 9_000, ..bench::AIR }),
    ];
    for (sheet, cylinder, air) in cases {
        let searched = reference_signal(&sheet, cylinder, &air).ok();
        assert_eq!(searched, walked_reference(&sheet, cylinder, &air), "{sheet:?} {cylinder}");
    }
}

/// Small stretches around the place where a random cylinder is reached.
#[test]
fn reference_by_walking_a_stretch() {
    let mut random = Random::new(22);
    for _ in 0..300 {
        let (sheet, air) = between_limits(&mut random);
        let v = random.between(0, 3_000);
        let cylinder = absolute_reading(&sheet, &air, v).expect("so low a signal is read");
        let walked = (0..=v).find(|signal| serves(&sheet, &air, *signal, cylinder));
        assert_eq!(reference_signal(&sheet, cylinder, &air).ok(), walked);
    }
}

/// The top of the range: the readings step over 3,000,000,000, so the cylinder at
/// the very top is found or not by where that step falls.
#[test]
fn reference_at_the_top_of_the_range() {
    let mut random = Random::new(23);
    let (mut found, mut missed) = (0, 0);
    for _ in 0..2_000 {
        let (sheet, air) = between_limits(&mut random);
        let cylinder = 3_000_000_000 - random.between(0, 150);
        match reference_signal(&sheet, cylinder, &air) {
            Ok(r) => {
                found += 1;
                assert!(serves(&sheet, &air, r, cylinder));
                assert!(!serves(&sheet, &air, r - 1, cylinder));
            }
            Err(_) => missed += 1,
        }
    }
    assert!(found > 0 && missed > 0);
}

#[test]
fn span_by_walking_every_setting() {
    let sheet = bench::sheet().accepted().unwrap();
    let steep = Sheet { a1: 900_000_000, a2: 0, a3: 10_000_000, t0: 27_315, k: 400_000_000 };
    let thin = Air { p: 60_000, t: 32_315, e: 6_000 };
    let cases = [
        (sheet, 50_000_000, 0, 1_000_000_000, bench::AIR),
        (sheet, 33_333_333, -777_777, 876_543_210, bench::AIR),
        (sheet, 19_999_999, 0, 1_000_000_000, bench::AIR),
        (sheet, 1, 0, 15, bench::AIR),
        (sheet, 1, 0, 16, bench::AIR),
        (sheet, 1, 1, 1, bench::AIR),
        (sheet, -5, 20_000_000, 1, bench::AIR),
        (steep, 17_000_000, 3_000, 2_999_999_999, thin),
        (steep, 9_000_000, 3_000, 1_234_567_890, thin),
        (steep, 150_000_000, -20_000_000, 3_000_000_000, thin),
    ];
    for (sheet, raw, q, cylinder, air) in cases {
        let searched = span_setting(&sheet, raw, q, cylinder, &air).ok();
        assert_eq!(searched, walked_span(&sheet, raw, q, cylinder, &air), "{raw} {cylinder}");
    }
}

#[test]
fn span_is_least_among_its_neighbours() {
    let mut random = Random::new(24);
    let mut found = 0;
    for _ in 0..4_000 {
        let (sheet, air) = between_limits(&mut random);
        let q = random.between(-20_000_000, 20_000_000);
        let raw = random.between(-20_000_000, 150_000_000);
        let guess = random.between(490_000, 2_010_000);
        let v = signal_from_raw(raw, q, guess);
        let Ok(cylinder) = absolute_reading(&sheet, &air, v) else {
            continue;
        };
        let cylinder = cylinder.max(1);
        let works = |s: i64| serves(&sheet, &air, signal_from_raw(raw, q, s), cylinder);
        match span_setting(&sheet, raw, q, cylinder, &air) {
            Ok(s) => {
                found += 1;
                assert!((500_000..=2_000_000).contains(&s) && works(s));
                assert!((s - 30..s).all(|lower| !works(lower)) && !works(499_999));
            }
            Err(_) if works(499_999) => {}
            Err(_) => assert!((0..200).all(|i| !works(500_000 + 7_500 * i))),
        }
    }
    assert!(found > 500, "only {found} spans were found");
}

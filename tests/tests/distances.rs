//! Demand 3 over invented sessions: every accepted sample, area and reference signal
//! lies within its distance of the exact ledger. The verdicts are taken on whole
//! numbers by multiplying across; the printed figures are only to look at.

use std::path::Path;
use std::time::Instant;

use irga_tests::bench;
use irga_tests::engine::READINGS_LIMIT;
use irga_tests::engine::{step, Answer, Entry, Event, Integration, SheetRecord, State};
use irga_tests::figures::{grouped, in_one_line};
use irga_tests::file::{self, Session};
use irga_tests::harness::{Campaign, Count};
use irga_tests::ledger::{Distances, Ledger};
use irga_tests::random::Random;
use irga_tests::rules::{self, Air, Sheet};
use irga_tests::sessions::{session, PROFILES};

fn campaign(seed: u64) -> Campaign {
    Campaign::from_environment(seed, Path::new(env!("CARGO_TARGET_TMPDIR")))
}

fn print(met: &Distances) {
    println!("wet absolute       {:10.3} of 1,100", met.wet_absolute);
    println!("wet against        {:10.3} of 1,800", met.wet_against);
    println!("dry                {:10.3} of 2,000", met.dry);
    println!("below zero: wet absolute {:10.3}", met.wet_absolute_below_zero);
    println!("            wet against  {:10.3}", met.wet_against_below_zero);
    println!("            dry          {:10.3}", met.dry_below_zero);
    println!("area, of allowed   {:10.5} of 1", met.area_share);
    println!("R below cylinder   {:10.3} of 450", met.below_cylinder);
    println!("R - 1 above it     {:10.3} of 450", met.above_cylinder);
}

/// Sessions must reach every refusal and have many accepted events of every kind,
/// or agreement over them would say little.
fn assert_wide(count: &Count) {
    for number in 1..=11 {
        assert!(count.refused_with(number) > 0, "no event was refused with {number}");
    }
    for status in [0, 12, 13] {
        assert!(count.statuses[status] > 0, "no run ended with status {status}");
    }
    for kind in 1..=10 {
        let accepted = count.answers[kind][0];
        assert!(10 * accepted > count.sessions, "kind {kind}: {accepted} accepted");
    }
    assert!(count.samples_against > count.sessions);
    assert!(count.answers[6][0] - count.samples_against > count.sessions);
}

/// Run with --nocapture to see the worst distances and the pace.
#[test]
fn ledger_over_invented_sessions() {
    let campaign = campaign(0x1262);
    let began = Instant::now();
    let count = campaign.against_engine(&mut file::run).unwrap_or_else(|why| panic!("{why}"));
    let seconds = began.elapsed().as_secs_f64();
    let pace = count.sessions as f64 / seconds;
    println!("{} sessions, {} events, {pace:.0} sessions a second", count.sessions, count.events);
    for kind in 1..=10 {
        println!(
            "kind {kind}: accepted {}, then 1 to 11: {:?}",
            count.answers[kind][0],
            &count.answers[kind][1..12]
        );
    }
    println!("accepted samples against a reference: {}", count.samples_against);
    print(&count.met);
    assert_wide(&count);
}

/// Each profile for itself, so that none hides behind the others.
#[test]
fn ledger_over_each_profile() {
    for profile in PROFILES {
        let mut random = Random::new(31);
        for number in 0..20 {
            let made: Session = session(&mut random, &profile);
            let answers = made.answers();
            let entries = made.events.iter().map(|record| record.entry());
            let checked = irga_tests::ledger::check_list(&made.sheets, entries, &answers);
            assert!(checked.is_ok(), "{} {number}: {checked:?}", profile.name);
        }
    }
}

/// One event for the engine and the ledger; gives back the answer.
fn both(state: &mut State, ledger: &mut Ledger, met: &mut Distances, event: Event) -> Answer {
    let sheets = [bench::sheet()];
    let entry = Entry::Known(event);
    let (answer, next) = step(&sheets, state, &entry);
    *state = next;
    met.join(&ledger.check(&sheets, &entry, &answer).unwrap_or_else(|why| panic!("{why}")));
    answer
}

/// The 600,000th reading is counted and closes the integration; later ones are read
/// and not counted, and the area stays.
#[test]
fn an_integration_longer_than_any_file() {
    let (mut state, mut ledger) = (State::fresh(), Ledger::fresh());
    let mut met = Distances::default();
    let mut random = Random::new(32);
    let mut feed = |event: Event| both(&mut state, &mut ledger, &mut met, event);
    feed(Event::Load { index: 0 });
    feed(Event::Zero { raw: 12_345 });
    feed(Event::Span { raw: 40_000_000, cylinder: 900_000_000, p: 99_000, t: 30_000, e: 1_000 });
    feed(Event::Start);
    let rooms = [(101_300, 29_815, 0), (98_765, 30_123, 2_345), (60_000, 32_315, 6_000)];
    let mut areas = Vec::new();
    for number in 1..=600_100u32 {
        let (p, t, e) = random.pick(&rooms);
        let raw = random.between(13_000, 30_000_000) as i32;
        assert_eq!(feed(Event::Sample { raw, p, t, e }).refusal, 0);
        if number >= 599_999 {
            areas.push(feed(Event::Area));
        }
    }
    assert_eq!((areas[0].m, areas[1].m), (599_999, 600_000));
    assert!(areas[1..].iter().all(|area| *area == areas[1]), "closed at 600,000");
    assert_eq!(feed(Event::Stop).refusal, 10);
    print(&met);
}

/// Engine and ledger side by side under the bench sheet.
struct Beside {
    state: State,
    ledger: Ledger,
    met: Distances,
}

impl Beside {
    fn feed(&mut self, event: Event) -> Answer {
        both(&mut self.state, &mut self.ledger, &mut self.met, event)
    }

    /// A start and so many samples, in changing rooms. The last twelve areas are held to the exact
    /// area of n readings themselves, n being the number of samples or the limit.
    fn integrate(&mut self, start: Event, samples: u32, limit: u32) {
        let mut random = Random::new(34);
        let rooms = [(101_300, 29_815, 0), (98_765, 30_123, 2_345), (60_000, 32_315, 6_000)];
        self.feed(start);
        for number in 1..=samples {
            let (p, t, e) = random.pick(&rooms);
            let raw = random.between(-900_000, 25_000_000) as i32;
            assert_eq!(self.feed(Event::Sample { raw, p, t, e }).refusal, 0);
            if number + 12 > samples {
                let (area, n) = (self.feed(Event::Area), number.min(limit));
                let exact = self.ledger.exact_area().expect("a series");
                let allowed = 1_800 * (4 * i128::from(n) - 4);
                assert_eq!((area.refusal, area.m), (0, n), "sample {number}");
                assert!(exact.within(i128::from(area.x), allowed), "sample {number}");
            }
        }
    }
}

/// Document 02's R-10: the ledger's series has the limit of its own start, as the engine's
/// integration has, and areas of both kinds are within the same distance, with the n of each:
/// 5,999 and 6,000, at which a short one closes, and more of a long one before it and after it.
#[test]
fn short_integrations_between_long_ones() {
    let met = Distances::default();
    let mut beside = Beside { state: State::fresh(), ledger: Ledger::fresh(), met };
    beside.feed(Event::Load { index: 0 });
    for mode in [Event::Absolute, Event::Reference { cylinder: 300_000_000, e: 1_500 }] {
        beside.feed(mode);
        beside.integrate(Event::Start, 6_006, 600_000);
        beside.integrate(Event::StartShort, 6_006, 6_000);
        beside.integrate(Event::StartShort, 5_999, 6_000);
        assert_eq!(beside.feed(Event::Stop).refusal, 0, "5,999 leave it running");
        beside.integrate(Event::StartShort, 6_000, 6_000);
        assert_eq!(beside.feed(Event::Stop).refusal, 10, "6,000 have closed it");
        beside.integrate(Event::Start, 6_006, 600_000);
    }
    print(&beside.met);
}

/// The ledger beside an engine whose short integrations close a reading too soon or too late, or
/// whose long ones close as short ones do: the area is not of as many readings as the ledger has.
#[test]
fn a_wrong_limit_is_seen_by_the_ledger() {
    let sheets = [bench::sheet()];
    for (start, right, wrong) in [
        (Event::StartShort, 6_000, 5_999),
        (Event::StartShort, 6_000, 6_001),
        (Event::StartShort, 6_000, 600_000),
        (Event::Start, 600_000, 6_000),
    ] {
        let (mut state, mut ledger) = (State::fresh(), Ledger::fresh());
        let mut check = |event: Event| {
            let entry = Entry::Known(event);
            let (answer, mut next) = step(&sheets, &state, &entry);
            if let Integration::Running { limit, .. } = &mut next.integration {
                assert!([right, wrong].contains(limit));
                *limit = wrong;
            }
            state = next;
            ledger.check(&sheets, &entry, &answer).map(|_| answer.m)
        };
        let sample = Event::Sample { raw: 1_000_000, p: 101_300, t: 29_815, e: 0 };
        let before = [Event::Load { index: 0 }, start];
        let readings = right.min(wrong) as usize;
        assert!(before.into_iter().chain(vec![sample; readings]).all(|event| check(event).is_ok()));
        assert_eq!(check(Event::Area), Ok(readings as u32));
        assert!(check(sample).is_ok());
        let why = check(Event::Area).expect_err("a wrong number of readings");
        assert!(why.contains("readings, the ledger has"), "{why}");
    }
}

/// The lowest wet value of all: the steepest line with the coldest T0, in the warmest and
/// thinnest air. A1, T and T0 have no part in z, and every step after it keeps the order in
/// each of them. P moves z and lifts the wet value as it rises, by more in one unit than
/// rounding z can take back; the lowest pressures are tried all the same, with every e.
fn lowest_wet_value() -> (Sheet, Air, i64) {
    let sheet = Sheet { a1: 1_000_000_000, a2: 0, a3: 0, t0: 27_315, k: 400_000_000 };
    let airs = (60_000..60_010).flat_map(|p| (0..=p / 10).map(move |e| Air { p, t: 32_315, e }));
    let wet = |air: &Air| rules::absolute_reading(&sheet, air, rules::LOWEST_SIGNAL).unwrap();
    let lowest = airs.min_by_key(wet).expect("some air");
    assert_eq!(lowest.p, 60_000);
    (sheet, lowest, wet(&lowest))
}

/// 2(Σ − Xs) − (n − 1)(Xs + Xe) of 600,000 readings whose ends have one value and all others
/// another.
fn area_of_ends(ends: i64, others: i64) -> i128 {
    let (n, ends, others) = (i128::from(READINGS_LIMIT), i128::from(ends), i128::from(others));
    2 * (others * (n - 2) + ends) - (n - 1) * 2 * ends
}

/// The engine's area of so many samples, the first and the last of them of one kind.
fn area_of_samples(sheet: SheetRecord, ends: Event, others: Event) -> i128 {
    let mut state = State::fresh();
    let mut feed = |event: Event| {
        let (answer, next) = step(&[sheet], &state, &Entry::Known(event));
        state = next;
        assert_eq!(answer.refusal, 0, "{event:?}");
        answer
    };
    feed(Event::Load { index: 0 });
    feed(Event::Start);
    feed(ends);
    for _ in 2..READINGS_LIMIT {
        feed(others);
    }
    feed(ends);
    let Answer { m, x, .. } = feed(Event::Area);
    assert_eq!(u64::from(m), READINGS_LIMIT);
    i128::from(x)
}

/// First and last reading as low as they go and all others nearly as high, and the other way
/// round: such an area is above document 01's 3.6 × 10^15 in size, at most what
/// docs/DECISIONS.md says, and so below 2^53.
#[test]
fn the_largest_area() {
    let (sheet, air, lowest) = lowest_wet_value();
    let over = |v: i64| rules::absolute_reading(&sheet, &air, v).is_err();
    let top = rules::first_from(0, rules::SIGNAL_LIMIT, over).expect("an end of the range") - 1;
    let (a1, t0, k) = (sheet.a1 as i32, sheet.t0 as u32, sheet.k as u32);
    let record = SheetRecord { a1, a2: 0, a3: 0, t0, k, rest: 0 };
    let (p, t, e) = (air.p as u32, air.t as u32, air.e as u32);
    let [low, high] =
        [rules::LOWEST_SIGNAL, top].map(|raw| Event::Sample { raw: raw as i32, p, t, e });
    let highest = rules::WET_LIMIT;
    let cases = [
        (area_of_samples(record, low, high), area_of_ends(lowest, highest)),
        (area_of_samples(record, high, low), area_of_ends(highest, lowest)),
    ];
    let page = in_one_line(include_str!("../../docs/DECISIONS.md"));
    let says = |figure: i128| {
        let sign = if figure < 0 { " −" } else { " " };
        let figure = format!("{sign}{}", grouped(&figure.unsigned_abs().to_string()));
        assert!(page.contains(&figure), "docs/DECISIONS.md does not say {figure}");
    };
    says(i128::from(lowest));
    println!("lowest wet value {lowest}");
    for (area, most) in cases {
        println!("area {area}, at most {most} in size");
        assert!(4_079_000_000_000_000 < area.abs() && area.abs() <= most.abs());
        assert!(most.abs() <= 4_080_000_000_000_000);
        says(most);
    }
}

/// A series against a reference gas in changing rooms, read after every sample.
#[test]
fn a_running_area_read_after_every_sample() {
    let (mut state, mut ledger) = (State::fresh(), Ledger::fresh());
    let mut met = Distances::default();
    let mut random = Random::new(33);
    let mut feed = |event: Event| both(&mut state, &mut ledger, &mut met, event);
    feed(Event::Load { index: 0 });
    feed(Event::Reference { cylinder: 400_000_000, e: 1_500 });
    feed(Event::Start);
    for number in 1..=400u32 {
        let p = random.between(95_000, 95_039) as u32;
        let t = random.between(29_000, 31_000) as u32;
        let raw = random.between(-4_000_000, 9_000_000) as i32;
        assert_eq!(feed(Event::Sample { raw, p, t, e: 1_200 }).refusal, 0);
        assert_eq!(feed(Event::Area).m, number);
    }
}

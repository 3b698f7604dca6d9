//! What the invented sessions reach: agreement over them says little about anything that
//! does not occur in them.

use std::collections::BTreeMap;
use std::sync::OnceLock;

use irga_tests::engine::{step, Answer, Entry, Event, Integration, Mode, State};
use irga_tests::exact::{self, Fraction};
use irga_tests::file::{self, EventRecord, Session};
use irga_tests::grounds;
use irga_tests::harness::areas;
use irga_tests::hostile;
use irga_tests::roundings::{self, Rounding, ROUNDINGS};
use irga_tests::rules::{self, Air};
use irga_tests::sessions;
use irga_tests::store::{self, Finding, Stored};

/// Some thousands of them, made once.
fn files() -> &'static [Vec<u8>] {
    static FILES: OnceLock<Vec<Vec<u8>>> = OnceLock::new();
    FILES.get_or_init(|| (0..6_000).map(|number| sessions::make(0x6271, number).file).collect())
}

fn sound() -> impl Iterator<Item = Session> {
    files().iter().filter_map(|file| Session::open(file))
}

/// A record's fields by name, and which kinds have them.
fn fields(record: &EventRecord) -> [(&'static str, &'static [u8], u32); 5] {
    [
        ("raw", &[2, 3, 6], record.raw as u32),
        ("C", &[1, 3, 4], record.c),
        ("P", &[3, 6], record.p),
        ("T", &[3, 6], record.t),
        ("e", &[3, 4, 6], record.e),
    ]
}

/// Each kind meets each field that it lacks, not zero and with its highest bit set.
#[test]
fn every_field_that_a_kind_lacks_is_spoilt() {
    let mut spoilt = [[(0, 0); 5]; 11];
    for record in sound().flat_map(|session| session.events) {
        let Some(of_kind) = spoilt.get_mut(usize::from(record.kind)) else {
            continue;
        };
        for ((any, highest), (_, _, value)) in of_kind.iter_mut().zip(fields(&record)) {
            *any += u32::from(value != 0);
            *highest += value >> 31;
        }
    }
    for kind in 1..=10 {
        let counted = spoilt[usize::from(kind)].iter().zip(fields(&EventRecord::default()));
        for ((any, highest), (name, kinds, _)) in counted {
            if !kinds.contains(&kind) {
                assert!(*any >= 20 && *highest >= 5, "kind {kind}, {name}: {any}, {highest}");
            }
        }
    }
}

/// The bit of the sign turned over where raw is a field.
#[test]
fn every_kind_with_a_raw_signal_meets_its_highest_bit() {
    for kind in [2, 3, 6] {
        let records = sound().flat_map(|session| session.events);
        let far = records.filter(|record| record.kind == kind && record.raw < -1_000_000_000);
        assert!(far.count() >= 20, "kind {kind}");
    }
}

/// The signal at which a sample is read, rounded and exact.
fn signals(state: &State, raw: i64, air: &Air) -> (i64, Fraction) {
    let sheet = state.sheet.expect("a loaded sheet");
    let v = rules::signal_from_raw(raw, state.q, state.s);
    let exact_v = exact::signal_from_raw(raw, state.q, state.s);
    match state.mode {
        Mode::Absolute => (v, exact_v),
        Mode::Reference { cylinder, e } => {
            let r = rules::reference_signal(&sheet, cylinder, &air.with_vapour(e));
            let r = r.expect("a reference signal");
            let exact_signal = exact::signal_against(&exact_v, r, sheet.k);
            (rules::signal_against(v, r, sheet.k), exact_signal)
        }
    }
}

/// Walks a session and hands on each sample that was read or refused for its signal, with
/// 7 or 8: the state before it, its raw signal and air, and its answer.
fn each_sample(session: &Session, mut hand_on: impl FnMut(&State, i64, &Air, &Answer)) {
    let mut state = State::fresh();
    for record in &session.events {
        let entry = record.entry();
        let (answer, next) = step(&session.sheets, &state, &entry);
        if let (0 | 7 | 8, Entry::Known(Event::Sample { raw, p, t, e })) = (answer.refusal, entry) {
            let air = Air { p: i64::from(p), t: i64::from(t), e: i64::from(e) };
            hand_on(&state, i64::from(raw), &air, &answer);
        }
        state = next;
    }
}

/// Refusals with 8 in one mode: by the first ground that applies, by the ground that applies alone,
/// and in how many sessions the first one occurs.
#[derive(Debug, Default)]
struct OverRange {
    first: [u32; 4],
    alone: [u32; 4],
    sessions: [u32; 4],
}

impl OverRange {
    fn count(&mut self, session: &Session, absolutely: bool) {
        let before = self.first;
        each_sample(session, |state, raw, air, answer| {
            if answer.refusal == 8 && (state.mode == Mode::Absolute) == absolutely {
                let sheet = state.sheet.expect("a loaded sheet");
                let passed = grounds::passed(&sheet, air, signals(state, raw, air).0);
                let at = passed.iter().position(|passed| *passed).expect("a ground of refusal 8");
                self.first[at] += 1;
                self.alone[at] += u32::from(passed.iter().filter(|passed| **passed).count() == 1);
            }
        });
        for (place, sessions) in self.sessions.iter_mut().enumerate() {
            *sessions += u32::from(self.first[place] > before[place]);
        }
    }
}

/// A fair share is a quarter, in both modes together. A signal above 150,000,000 never stands alone:
/// its z is above 10^8 at any pressure.
#[test]
fn refusal_8_by_each_of_its_grounds() {
    let [mut absolute, mut against] = [OverRange::default(), OverRange::default()];
    for session in sound() {
        absolute.count(&session, true);
        against.count(&session, false);
    }
    println!("over range in absolute mode: {absolute:?}");
    println!("over range against a reference: {against:?}");
    let both = |one: [u32; 4], other: [u32; 4]| [0, 1, 2, 3].map(|at| one[at] + other[at]);
    let (first, alone) = (both(absolute.first, against.first), both(absolute.alone, against.alone));
    let all: u32 = first.iter().sum();
    println!("refusal 8, {all} times: by the first ground {first:?}, by one alone {alone:?}");
    assert!(all >= 2_000);
    assert!(first.iter().all(|count| 6 * count >= all), "{first:?} of {all}");
    assert!(alone[1..].iter().all(|count| 6 * count >= all), "{alone:?} of {all}");
    for met in [absolute, against] {
        assert!(met.first.iter().all(|count| *count >= 100), "{met:?}");
    }
}

/// Samples at signals around zero, in one mode.
#[derive(Debug, Default)]
struct AroundZero {
    /// Read by the straight line, and among them those at its lowest signal.
    read: u32,
    lowest: u32,
    /// Refused with 7, and among them those one below the lowest signal.
    refused: u32,
    one_below: u32,
    /// The exact signal below zero, and the rounded one not.
    seam: u32,
}

impl AroundZero {
    fn add(&mut self, signal: i64, exact_signal: &Fraction, answer: &Answer) {
        let accepted = answer.refusal == 0;
        // Document 02's R-1, of every sample: 7 exactly below the lowest signal, and the
        // sign of the reading that of its signal, or 0.
        assert_eq!(answer.refusal == 7, signal < rules::LOWEST_SIGNAL);
        assert!(!accepted || answer.x == 0 || (answer.x < 0) == (signal < 0));
        self.read += u32::from(accepted && signal < 0);
        self.lowest += u32::from(accepted && signal == rules::LOWEST_SIGNAL);
        self.refused += u32::from(answer.refusal == 7);
        self.one_below += u32::from(signal == rules::LOWEST_SIGNAL - 1);
        self.seam += u32::from(exact_signal.is_negative() && signal >= 0);
        // Never the other way: a rounded signal is less than 1 below the exact one.
        assert!(exact_signal.is_negative() || signal >= 0);
    }
}

/// Both modes on the line, at its lowest signal and one below it. The seam is met against a
/// reference alone: a raw unit is half a unit of signal or more, and a half is rounded away from
/// zero, so that in absolute mode a signal below zero stays there.
#[test]
fn signals_around_zero() {
    let (mut absolute, mut against) = (AroundZero::default(), AroundZero::default());
    for session in sound() {
        each_sample(&session, |state, raw, air, answer| {
            let (signal, exact_signal) = signals(state, raw, air);
            let absolutely = state.mode == Mode::Absolute;
            let met = if absolutely { &mut absolute } else { &mut against };
            met.add(signal, &exact_signal, answer);
        });
    }
    println!("around zero in absolute mode: {absolute:?}");
    println!("around zero against a reference: {against:?}");
    for met in [&absolute, &against] {
        assert!(met.read >= 1_500, "{met:?}");
        assert!(met.lowest >= 100 && met.one_below >= 50, "{met:?}");
        assert!(met.refused >= met.one_below + 20, "{met:?}");
    }
    assert!(absolute.seam == 0 && against.seam >= 50, "{absolute:?}, {against:?}");
}

/// Document 02's R-6: every rounding of an accepted sample meets halves, on both sides of zero
/// where it has both.
#[test]
fn halves_on_both_sides_of_zero() {
    let mut met: BTreeMap<(Rounding, bool), u32> = BTreeMap::new();
    for session in sound() {
        each_sample(&session, |state, raw, air, answer| {
            if answer.refusal == 0 {
                let values = roundings::values(state, raw, air, answer, |rounding, a, b| {
                    let half = 2 * a.abs() % (2 * b) == b;
                    *met.entry((rounding, a < 0)).or_default() += u32::from(half);
                    rules::near(a, b)
                });
                assert_eq!(values, [answer.x, answer.y]);
            }
        });
    }
    for rounding in ROUNDINGS {
        let [above, below] = [false, true].map(|below| *met.get(&(rounding, below)).unwrap_or(&0));
        println!("halves at {rounding:?}: {above} above zero, {below} below");
        let least = if rounding.below_zero_too() { above.min(below) } else { above };
        assert!(least >= 20, "{rounding:?}: {above}, {below}");
    }
}

/// What the sessions meet of R-7's store, counted by samples against a reference whose inputs pass
/// check 6.
#[derive(Debug, Default)]
struct StoreMet {
    /// They take what is stored: any, "nothing" among them, and those where the event before was
    /// an accepted zero, a refused reference, or a sample refused with 6.
    taken: u32,
    nothing_taken: u32,
    after_zero: u32,
    after_refused_reference: u32,
    after_6: u32,
    /// They search: with nothing stored, at another P alone, T alone, or both, and at a P and T
    /// that an earlier search had since the store was last emptied.
    searched_empty: u32,
    other_p: u32,
    other_t: u32,
    other_both: u32,
    returned: u32,
    /// They store and are refused with 7, 8 or 9, and a later sample takes what they stored.
    stored_refused: [u32; 3],
    taken_from_refused: [u32; 3],
    /// They search at the P and T that were stored until a load, a reference or an absolute
    /// emptied it.
    emptied: [u32; 3],
}

/// What is to be known of the events before a sample to count it.
#[derive(Default)]
struct StoreWalk {
    /// Kind and refusal of the event before.
    last: (u8, u8),
    /// P and T of the searches since the store was last emptied.
    searches: Vec<(i64, i64)>,
    /// The refusal of the sample that stored what is stored.
    stored_by: u8,
    /// What stood stored when it was last emptied, and the kinds that have emptied since.
    emptied: Option<Finding>,
    kinds: Vec<u8>,
}

impl StoreMet {
    fn take(&mut self, finding: &Finding, walk: &StoreWalk) {
        self.taken += 1;
        self.nothing_taken += u32::from(finding.found.is_none());
        self.after_zero += u32::from(walk.last == (2, 0));
        self.after_refused_reference += u32::from(walk.last.0 == 4 && walk.last.1 != 0);
        self.after_6 += u32::from(walk.last == (6, 6));
        if let 7..=9 = walk.stored_by {
            self.taken_from_refused[usize::from(walk.stored_by - 7)] += 1;
        }
    }

    fn search(&mut self, stored: Stored, air: &Air, refusal: u8, walk: &StoreWalk) {
        match stored.map(|finding| (finding.p == air.p, finding.t == air.t)) {
            None => self.searched_empty += 1,
            Some((false, true)) => self.other_p += 1,
            Some((true, false)) => self.other_t += 1,
            Some(_) => self.other_both += 1,
        }
        self.returned += u32::from(walk.searches.contains(&(air.p, air.t)));
        if let 7..=9 = refusal {
            self.stored_refused[usize::from(refusal - 7)] += 1;
        }
        let alike = walk.emptied.is_some_and(|old| (old.p, old.t) == (air.p, air.t));
        for (count, kind) in self.emptied.iter_mut().zip([1, 4, 5]) {
            *count += u32::from(stored.is_none() && alike && walk.kinds.contains(&kind));
        }
    }

    /// Walks a session with a store beside the engine.
    fn count(&mut self, session: &Session) {
        let mut walk = StoreWalk::default();
        for ((state, stored, answer), record) in store::walk(session, None).zip(&session.events) {
            let against = matches!(state.mode, Mode::Reference { .. }) && state.sheet.is_some();
            let checked = matches!(answer.refusal, 0 | 7 | 8 | 9);
            if answer.kind == 6 && against && checked {
                let air = Air { p: record.p.into(), t: record.t.into(), e: record.e.into() };
                match stored.filter(|finding| (finding.p, finding.t) == (air.p, air.t)) {
                    Some(finding) => self.take(&finding, &walk),
                    None => {
                        self.search(stored, &air, answer.refusal, &walk);
                        walk.searches.push((air.p, air.t));
                        (walk.stored_by, walk.emptied) = (answer.refusal, None);
                    }
                }
            }
            if matches!((answer.kind, answer.refusal), (1 | 4 | 5, 0)) {
                if stored.is_some() {
                    (walk.emptied, walk.kinds) = (stored, Vec::new());
                }
                walk.kinds.push(answer.kind);
                walk.searches.clear();
            }
            walk.last = (answer.kind, answer.refusal);
        }
    }
}

/// Document 02's R-7: pressure and temperature stay, alternate and return, around every event that
/// empties the store or leaves it.
#[test]
fn findings_stored_taken_and_emptied() {
    let mut met = StoreMet::default();
    sound().for_each(|session| met.count(&session));
    println!("{met:#?}");
    assert!(met.taken >= 10_000 && met.nothing_taken >= 100, "{met:?}");
    let left = [met.after_zero, met.after_refused_reference, met.after_6];
    let searched = [met.searched_empty, met.other_p, met.other_t, met.other_both, met.returned];
    for counts in [&left[..], &searched, &met.stored_refused, &met.taken_from_refused, &met.emptied]
    {
        assert!(counts.iter().all(|count| *count >= 40), "{met:?}");
    }
}

/// What the sessions meet of R-10's short start.
#[derive(Debug, Default)]
struct ShortMet {
    /// Refused for want of a sheet, and accepted: with no integration, while one runs and after a
    /// closed one, which a long start began or a short one.
    no_sheet: u32,
    idle: u32,
    running: [u32; 2],
    /// While one runs that has counted nothing yet.
    running_empty: u32,
    closed: [u32; 2],
    /// Malformed by one field alone, by the bytes behind the kind alone, and in any way while an
    /// integration runs, and where there is no sheet: 11 comes before 1.
    fields: [u32; 5],
    padding: u32,
    malformed_running: [u32; 2],
    malformed_no_sheet: u32,
    /// A long start while a short integration runs, and after a closed one.
    long_after: [u32; 2],
    /// A short integration that a stop closes, and a refused sample.
    stopped: u32,
    gap: u32,
    /// Areas of short integrations, of one reading and of more, and of the short ones that began
    /// anew: while one ran, or after a closed one.
    areas: [u32; 2],
    areas_anew: u32,
}

/// Which start began the integration that stands, and whether it took the place of another.
#[derive(Clone, Copy, Default)]
struct Begun {
    short: bool,
    anew: bool,
}

impl ShortMet {
    /// A well-formed short start that was accepted.
    fn start(&mut self, state: &State, begun: Begun) {
        match state.integration {
            Integration::Idle => self.idle += 1,
            Integration::Running { tally, .. } => {
                self.running[usize::from(begun.short)] += 1;
                self.running_empty += u32::from(tally.n == 0);
            }
            Integration::Closed(_) => self.closed[usize::from(begun.short)] += 1,
        }
    }

    fn malformed(&mut self, record: &EventRecord, state: &State, begun: Begun) {
        let spoilt = fields(record).map(|(_, _, value)| value != 0);
        let (padding, count) =
            (record.padding != [0; 3], spoilt.iter().filter(|spoilt| **spoilt).count());
        for (met, _) in self.fields.iter_mut().zip(spoilt).filter(|(_, spoilt)| *spoilt) {
            *met += u32::from(count == 1 && !padding);
        }
        self.padding += u32::from(count == 0 && padding);
        let runs = matches!(state.integration, Integration::Running { .. });
        self.malformed_running[usize::from(begun.short)] += u32::from(runs);
        self.malformed_no_sheet += u32::from(state.sheet.is_none());
    }

    /// What another event does to a short integration or gets of it.
    fn other(&mut self, answer: &Answer, state: &State, begun: Begun) {
        let runs = matches!(state.integration, Integration::Running { .. });
        match (answer.kind, answer.refusal, runs) {
            (6, 1.., true) => self.gap += 1,
            (7, 0, true) => self.long_after[0] += 1,
            (7, 0, false) if state.integration != Integration::Idle => self.long_after[1] += 1,
            (8, 0, _) => self.stopped += 1,
            (9, 0, _) => {
                self.areas[usize::from(answer.m > 1)] += 1;
                self.areas_anew += u32::from(begun.anew);
            }
            _ => {}
        }
    }

    fn count(&mut self, session: &Session) {
        let mut begun = Begun::default();
        for ((state, answer), record) in session.walk().zip(&session.events) {
            match (answer.kind, answer.refusal) {
                (10, 0) => self.start(&state, begun),
                (10, 1) => self.no_sheet += 1,
                (10, _) => self.malformed(record, &state, begun),
                _ if begun.short => self.other(&answer, &state, begun),
                _ => {}
            }
            if let (7 | 10, 0) = (answer.kind, answer.refusal) {
                let anew = state.integration != Integration::Idle;
                begun = Begun { short: answer.kind == 10, anew };
            }
        }
    }
}

/// Document 02's R-10: a short start with and without a sheet, malformed in each way, and wherever an
/// integration can stand before it.
#[test]
fn short_starts() {
    let mut met = ShortMet::default();
    sound().for_each(|session| met.count(&session));
    println!("{met:#?}");
    let begun = [met.idle, met.running[0], met.running[1], met.closed[0], met.closed[1]];
    let closed = [met.long_after[0], met.long_after[1], met.stopped, met.gap, met.areas_anew];
    for counts in [&begun, &closed, &met.fields] {
        assert!(counts.iter().all(|count| *count >= 40), "{met:?}");
    }
    let malformed = [met.malformed_running[0], met.malformed_running[1], met.malformed_no_sheet];
    let others = [met.no_sheet, met.running_empty, met.padding];
    assert!(malformed.iter().chain(&others).all(|count| *count >= 40), "{met:?}");
    assert!(met.areas.iter().all(|count| *count >= 500), "{met:?}");
}

/// Areas of readings on both sides of zero, whose sum can cancel.
#[test]
fn areas_across_zero() {
    let areas = sound().flat_map(|session| areas(&session.answers()));
    let sign = |counted: &[i64], sign: i64| counted.iter().any(|wet| wet.signum() == sign);
    let across = areas.filter(|(_, counted)| sign(counted, -1) && sign(counted, 1)).count();
    println!("areas of readings on both sides of zero: {across}");
    assert!(across >= 1_000, "{across}");
}

/// Document 02's R-5: an area of one reading and of a flat line is 0. Every area is what its
/// readings after the first have above the middle of first and last, twice.
#[test]
fn areas_of_one_reading_and_of_flat_lines() {
    let (mut one, mut flat, mut flat_below, mut others) = (0, 0, 0, 0);
    for answers in sound().map(|session| session.answers()) {
        for (place, counted) in areas(&answers) {
            let (area, first, last) = (answers[place].x, counted[0], counted[counted.len() - 1]);
            let steady = counted.iter().all(|wet| *wet == first);
            assert!(!steady || area == 0, "{counted:?}");
            let above_the_ends = counted[1..].iter().map(|wet| 2 * wet - first - last);
            assert_eq!(area, above_the_ends.sum::<i64>(), "{counted:?}");
            match counted.len() {
                1 => one += 1,
                _ if steady && first < 0 => flat_below += 1,
                _ if steady => flat += 1,
                _ => others += 1,
            }
        }
    }
    println!("areas of one reading: {one}; of flat lines: {flat}, below zero {flat_below}");
    println!("other areas: {others}");
    assert!(one >= 1_000 && flat >= 300 && flat_below >= 20 && others >= 5_000);
}

#[test]
fn every_number_of_sheets() {
    let mut counts = [0; file::SHEETS_LIMIT + 1];
    sound().for_each(|session| counts[session.sheets.len()] += 1);
    assert!(counts.iter().all(|count| *count >= 20), "{counts:?}");
}

/// Too many sheets, too many events or both, so that the sums come out right in 32 bits: all
/// are refused.
#[test]
fn headers_whose_sums_wrap() {
    let mut met = [0; 3];
    for file in files().iter().filter(|file| hostile::sums_wrap(file)) {
        let [sheets, _, events, _] = hostile::header(file).expect("a header");
        let too_many = [sheets > file::SHEETS_LIMIT as u64, events > file::EVENTS_LIMIT as u64];
        met[if too_many == [true; 2] { 2 } else { usize::from(too_many[1]) }] += 1;
        assert_eq!(file::program(file), "0 0 12 0 0 0\n");
    }
    assert!(met.iter().all(|count| *count >= 3), "{met:?}");
}

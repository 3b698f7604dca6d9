//! R-9's grounds of over range: those worked out by hand, what document 02 says of every sample, what
//! the invented sessions reach, and tools that are wrong: a comparison that could not fail would be
//! worth nothing.

use std::path::Path;

use irga_tests::bench;
use irga_tests::engine::{Answer, Entry, Event, Mode, SheetRecord, State};
use irga_tests::file::{EventRecord, Outcome, Session};
use irga_tests::grounds::{self, by_hand, ground, passed, Ground, Sample};
use irga_tests::harness::{check_grounds, Campaign};
use irga_tests::rules::{self, Air, Sheet};
use irga_tests::sessions;
use irga_tests::store::{self, Fault, Finding, Stored, FAULTS};

fn campaign(sessions: u64) -> Campaign {
    let folder = Path::new(env!("CARGO_TARGET_TMPDIR")).to_path_buf();
    Campaign { seed: 0x6290, sessions, folder }
}

#[test]
fn grounds_worked_out_by_hand() {
    for owed in by_hand::owed_grounds() {
        let answers = owed.session.answers();
        let refusals: Vec<u8> = answers.iter().map(|answer| answer.refusal).collect();
        assert_eq!(refusals, owed.refusals, "{}", owed.name);
        assert_eq!(check_grounds(&owed, &mut grounds::grounds), Ok(()));
    }
}

/// 12 before 13, and nothing is written then. A file without an event needs no buffer.
#[test]
fn files_that_are_turned_away() {
    let sound = by_hand::owed_grounds()[0].session.to_bytes();
    let events = Session::open(&sound).expect("a sound file").events.len();
    let empty = Session::default().to_bytes();
    for (file, room, status) in [
        (&sound[1..], events, 12),
        (&sound[1..], 0, 12),
        (&[][..], 0, 12),
        (&sound, events - 1, 13),
        (&sound, 0, 13),
    ] {
        let mut out = vec![b'#'; room];
        assert_eq!(grounds::grounds(file, &mut out), Outcome { status, written: 0 });
        assert_eq!(out, vec![b'#'; room]);
    }
    assert_eq!(grounds::grounds(&empty, &mut []), Outcome { status: 0, written: 0 });
}

/// Every status, buffer, ground and limit, by our own tool; how often, with `-- --nocapture`.
#[test]
fn what_invented_sessions_reach() {
    let met = campaign(3_000).against_grounds(&mut grounds::grounds);
    let met = met.unwrap_or_else(|why| panic!("{why}"));
    println!("{met}");
    let rare = met.rarer_than(100);
    assert!(rare.is_empty(), "{rare:?}");
}

/// A seed and a number make the same session at any time.
#[test]
fn sessions_are_made_again() {
    assert_eq!(sessions::grounds::aimed(3, 7), sessions::grounds::aimed(3, 7));
    assert_ne!(sessions::grounds::aimed(3, 7), sessions::grounds::aimed(3, 8));
}

/// The limits that a sample passes, by the engine that stores nothing. z is above 10^8 where the exact
/// quotient is so by half a unit or more.
fn limits_passed(state: &State, record: &EventRecord) -> (i64, [bool; 4]) {
    let sheet = state.sheet.expect("a loaded sheet");
    let air = Air { p: record.p.into(), t: record.t.into(), e: record.e.into() };
    let v = rules::signal_from_raw(record.raw.into(), state.q, state.s);
    let signal = match state.mode {
        Mode::Absolute => v,
        Mode::Reference { cylinder, e } => {
            let r = rules::reference_signal(&sheet, cylinder, &air.with_vapour(e));
            rules::signal_against(v, r.expect("a reference signal"), sheet.k)
        }
    };
    let twice_z = 2 * 10_130_000 * i128::from(signal);
    let z_passed = twice_z >= 200_000_001 * i128::from(100 * air.p + 57 * air.e);
    let wet = rules::steps(&sheet, &air, signal).c;
    (signal, [signal > 150_000_000, signal >= sheet.k, z_passed, wet > 3_000_000_000])
}

/// Document 02: a ground exactly where the engine refuses with 8; the named limit is passed, and the
/// earlier ones are not. Where a sample is accepted, none is.
fn assert_grounds(session: &Session, named: &mut [[u32; 5]; 2]) {
    let mut bytes = vec![9; session.events.len()];
    let outcome = grounds::grounds(&session.to_bytes(), &mut bytes);
    assert_eq!(outcome, Outcome { status: 0, written: bytes.len() });
    for (((state, answer), record), ground) in session.walk().zip(&session.events).zip(bytes) {
        assert_eq!(ground != 0, answer.refusal == 8, "{state:?} {record:?}");
        if answer.kind != 6 || !matches!(answer.refusal, 0 | 7 | 8) {
            continue;
        }
        let (signal, passed) = limits_passed(&state, record);
        let first = passed.iter().position(|passed| *passed).map_or(0, |place| place + 1);
        assert_eq!(usize::from(ground), first, "{state:?} {record:?}");
        assert_eq!(answer.refusal == 7, signal < -2_000_000, "{state:?} {record:?}");
        named[usize::from(state.mode != Mode::Absolute)][usize::from(ground)] += 1;
    }
}

#[test]
fn what_document_02_says_of_every_sample() {
    let mut named = [[0; 5]; 2];
    for number in 0..4_000 {
        let made = Session::open(&sessions::make(0x6291, number).file);
        for session in made.into_iter().chain([sessions::grounds::aimed(0x6291, number)]) {
            assert_grounds(&session, &mut named);
        }
    }
    let [absolute, against] = named;
    println!(
        "none, then grounds 1 to 4: {absolute:?} in absolute mode, {against:?} against a reference"
    );
    assert!(named.iter().flatten().all(|count| *count >= 500), "{named:?}");
}

/// Document 02's R-7: at the stored P and T what is stored counts, and else what a search finds. On the
/// bench against 1,000,000,000, V 140,000,000 is read at 152,000,000 with R 40,000,000, which a search
/// finds, and hardly elsewhere with the R of a pressure or temperature one unit off; with R 0 it is read at
/// 140,000,000, and in absolute mode too.
#[test]
fn what_is_stored_counts_at_its_p_and_t() {
    let sheet = bench::sheet().accepted();
    let mode = Mode::Reference { cylinder: 1_000_000_000, e: 0 };
    let against = State { sheet, mode, ..State::fresh() };
    let absolute = State { mode: Mode::Absolute, ..against };
    let altered = |found| Some(Finding { p: 101_300, t: 29_815, found });
    let at = |p, t| Entry::Known(Event::Sample { raw: 140_000_000, p, t, e: 0 });
    for (state, stored, entry, named) in [
        (against, None, at(101_300, 29_815), Ground::Signal),
        (against, altered(Some(40_000_000)), at(101_300, 29_815), Ground::Signal),
        (against, altered(Some(0)), at(101_300, 29_815), Ground::Reduced),
        (against, altered(Some(0)), at(101_299, 29_815), Ground::Signal),
        (against, altered(Some(0)), at(101_300, 29_814), Ground::Signal),
        (against, altered(None), at(101_300, 29_815), Ground::None),
        (against, altered(None), at(101_299, 29_815), Ground::Signal),
        (absolute, altered(Some(40_000_000)), at(101_300, 29_815), Ground::Reduced),
        (absolute, altered(None), at(101_300, 29_815), Ground::Reduced),
    ] {
        assert_eq!(ground(&state, stored, &entry), named, "{stored:?} {entry:?}");
    }
}

/// What a wrong tool is told of an event.
struct Met {
    state: State,
    stored: Stored,
    record: EventRecord,
    answer: Answer,
}

impl Met {
    fn of(session: &Session) -> Vec<Met> {
        let walk = store::walk(session, None).zip(&session.events);
        walk.map(|((state, stored, answer), record)| Met { state, stored, record: *record, answer })
            .collect()
    }

    fn right(&self) -> u8 {
        ground(&self.state, self.stored, &self.record.entry()).number()
    }

    /// From another state.
    fn from(&self, state: State) -> u8 {
        ground(&state, self.stored, &self.record.entry()).number()
    }

    /// By other limits, where the sample is read at all.
    fn by(&self, limits: impl Fn(&Sheet, &Air, i64) -> [bool; 4]) -> [bool; 4] {
        let read = Sample::of(&self.record.entry()).and_then(|sample| {
            let (sheet, signal) = grounds::signal(&self.state, self.stored, &sample)?;
            Some(limits(&sheet, &sample.air, signal))
        });
        read.unwrap_or_default()
    }

    /// With another reference signal, against a reference, where the inputs are within their limits.
    fn with(&self, find: impl Fn(&Sheet, i64, &Air) -> Option<i64>) -> u8 {
        let sample = Sample::of(&self.record.entry());
        let (Some(sheet), Some(sample), Mode::Reference { cylinder, e }, 0 | 7..=9) =
            (self.state.sheet, sample, self.state.mode, self.answer.refusal)
        else {
            return self.right();
        };
        let Air { p, t, .. } = sample.air;
        let found = find(&sheet, cylinder, &sample.air.with_vapour(e));
        let stored = Some(Finding { p, t, found });
        ground(&self.state, stored, &self.record.entry()).number()
    }

    /// At another signal, made of V, R and K, against a reference.
    fn at(&self, signal: impl Fn(i64, i64, i64) -> i64) -> u8 {
        let limits = |sheet: &Sheet, air: &Air, right: i64| {
            let Mode::Reference { cylinder, e } = self.state.mode else {
                return passed(sheet, air, right);
            };
            let v = rules::signal_from_raw(self.record.raw.into(), self.state.q, self.state.s);
            let r = rules::reference_signal(sheet, cylinder, &air.with_vapour(e)).unwrap_or(0);
            passed(sheet, air, signal(v, r, sheet.k))
        };
        Ground::first(self.by(limits)).number()
    }
}

type Tool = dyn FnMut(&[u8], &mut [u8]) -> Outcome;

/// A tool that is wrong in one thing.
struct Wrong {
    what: &'static str,
    says: &'static str,
    tool: Box<Tool>,
}

const OUTCOME: &str = ": expected Outcome";
const GROUND: &str = ": expected ground";
const TOUCHED: &str = "after the grounds was touched";

fn wrong_tool(
    what: &'static str,
    says: &'static str,
    tool: fn(&[u8], &mut [u8]) -> Outcome,
) -> Wrong {
    Wrong { what, says, tool: Box::new(tool) }
}

/// Other bytes in the place of the right ones.
fn wrong_bytes(what: &'static str, bytes: impl Fn(&Session) -> Vec<u8> + 'static) -> Wrong {
    let tool = move |file: &[u8], out: &mut [u8]| {
        let outcome = grounds::grounds(file, out);
        if let Some(session) = Session::open(file).filter(|_| outcome.status == 0) {
            out[..outcome.written].copy_from_slice(&bytes(&session));
        }
        outcome
    };
    Wrong { what, says: GROUND, tool: Box::new(tool) }
}

fn wrong_byte(what: &'static str, byte: impl Fn(&Met) -> u8 + 'static) -> Wrong {
    wrong_bytes(what, move |session| Met::of(session).iter().map(&byte).collect())
}

/// Other limits in their places.
fn wrong_limits(what: &'static str, limits: fn(&Sheet, &Air, i64) -> [bool; 4]) -> Wrong {
    wrong_byte(what, move |met| Ground::first(met.by(limits)).number())
}

/// The right limits, of which another one is named.
fn wrong_choice(what: &'static str, name: fn([bool; 4]) -> u8) -> Wrong {
    wrong_byte(what, move |met| name(met.by(passed)))
}

/// The right limits, looked at in another order.
fn wrong_order(what: &'static str, order: [u8; 4]) -> Wrong {
    wrong_byte(what, move |met| {
        let passed = met.by(passed);
        let first = order.into_iter().find(|number| passed[usize::from(*number) - 1]);
        first.unwrap_or(0)
    })
}

/// Another number in the place of one.
fn wrong_number(what: &'static str, right: u8, named: u8) -> Wrong {
    wrong_byte(what, move |met| Some(met.right()).filter(|it| *it != right).unwrap_or(named))
}

/// A ground where the sample was refused with another number.
fn wrong_refusal(what: &'static str, refusal: u8, named: u8) -> Wrong {
    wrong_byte(what, move |met| {
        let refused = met.answer.kind == 6 && met.answer.refusal == refusal;
        if refused {
            named
        } else {
            met.right()
        }
    })
}

fn wrong_choices() -> Vec<Wrong> {
    vec![
        wrong_order("1 and 2 exchanged in their order", [2, 1, 3, 4]),
        wrong_order("2 and 3 exchanged in their order", [1, 3, 2, 4]),
        wrong_order("3 and 4 exchanged in their order", [1, 2, 4, 3]),
        wrong_order("the last that holds", [4, 3, 2, 1]),
        wrong_number("the fourth for the third", 3, 4),
        wrong_number("the third for the fourth", 4, 3),
        wrong_number("the first for the second", 2, 1),
        wrong_byte("numbers from 0", |met| met.right().saturating_sub(1)),
        wrong_byte("the refusal's number", |met| if met.right() > 0 { 8 } else { 0 }),
        wrong_byte("always the same", |met| met.right().min(1)),
        wrong_byte("never a ground", |_| 0),
        wrong_choice("all that hold, as bits", |passed| {
            passed.iter().zip(0..).map(|(passed, bit)| u8::from(*passed) << bit).sum()
        }),
        wrong_choice("how many hold", |passed| passed.iter().map(|passed| u8::from(*passed)).sum()),
    ]
}

fn wrong_limit_ends() -> Vec<Wrong> {
    vec![
        wrong_limits("a signal of 150,000,000", |sheet, air, signal| {
            let [_, k, z, wet] = passed(sheet, air, signal);
            [signal >= rules::SIGNAL_LIMIT, k, z, wet]
        }),
        wrong_limits("a signal above K alone", |sheet, air, signal| {
            let [high, _, z, wet] = passed(sheet, air, signal);
            [high, signal > sheet.k, z, wet]
        }),
        wrong_limits("z of 10^8", |sheet, air, signal| {
            let [high, k, _, wet] = passed(sheet, air, signal);
            [high, k, rules::steps(sheet, air, signal).z >= rules::Z_LIMIT, wet]
        }),
        wrong_limits("a wet value of 3,000,000,000", |sheet, air, signal| {
            let [high, k, z, _] = passed(sheet, air, signal);
            [high, k, z, rules::steps(sheet, air, signal).c >= rules::WET_LIMIT]
        }),
        wrong_limits("no limit of the signal", |sheet, air, signal| {
            let [_, k, z, wet] = passed(sheet, air, signal);
            [false, k, z, wet]
        }),
        wrong_limits("no limit of K", |sheet, air, signal| {
            let [high, _, z, wet] = passed(sheet, air, signal);
            [high, false, z, wet]
        }),
        wrong_limits("no limit of z", |sheet, air, signal| {
            let [high, k, _, wet] = passed(sheet, air, signal);
            [high, k, false, wet]
        }),
        wrong_limits("no limit of the wet value", |sheet, air, signal| {
            let [high, k, z, _] = passed(sheet, air, signal);
            [high, k, z, false]
        }),
    ]
}

/// Other values beside the right limits.
fn wrong_values() -> Vec<Wrong> {
    vec![
        wrong_limits("z without the pressure", |sheet, air, signal| {
            let [high, k, _, wet] = passed(sheet, air, signal);
            [high, k, signal > rules::Z_LIMIT, wet]
        }),
        wrong_limits("z that is cut", |sheet, air, signal| {
            let [high, k, _, wet] = passed(sheet, air, signal);
            let z = 10_130_000 * i128::from(signal) / i128::from(air.broadened());
            [high, k, z > i128::from(rules::Z_LIMIT), wet]
        }),
        wrong_limits("the sample's e left out", |sheet, air, signal| {
            passed(sheet, &air.with_vapour(0), signal)
        }),
        wrong_limits("e left out of D alone", |sheet, air, signal| {
            let [high, k, _, wet] = passed(sheet, air, signal);
            [high, k, rules::steps(sheet, &air.with_vapour(0), signal).z > rules::Z_LIMIT, wet]
        }),
        wrong_limits("the dry value", |sheet, air, signal| {
            let [high, k, z, _] = passed(sheet, air, signal);
            let wet = rules::steps(sheet, air, signal).c;
            [high, k, z, rules::dry_value(wet, air) > rules::WET_LIMIT]
        }),
        wrong_limits("g for the wet value", |sheet, air, signal| {
            let [high, k, z, _] = passed(sheet, air, signal);
            [high, k, z, rules::steps(sheet, air, signal).g > rules::WET_LIMIT]
        }),
        wrong_limits("T and T0 exchanged", |sheet, air, signal| {
            let (sheet, air) = (Sheet { t0: air.t, ..*sheet }, Air { t: sheet.t0, ..*air });
            passed(&sheet, &air, signal)
        }),
    ]
}

/// Another signal, by the state or by the reference.
fn wrong_signals() -> Vec<Wrong> {
    vec![
        wrong_byte("the zero left out", |met| met.from(State { q: 0, ..met.state })),
        wrong_byte("the zero added", |met| met.from(State { q: -met.state.q, ..met.state })),
        wrong_byte("the span left out", |met| met.from(State { s: rules::SPAN_UNIT, ..met.state })),
        wrong_byte("absolute mode always", |met| {
            met.from(State { mode: Mode::Absolute, ..met.state })
        }),
        wrong_byte("R left out of the signal", |met| met.at(|v, _, _| v)),
        wrong_byte("R left out of the sum", |met| {
            met.at(|v, r, k| rules::signal_against(v, r, k) - r)
        }),
        wrong_byte("the share left out", |met| met.at(|v, r, _| v + r)),
        wrong_byte("the share added", |met| {
            met.at(|v, r, k| 2 * (v + r) - rules::signal_against(v, r, k))
        }),
        wrong_byte("R found at T0", |met| {
            met.with(|sheet, cylinder, air| {
                rules::reference_signal(sheet, cylinder, &Air { t: sheet.t0, ..*air }).ok()
            })
        }),
        wrong_byte("R found with the sample's e", |met| {
            met.with(|sheet, cylinder, air| {
                let air = air.with_vapour(met.record.e.into());
                rules::reference_signal(sheet, cylinder, &air).ok()
            })
        }),
        wrong_byte("R 0 where there is none", |met| {
            met.with(|sheet, cylinder, air| {
                Some(rules::reference_signal(sheet, cylinder, air).unwrap_or(0))
            })
        }),
    ]
}

/// What the finding that a faulty store holds gives.
fn by_store(fault: Fault, session: &Session) -> Vec<u8> {
    let (mut state, mut stored) = (State::fresh(), None);
    let grounds = session.events.iter().map(|record| {
        let entry = record.entry();
        let (answer, next, kept) =
            store::step(Some(fault), &session.sheets, (&state, stored), &entry);
        let (p, t) = (record.p.into(), record.t.into());
        let taken = kept.map(|finding| Finding { p, t, ..finding });
        let named = ground(&state, taken, &entry).number();
        (state, stored) = (next, kept);
        if answer.refusal == 8 {
            named
        } else {
            0
        }
    });
    grounds.collect()
}

fn wrong_stores() -> Vec<Wrong> {
    let names = [
        "a finding kept at a reference",
        "a finding taken at another P",
        "a finding taken at another T",
        "a finding kept where there is none",
    ];
    let faults = names.into_iter().zip(FAULTS);
    faults.map(|(what, fault)| wrong_bytes(what, move |session| by_store(fault, session))).collect()
}

/// A ground where there is none.
fn wrong_events() -> Vec<Wrong> {
    let as_sample =
        |met: &Met, event: &Event| ground(&met.state, met.stored, &Entry::Known(*event)).number();
    vec![
        wrong_refusal("a ground at 7", 7, 1),
        wrong_refusal("a ground at 9", 9, 2),
        wrong_refusal("a ground at 6", 6, 1),
        wrong_refusal("a ground at 1", 1, 1),
        wrong_refusal("a ground at 11", 11, 1),
        wrong_byte("the fields of a malformed sample", move |met| {
            let event = met.record.event_of_kind();
            event.map_or(0, |event| as_sample(met, &event))
        }),
        wrong_byte("a span that is refused", move |met| match met.record.event_of_kind() {
            Some(Event::Span { raw, p, t, e, .. }) if met.answer.refusal == 5 => {
                as_sample(met, &Event::Sample { raw, p, t, e })
            }
            _ => met.right(),
        }),
        wrong_byte("raw beyond its limits held", |met| {
            let limit = rules::SIGNAL_LIMIT as i32;
            let raw = met.record.raw.clamp(-limit, limit);
            let record = EventRecord { raw, ..met.record };
            ground(&met.state, met.stored, &record.entry()).number()
        }),
    ]
}

/// The right grounds in other places, or of another sheet.
fn wrong_places() -> Vec<Wrong> {
    vec![
        wrong_bytes("a ground that stays until the next sample", |session| {
            let mut last = 0;
            let kept = Met::of(session).into_iter().map(|met| {
                last = if met.answer.kind == 6 { met.right() } else { last };
                last
            });
            kept.collect()
        }),
        wrong_bytes("from the second event on, the one before", |session| {
            let grounds = Met::of(session).into_iter().map(|met| met.right());
            [0].into_iter().chain(grounds).take(session.events.len()).collect()
        }),
        wrong_bytes("from the last event on", |session| {
            Met::of(session).iter().rev().map(Met::right).collect()
        }),
        wrong_bytes("the first sheet alone", |session| {
            let first = session.sheets.first().and_then(SheetRecord::accepted);
            let grounds = Met::of(session).into_iter().map(|met| {
                let sheet = met.state.sheet.and(first);
                met.from(State { sheet, ..met.state })
            });
            grounds.collect()
        }),
    ]
}

/// Says a status where something holds, and is right otherwise.
fn said_if(holds: bool, status: u8, file: &[u8], out: &mut [u8]) -> Outcome {
    if holds {
        Outcome { status, written: 0 }
    } else {
        grounds::grounds(file, out)
    }
}

fn events(file: &[u8]) -> usize {
    Session::open(file).map_or(0, |session| session.events.len())
}

/// Other statuses, and a buffer that is touched where nothing is written.
fn wrong_statuses() -> Vec<Wrong> {
    vec![
        wrong_tool("13 before 12", OUTCOME, |file, out| {
            // As many events as its header says, by the lowest byte of their number.
            let count = file.get(8..12).map_or(1, |word| usize::from(word[0]));
            said_if(Session::open(file).is_none() && out.len() < count, 13, file, out)
        }),
        wrong_tool("12 for an output too short", OUTCOME, |file, out| {
            said_if(out.len() < events(file), 12, file, out)
        }),
        wrong_tool("24 bytes asked for each event", OUTCOME, |file, out| {
            said_if(out.len() < 24 * events(file), 13, file, out)
        }),
        wrong_tool("a byte more asked for", OUTCOME, |file, out| {
            said_if(Session::open(file).is_some() && out.len() == events(file), 13, file, out)
        }),
        wrong_tool("a buffer cleared at 12", TOUCHED, |file, out| {
            let outcome = grounds::grounds(file, out);
            if outcome.status == 12 {
                out.fill(0);
            }
            outcome
        }),
    ]
}

/// Other lengths.
fn wrong_lengths() -> Vec<Wrong> {
    vec![
        wrong_tool("no buffer is too short", OUTCOME, |file, out| {
            let fitting = out.len();
            let mut whole = vec![0; events(file)];
            let Outcome { status, written } = grounds::grounds(file, &mut whole);
            let written = written.min(fitting);
            out[..written].copy_from_slice(&whole[..written]);
            Outcome { status, written }
        }),
        wrong_tool("a byte for samples only", OUTCOME, |file, out| {
            let Outcome { status: 0, written } = grounds::grounds(file, out) else {
                return grounds::grounds(file, out);
            };
            let records = Session::open(file).map_or(Vec::new(), |session| session.events);
            let samples =
                records.iter().zip(out[..written].to_vec()).filter(|(record, _)| record.kind == 6);
            let bytes: Vec<u8> = samples.map(|(_, byte)| byte).collect();
            out[..bytes.len()].copy_from_slice(&bytes);
            Outcome { status: 0, written: bytes.len() }
        }),
        wrong_tool("as many as were lent", OUTCOME, |file, out| {
            let Outcome { status, written } = grounds::grounds(file, out);
            Outcome { status, written: if status == 0 { out.len() } else { written } }
        }),
        wrong_tool("24 for each event", OUTCOME, |file, out| {
            let Outcome { status, written } = grounds::grounds(file, out);
            Outcome { status, written: 24 * written }
        }),
        wrong_tool("a length where nothing is written", OUTCOME, |file, out| {
            let Outcome { status, written } = grounds::grounds(file, out);
            Outcome { status, written: if status == 13 { events(file) } else { written } }
        }),
    ]
}

/// Bytes that are touched and are to stay.
fn wrong_rests() -> Vec<Wrong> {
    vec![
        wrong_tool("the rest of the buffer is cleared", TOUCHED, |file, out| {
            let outcome = grounds::grounds(file, out);
            out[outcome.written..].fill(0);
            outcome
        }),
        wrong_tool("a zero byte behind the grounds", TOUCHED, |file, out| {
            let outcome = grounds::grounds(file, out);
            let end = if outcome.status == 0 { outcome.written } else { out.len() };
            out[end..].iter_mut().take(1).for_each(|byte| *byte = 0);
            outcome
        }),
        wrong_tool("what fits is written at 13", TOUCHED, |file, out| {
            let outcome = grounds::grounds(file, out);
            let mut whole = vec![0; events(file)];
            grounds::grounds(file, &mut whole);
            if outcome.status == 13 {
                out.iter_mut().zip(whole).for_each(|(place, byte)| *place = byte);
            }
            outcome
        }),
    ]
}

/// All that are wrong in a byte of a sound file or behind its grounds.
fn wrong_in_a_byte() -> impl Iterator<Item = Wrong> {
    let rules = [wrong_choices(), wrong_limit_ends(), wrong_values(), wrong_signals()];
    let others = [wrong_stores(), wrong_events(), wrong_places(), wrong_rests()];
    rules.into_iter().chain(others).flatten()
}

/// Each by its own fault.
#[test]
fn wrong_tools_are_caught() {
    let all = wrong_in_a_byte().chain(wrong_statuses()).chain(wrong_lengths());
    for Wrong { what, says, mut tool } in all {
        let message = campaign(1_000).against_grounds(&mut tool).expect_err(what);
        assert!(message.contains(says), "{what}: {message}");
    }
}

/// The same tools, but for those that are wrong in a status or a length, beside what was worked out by hand.
#[test]
fn wrong_tools_are_caught_by_hand() {
    let owed = by_hand::owed_grounds();
    for Wrong { what, mut tool, .. } in wrong_in_a_byte() {
        assert!(owed.iter().any(|owed| check_grounds(owed, &mut tool).is_err()), "{what}");
    }
}

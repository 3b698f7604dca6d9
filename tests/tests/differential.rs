//! The engine under test beside this implementation. IRGA_PROGRAM names the program's
//! executable; IRGA_SESSIONS the number of sessions. Wrong engines must be caught.

use std::fs;
use std::path::{Path, PathBuf};

use irga_tests::engine::{self, Answer, Entry, Event, Integration, SheetRecord, State, Tally};
use irga_tests::file::{self, Outcome, Session};
use irga_tests::harness::{areas, Campaign, Executable, Program};
use irga_tests::random::Random;
use irga_tests::roundings::{self, Rounding, ROUNDINGS};
use irga_tests::rules::{self, Air};
use irga_tests::sessions;
use irga_tests::store::{self, Fault, FAULTS};

fn folder() -> &'static Path {
    Path::new(env!("CARGO_TARGET_TMPDIR"))
}

fn few(seed: u64) -> Campaign {
    Campaign { seed, sessions: 2_000, folder: folder().to_path_buf() }
}

#[test]
fn program_under_test_prints_the_same_lines() {
    let mut program = Executable::under_test();
    let campaign = Campaign::from_environment(0x6251, folder());
    let count = campaign.against_program(&mut program).unwrap_or_else(|why| panic!("{why}"));
    println!("{} sessions, {} events: the same lines", count.sessions, count.events);
}

/// This implementation's own program, by way of an executable and its pipes.
#[test]
fn own_program_agrees_with_itself() {
    let mut program = Executable { path: PathBuf::from(env!("CARGO_BIN_EXE_session_lines")) };
    let campaign = Campaign { sessions: 200, ..few(41) };
    let count = campaign.against_program(&mut program).unwrap_or_else(|why| panic!("{why}"));
    assert_eq!(count.sessions, 200);
    let mut large = vec![0; 1_000_000];
    large[0] = 1;
    assert_eq!(program.print(&large).unwrap(), b"0 0 12 0 0 0\n");
}

#[test]
fn right_engine_passes() {
    let count = few(42).against_engine(&mut file::run).unwrap_or_else(|why| panic!("{why}"));
    assert_eq!(count.sessions, 2_000);
}

/// Checks that an engine that spoils the right run is caught, that the message says
/// why, and that the failing session is kept in the file that the message names.
fn caught(seed: u64, says: &str, spoil: impl Fn(&[u8], &mut [u8], &mut Outcome)) {
    let mut wrong = |file: &[u8], output: &mut [u8]| {
        let mut outcome = file::run(file, output);
        spoil(file, output, &mut outcome);
        outcome
    };
    let message = few(seed).against_engine(&mut wrong).expect_err("a wrong engine passed");
    assert!(message.contains(says), "{message}");
    let number = message.split(' ').nth(1).and_then(|word| word.parse().ok());
    let number: u64 = number.expect("the message begins with the session's number");
    let path = folder().join(format!("failed-{seed}-{number}.session"));
    assert!(message.contains(path.to_str().unwrap()), "{message}");
    let kept = fs::read(&path).expect("the session is kept");
    assert_eq!(kept, sessions::make(seed, number).file);
    fs::remove_file(&path).expect("the kept session can be removed");
}

fn accepted_samples<'a>(
    output: &'a mut [u8],
    outcome: &Outcome,
) -> impl Iterator<Item = &'a mut [u8]> {
    let written = outcome.written;
    output[..written].chunks_exact_mut(24).filter(|answer| answer[0] == 6 && answer[1] == 0)
}

#[test]
fn one_wet_value_off_by_one_is_caught() {
    caught(51, "answer", |_, output, outcome| {
        if let Some(answer) = accepted_samples(output, outcome).nth(3) {
            answer[8] = answer[8].wrapping_add(1);
        }
    });
}

#[test]
fn one_cleared_byte_after_the_answers_is_caught() {
    caught(52, "after the answers was touched", |_, output, outcome| {
        if let Some(byte) = output[outcome.written..].last_mut() {
            *byte = 0;
        }
    });
}

#[test]
fn a_touched_buffer_of_a_refused_file_is_caught() {
    caught(53, "byte 0 after the answers was touched", |_, output, outcome| {
        if let (12 | 13, Some(byte)) = (outcome.status, output.first_mut()) {
            *byte ^= 1;
        }
    });
}

#[test]
fn wrong_status_and_wrong_length_are_caught() {
    caught(54, "expected Outcome", |_, _, outcome| {
        if outcome.status == 13 {
            outcome.status = 12;
        }
    });
    caught(55, "expected Outcome", |_, _, outcome| {
        outcome.written += usize::from(outcome.written > 480);
    });
}

#[test]
fn a_repeated_first_reading_is_caught() {
    caught(56, "answer", |_, output, outcome| {
        let mut first: Option<[u8; 24]> = None;
        for answer in accepted_samples(output, outcome) {
            let mut kept = [0; 24];
            kept.copy_from_slice(answer);
            answer.copy_from_slice(first.get_or_insert(kept));
        }
    });
}

/// An engine that lets a malformed sample pass by without closing the integration.
#[test]
fn a_malformed_sample_that_does_not_close_is_caught() {
    caught(57, "answer", |bytes, output, outcome| {
        let Some(mut session) = Session::open(bytes).filter(|_| outcome.status == 0) else {
            return;
        };
        for record in &mut session.events {
            if record.kind == 6 && record.entry() == Entry::Malformed(6) {
                record.kind = 60;
            }
        }
        let mut other = vec![0; outcome.written];
        file::run(&session.to_bytes(), &mut other);
        for (answer, changed) in output.chunks_exact_mut(24).zip(other.chunks_exact(24)) {
            answer[1..].copy_from_slice(&changed[1..]);
        }
    });
}

/// An engine with another rule for the area of the readings that it counted.
fn areas_by(rule: fn(&[i64]) -> i64, file: &[u8], output: &mut [u8], outcome: &Outcome) {
    let Some(session) = Session::open(file).filter(|_| outcome.status == 0) else {
        return;
    };
    for (place, counted) in areas(&session.answers()) {
        let x = 24 * place + 8;
        output[x..x + 8].copy_from_slice(&rule(&counted).to_le_bytes());
    }
}

/// The line under n readings from the first to the last, counted so often.
fn line(counted: &[i64], times: i64) -> i64 {
    times * (counted[0] + counted[counted.len() - 1])
}

/// Document 02's R-5: the first left in the sum, n for n − 1, and the last left out.
#[test]
fn other_rules_for_the_area_are_caught() {
    caught(58, "answer", |file, output, outcome| {
        let rule = |all: &[i64]| 2 * all.iter().sum::<i64>() - line(all, all.len() as i64 - 1);
        areas_by(rule, file, output, outcome);
    });
    caught(59, "answer", |file, output, outcome| {
        let rule = |all: &[i64]| 2 * all[1..].iter().sum::<i64>() - line(all, all.len() as i64);
        areas_by(rule, file, output, outcome);
    });
    caught(60, "answer", |file, output, outcome| {
        let rule = |all: &[i64]| {
            let others = all.len() - 1;
            2 * all[..others].iter().sum::<i64>() - line(all, others as i64)
        };
        areas_by(rule, file, output, outcome);
    });
}

/// An engine that rounds by another rule in the samples that it accepts.
fn rounded_by(
    rule: impl Fn(Rounding, i128, i128) -> i128,
    file: &[u8],
    output: &mut [u8],
    outcome: &Outcome,
) {
    let Some(session) = Session::open(file).filter(|_| outcome.status == 0) else {
        return;
    };
    let answers = output.chunks_exact_mut(24);
    for (((state, answer), record), bytes) in session.walk().zip(&session.events).zip(answers) {
        if answer.kind == 6 && answer.refusal == 0 {
            let air = Air { p: record.p.into(), t: record.t.into(), e: record.e.into() };
            let [wet, dry] = roundings::values(&state, record.raw.into(), &air, &answer, &rule);
            bytes[8..16].copy_from_slice(&wet.to_le_bytes());
            bytes[16..].copy_from_slice(&dry.to_le_bytes());
        }
    }
}

/// Rules for a half: up, as before R-6; to the even number; toward zero.
const OTHER_HALVES: [fn(i128, i128) -> i128; 3] = [
    |a, b| (2 * a + b).div_euclid(2 * b),
    |a, b| {
        let (down, rest) = (a.div_euclid(b), a.rem_euclid(b));
        down + i128::from(2 * rest > b || (2 * rest == b && down % 2 != 0))
    },
    |a, b| a.signum() * ((2 * a.abs() + b - 1) / (2 * b)),
];

/// Document 02's R-6: an engine with another rule for a half, at one of its roundings alone. Halves
/// that go up are right where nothing is below zero. With R-6's rule everywhere the engine is right.
#[test]
fn other_rules_for_a_half_are_caught() {
    let mut right = |file: &[u8], output: &mut [u8]| {
        let outcome = file::run(file, output);
        rounded_by(|_, a, b| rules::near(a, b), file, output, &outcome);
        outcome
    };
    few(61).against_engine(&mut right).unwrap_or_else(|why| panic!("{why}"));
    for spoilt in ROUNDINGS {
        let others = &OTHER_HALVES[usize::from(!spoilt.below_zero_too())..];
        for other in others {
            let rule = |rounding: Rounding, a: i128, b: i128| {
                let near = if rounding == spoilt { *other } else { rules::near };
                near(a, b)
            };
            caught(61, "answer", |file, output, outcome| rounded_by(rule, file, output, outcome));
        }
    }
}

/// An engine that stores what its last search found, by the paper's rules or by wrong ones.
fn stored_by(fault: Option<Fault>, file: &[u8], output: &mut [u8], outcome: &Outcome) {
    let Some(session) = Session::open(file).filter(|_| outcome.status == 0) else {
        return;
    };
    for ((_, _, answer), bytes) in store::walk(&session, fault).zip(output.chunks_exact_mut(24)) {
        bytes.copy_from_slice(&file::answer_to_bytes(&answer));
    }
}

/// Document 02's R-7: a store by its rules shows in no answer, and one that keeps a finding too
/// long, or takes it at another pressure or temperature, does.
#[test]
fn wrong_stores_are_caught() {
    let mut right = |file: &[u8], output: &mut [u8]| {
        let outcome = file::run(file, output);
        stored_by(None, file, output, &outcome);
        outcome
    };
    few(62).against_engine(&mut right).unwrap_or_else(|why| panic!("{why}"));
    for fault in FAULTS {
        caught(62, "answer", |file, output, outcome| stored_by(Some(fault), file, output, outcome));
    }
}

/// An engine that goes by another step: the event's answer and the state after it.
fn stepped_by(
    step: impl Fn(&[SheetRecord], &State, &Entry) -> (Answer, State),
    file: &[u8],
    output: &mut [u8],
    outcome: &Outcome,
) {
    let Some(session) = Session::open(file).filter(|_| outcome.status == 0) else {
        return;
    };
    let mut state = State::fresh();
    for (record, bytes) in session.events.iter().zip(output.chunks_exact_mut(24)) {
        let (answer, next) = step(&session.sheets, &state, &record.entry());
        bytes.copy_from_slice(&file::answer_to_bytes(&answer));
        state = next;
    }
}

const SHORT: Entry = Entry::Known(Event::StartShort);

/// Engines that take some entries for others, and answer under the kind as given.
const OTHER_ENTRIES: [(&str, fn(&Entry) -> Entry); 5] = [
    ("kind 10 is unknown", |entry| if *entry == SHORT { Entry::Malformed(10) } else { *entry }),
    (
        "kind 10 with a field is a short start",
        |entry| {
            if entry.kind() == 10 {
                SHORT
            } else {
                *entry
            }
        },
    ),
    ("kind 11 is a short start", |entry| if entry.kind() == 11 { SHORT } else { *entry }),
    ("kind 10 is a stop", |entry| match *entry {
        SHORT => Entry::Known(Event::Stop),
        other => other,
    }),
    ("kind 10 is an absolute", |entry| match *entry {
        SHORT => Entry::Known(Event::Absolute),
        other => other,
    }),
];

/// What becomes of a right answer and the right state after an event, told from the state before
/// it and the event.
type Spoil = fn(&State, &Entry, Answer, State) -> (Answer, State);

fn runs(state: &State) -> bool {
    matches!(state.integration, Integration::Running { .. })
}

fn short_runs(state: &State) -> bool {
    matches!(state.integration, Integration::Running { limit: 6_000, .. })
}

/// The same state with the integration that stood before.
fn keeping(before: &State, next: State) -> State {
    State { integration: before.integration, ..next }
}

/// Engines that spoil the answer to a short start, or what it leaves.
const WRONG_STARTS: [(&str, Spoil); 6] = [
    ("a short start leaves a running integration", |before, entry, answer, next| {
        (answer, if *entry == SHORT && runs(before) { keeping(before, next) } else { next })
    }),
    ("a short start leaves a closed integration", |before, entry, answer, next| {
        let closed = matches!(before.integration, Integration::Closed(_));
        (answer, if *entry == SHORT && closed { keeping(before, next) } else { next })
    }),
    ("a short start begins nothing", |before, entry, answer, next| {
        (answer, if *entry == SHORT { keeping(before, next) } else { next })
    }),
    ("a short start is accepted without a sheet", |_, entry, answer, next| {
        (Answer { refusal: if *entry == SHORT { 0 } else { answer.refusal }, ..answer }, next)
    }),
    ("a short start is refused while one runs", |before, entry, answer, next| {
        if *entry == SHORT && runs(before) {
            return (Answer { refusal: 10, ..answer }, *before);
        }
        (answer, next)
    }),
    ("a short start answers its limit", |_, entry, answer, next| {
        let limit = *entry == SHORT && answer.refusal == 0;
        (Answer { m: if limit { 6_000 } else { answer.m }, ..answer }, next)
    }),
];

/// Engines that are wrong about a malformed short start, or about a short integration that runs.
const WRONG_INTEGRATIONS: [(&str, Spoil); 5] = [
    ("a malformed short start closes", |_, entry, answer, next| match next.integration {
        Integration::Running { tally, .. } if *entry == Entry::Malformed(10) => {
            (answer, State { integration: Integration::Closed(tally), ..next })
        }
        _ => (answer, next),
    }),
    ("a malformed short start begins anew", |before, entry, answer, next| {
        let begun = Integration::Running { tally: Tally::default(), limit: 6_000 };
        let begins = *entry == Entry::Malformed(10) && before.sheet.is_some();
        (answer, if begins { State { integration: begun, ..next } } else { next })
    }),
    ("a short integration counts nothing", |before, _, answer, next| {
        let counts = short_runs(before) && (answer.kind, answer.refusal) == (6, 0);
        (answer, if counts { keeping(before, next) } else { next })
    }),
    ("a refused sample does not close a short integration", |before, _, answer, next| {
        let closes = short_runs(before) && answer.kind == 6 && answer.refusal != 0;
        (answer, if closes { keeping(before, next) } else { next })
    }),
    ("a setting leaves a short integration", |before, _, answer, next| {
        let leaves = short_runs(before) && matches!((answer.kind, answer.refusal), (2..=5, 0));
        (answer, if leaves { keeping(before, next) } else { next })
    }),
];

/// Document 02's R-10: what can show in a session of at most 2,700 events. What cannot, another limit,
/// the program `charts` shows.
#[test]
fn wrong_short_starts_are_caught() {
    let mut right = |file: &[u8], output: &mut [u8]| {
        let outcome = file::run(file, output);
        stepped_by(engine::step, file, output, &outcome);
        outcome
    };
    few(63).against_engine(&mut right).unwrap_or_else(|why| panic!("{why}"));
    for (what, other) in OTHER_ENTRIES {
        println!("{what}");
        let step = |sheets: &[SheetRecord], state: &State, entry: &Entry| {
            let (answer, next) = engine::step(sheets, state, &other(entry));
            (Answer { kind: entry.kind(), ..answer }, next)
        };
        caught(63, "answer", |file, output, outcome| stepped_by(step, file, output, outcome));
    }
    for (what, spoil) in WRONG_STARTS.into_iter().chain(WRONG_INTEGRATIONS) {
        println!("{what}");
        let step = |sheets: &[SheetRecord], state: &State, entry: &Entry| {
            let (answer, next) = engine::step(sheets, state, entry);
            spoil(state, entry, answer, next)
        };
        caught(63, "answer", |file, output, outcome| stepped_by(step, file, output, outcome));
    }
}

struct WrongProgram(fn(String) -> String);

impl Program for WrongProgram {
    fn print(&mut self, input: &[u8]) -> Result<Vec<u8>, String> {
        Ok(self.0(file::program(input)).into_bytes())
    }
}

#[test]
fn wrong_programs_are_caught() {
    let wrong: [fn(String) -> String; 4] = [
        |text| text.replace(" 10 0 0 0\n", " 10 0 0 1\n"),
        |text| text.trim_end().to_string(),
        |text| text.replace("0 0 12 0 0 0\n", ""),
        |text| text.replace('\n', "\r\n"),
    ];
    for spoil in wrong {
        let message = few(58).against_program(&mut WrongProgram(spoil)).expect_err("passed");
        assert!(message.contains("expected the line"), "{message}");
    }
}

/// A session can be made again from its seed and number.
#[test]
fn sessions_are_the_same_each_time() {
    for number in 0..50 {
        assert_eq!(sessions::make(7, number).file, sessions::make(7, number).file);
    }
    let mut random = Random::new(1);
    assert!(sessions::lent_output(&mut random, 0).len() < 60);
}

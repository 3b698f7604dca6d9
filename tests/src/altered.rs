//! The text of the program `altered`: what records with an altered finding answer, by this
//! implementation.

use crate::bench;
use crate::engine::{self, Answer, Entry, Event, Integration, Mode, State};
use crate::grounds;
use crate::rules::{Refusal, Sheet, SPAN_UNIT};
use crate::store::{self, Finding, Stored};

const P: u32 = 101_300;
const T: u32 = 29_815;

/// Reference signals from 0 to 150,000,000, and nothing.
const FINDINGS: [Option<i64>; 12] = [
    Some(0),
    Some(1),
    Some(9_999_999),
    Some(10_000_000),
    Some(10_000_001),
    Some(39_999_999),
    Some(40_000_000),
    Some(40_000_001),
    Some(80_000_000),
    Some(149_999_999),
    Some(150_000_000),
    None,
];

const RAWS: [i32; 4] = [-20_000_000, 0, 10_000_000, 10_500_000];

fn sample(raw: i32, p: u32, t: u32) -> Event {
    Event::Sample { raw, p, t, e: 0 }
}

/// The bench sheet with this K in this mode, altered to hold this finding.
fn holding(k: i64, found: Option<i64>, mode: Mode) -> (State, Stored) {
    let sheet = bench::sheet().accepted().map(|sheet| Sheet { k, ..sheet });
    let state = State { sheet, q: 0, s: SPAN_UNIT, mode, integration: Integration::Idle };
    (state, Some(Finding { p: P.into(), t: T.into(), found }))
}

/// Against the cylinder of document 01's readings on the bench, with this vapour pressure.
fn against(e: i64) -> Mode {
    Mode::Reference { cylinder: 1_000_000_000, e }
}

fn numbers(answer: &Answer) -> String {
    format!("{} {} {} {}", answer.refusal, answer.m, answer.x, answer.y)
}

/// A sample at the stored P and T: what a store gives, what the rules give with that R, and by which ground
/// it is over range, if it is.
fn row(k: i64, found: Option<i64>, raw: i32) -> String {
    let (state, stored) = holding(k, found, against(0));
    let entry = Entry::Known(sample(raw, P, T));
    let (answer, _, kept) = store::step(None, &[], (&state, stored), &entry);
    assert_eq!(kept, stored, "what is stored stays");
    let with_it = |_: &_, _, _: &_| found.ok_or(Refusal::NoReferenceSignal);
    let (by_rules, _) = engine::step_by(&with_it, &[], &state, &entry);
    let ground = grounds::ground(&state, stored, &entry).number();
    let (case, answers) = (signal(found), [answer, by_rules].map(|answer| numbers(&answer)));
    format!("{k} {case} {raw} | {} | {ground}\n", answers.join(" | "))
}

fn signal(found: Option<i64>) -> String {
    found.map_or("nothing".to_string(), |r| r.to_string())
}

/// An entry at a record: its answer, what stands stored after it, and the answer of a sample then.
fn shows(label: &str, (state, stored): (State, Stored), entry: Entry) -> String {
    let sheets = [bench::sheet()];
    let (answer, next, kept) = store::step(None, &sheets, (&state, stored), &entry);
    let place = |finding: Finding| format!("{} {} {}", finding.p, finding.t, signal(finding.found));
    let shown = kept.map_or("empty".to_string(), place);
    let sample = Entry::Known(sample(0, P, T));
    let (last, ..) = store::step(None, &sheets, (&next, kept), &sample);
    format!("{label} | {} | {shown} | {}\n", numbers(&answer), numbers(&last))
}

fn bench_holding() -> (State, Stored) {
    holding(200_000_000, Some(30_000_000), against(0))
}

const SPAN: Event = Event::Span { raw: 50_000_000, cylinder: 1_000_000_000, p: P, t: T, e: 0 };

fn settings() -> String {
    let cases = [
        ("zero 0", Event::Zero { raw: 0 }),
        ("zero 20000001", Event::Zero { raw: 20_000_001 }),
        ("span", SPAN),
        ("reference", Event::Reference { cylinder: 1_000_000_000, e: 0 }),
        ("reference e 11501", Event::Reference { cylinder: 1_000_000_000, e: 11_501 }),
        ("absolute", Event::Absolute),
        ("load 0", Event::Load { index: 0 }),
        ("load 1", Event::Load { index: 1 }),
        ("start", Event::Start),
        ("stop", Event::Stop),
        ("area", Event::Area),
        ("short start", Event::StartShort),
    ];
    cases.map(|(label, event)| shows(label, bench_holding(), Entry::Known(event))).concat()
}

fn samples() -> String {
    let cases = [
        ("sample", 0, P, T),
        ("raw -100000000", -100_000_000, P, T),
        ("raw 150000001", 150_000_001, P, T),
        ("P 101299", 0, 101_299, T),
        ("T 29814", 0, P, 29_814),
        ("P 101299, raw -100000000", -100_000_000, 101_299, T),
        ("P 101299, raw 150000000", 150_000_000, 101_299, T),
        ("P 101299, raw 150000001", 150_000_001, 101_299, T),
        ("P 59999", 0, 59_999, T),
        ("T 32316", 0, P, 32_316),
    ];
    let shown = cases
        .map(|(label, raw, p, t)| shows(label, bench_holding(), Entry::Known(sample(raw, p, t))));
    shown.concat()
}

fn others() -> String {
    let damp = holding(200_000_000, Some(30_000_000), against(6_001));
    let narrow = holding(10_000_000, Some(3_000_000), against(0));
    let absolute = holding(200_000_000, Some(30_000_000), Mode::Absolute);
    let at = |p| Entry::Known(sample(0, p, T));
    let damp_sample = Event::Sample { raw: 0, p: P, t: T, e: 2_000 };
    let cases = [
        ("e 2000", bench_holding(), Entry::Known(damp_sample)),
        ("malformed, kind 6", bench_holding(), Entry::Malformed(6)),
        ("malformed, kind 1", bench_holding(), Entry::Malformed(1)),
        ("er 6001, P 60010", damp, at(60_010)),
        ("er 6001, P 60009", damp, at(60_009)),
        ("K 10000000, P 101299", narrow, at(101_299)),
        ("absolute mode, P 101299", absolute, at(101_299)),
        ("absolute mode, span", absolute, Entry::Known(SPAN)),
    ];
    // A record with an R beyond 150,000,000 is one that the engine does not work with: 1, and kept.
    let beyond = "R 150000001, start | 1 0 0 0 | 101300 29815 150000001 | 1 0 0 0\n";
    cases.map(|(label, record, entry)| shows(label, record, entry)).concat() + beyond
}

/// Grounds where 150,000,000 is stored: at its P and T, at others, in absolute mode.
fn places() -> String {
    let stored = holding(200_000_000, Some(150_000_000), against(0));
    let absolute = holding(200_000_000, Some(150_000_000), Mode::Absolute);
    let cases = [
        ("raw 0", stored, sample(0, P, T)),
        ("raw 0, P 101299", stored, sample(0, 101_299, T)),
        ("raw 0, T 29814", stored, sample(0, P, 29_814)),
        ("raw 0, P 59999", stored, sample(0, 59_999, T)),
        ("raw 150000000, P 101299", stored, sample(150_000_000, 101_299, T)),
        ("absolute mode, raw 0", absolute, sample(0, P, T)),
        ("absolute mode, raw 70000000", absolute, sample(70_000_000, P, T)),
    ];
    let shown = cases.map(|(label, (state, stored), event)| {
        let ground = grounds::ground(&state, stored, &Entry::Known(event));
        format!("{label} | {}\n", ground.number())
    });
    // At a record that the engine does not work with there is none.
    shown.concat() + "R 150000001, raw 0 | 0\n"
}

pub fn text() -> String {
    let mut text = "K R raw | step | the rules with that R | ground\n".to_string();
    for k in [200_000_000, 10_000_000] {
        for found in FINDINGS {
            RAWS.iter().for_each(|raw| text.push_str(&row(k, found, *raw)));
        }
    }
    text.push_str("event | its answer | stored after it | a sample at P 101300, T 29815\n");
    text = text + &settings() + &samples() + &others();
    text.push_str("a sample where 150000000 is stored at P 101300, T 29815 | ground\n");
    text + &places()
}

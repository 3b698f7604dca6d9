//! How fast two sides run, one beside the other, in one process: the session files that are
//! run, and rounds of both in turn. docs/SPEED.md has what comes of it.

use std::hint::black_box;
use std::time::{Duration, Instant};

use crate::bench;
use crate::engine::Event;
use crate::figures::grouped;
use crate::file::{EventRecord, Session, EVENTS_LIMIT};
use crate::random::Random;

const ROUNDS: usize = 15;
/// Each side runs at least so long in a round.
const ROUND: Duration = Duration::from_millis(60);

/// A session file, and how many of what is counted it holds.
pub struct Case {
    pub name: &'static str,
    pub unit: &'static str,
    pub count: usize,
    pub file: Vec<u8>,
}

const LOAD: Event = Event::Load { index: 0 };
/// A reference gas of 350 µmol/mol, dry.
const REFERENCE: Event = Event::Reference { cylinder: 350_000_000, e: 0 };

/// A sample in a room whose pressure and warmth wander a little, its raw signal anywhere
/// in a stretch.
fn sample(random: &mut Random, low: i64, high: i64) -> Event {
    Event::Sample {
        raw: random.between(low, high) as i32,
        p: random.between(99_400, 99_600) as u32,
        t: random.between(29_765, 29_865) as u32,
        e: random.between(1_500, 1_700) as u32,
    }
}

/// Raw signals around 350 µmol/mol, read against nothing and against the reference.
const ABSOLUTE: (i64, i64) = (15_000_000, 25_000_000);
const AGAINST: (i64, i64) = (-2_000_000, 2_000_000);

/// The same samples where pressure and warmth stand still.
fn still(events: &[Event]) -> Vec<Event> {
    let still = |event: &Event| match *event {
        Event::Sample { raw, e, .. } => Event::Sample { raw, p: 99_500, t: 29_815, e },
        other => other,
    };
    events.iter().map(still).collect()
}

fn filled(mut events: Vec<Event>, length: usize, (low, high): (i64, i64)) -> Vec<Event> {
    let mut random = Random::new(length as u64);
    events.resize_with(length, || sample(&mut random, low, high));
    events
}

/// A lesson of 300 events: the settings, an integration of 293 readings, its area.
fn lesson(mode: Event, stretch: (i64, i64)) -> Vec<Event> {
    let (p, t, e) = (99_500, 29_815, 0);
    let span = Event::Span { raw: 24_800_000, cylinder: 500_000_000, p, t, e };
    let settings = vec![LOAD, Event::Zero { raw: 1_250 }, span, mode, Event::Start];
    let mut events = filled(settings, 298, stretch);
    events.extend([Event::Stop, Event::Area]);
    events
}

fn case(name: &'static str, unit: &'static str, count: usize, events: &[Event]) -> Case {
    let events = events.iter().map(EventRecord::of).collect();
    let session = Session { sheets: vec![bench::table_sheet()], events };
    assert!(session.answers().iter().all(|answer| answer.refusal == 0), "{name}: refused events");
    Case { name, unit, count, file: session.to_bytes() }
}

pub fn cases() -> [Case; 4] {
    let absolute = filled(vec![LOAD, Event::Start], EVENTS_LIMIT, ABSOLUTE);
    let against = filled(vec![LOAD, REFERENCE, Event::Start], EVENTS_LIMIT, AGAINST);
    let modes = [(Event::Absolute, ABSOLUTE), (REFERENCE, AGAINST), (REFERENCE, AGAINST)];
    let lessons = modes.iter().cycle().take(EVENTS_LIMIT / 300);
    let lessons: Vec<Event> = lessons.flat_map(|(mode, raw)| lesson(*mode, *raw)).collect();
    assert_eq!(lessons.len(), EVENTS_LIMIT);
    [
        case("samples, absolute", "samples", EVENTS_LIMIT - 2, &absolute),
        case("samples against a reference", "samples", EVENTS_LIMIT - 3, &against),
        case("the same, P and T still", "samples", EVENTS_LIMIT - 3, &still(&against)),
        case("lessons of 2,700 events", "sessions", 1, &lessons),
    ]
}

/// One run of a side, into an output that both sides share.
pub type Run<'a> = &'a dyn Fn(&mut [u8]);

/// The time of so many runs.
fn time(run: Run, output: &mut [u8], times: u32) -> Duration {
    let began = Instant::now();
    for _ in 0..times {
        run(black_box(&mut *output));
    }
    began.elapsed()
}

/// As many runs as fill a round; finding the number is the warm-up.
fn runs_of_a_round(run: Run, output: &mut [u8]) -> u32 {
    let mut times = 1;
    while time(run, output, times) < ROUND {
        times *= 2;
    }
    times
}

fn sorted(mut numbers: Vec<f64>) -> Vec<f64> {
    numbers.sort_by(f64::total_cmp);
    numbers
}

/// A small rate keeps a decimal.
fn shown(rate: f64) -> String {
    let digits = if rate < 1_000.0 { 1 } else { 0 };
    grouped(&format!("{rate:.digits$}"))
}

/// The head of a table of rows.
pub fn head(first: &str, second: &str) -> String {
    format!(
        "| case | per second | {first} | {second} | ratio | lowest to highest |\n\
         |---|---|---:|---:|---:|---:|"
    )
}

/// A table's row: both sides in turn, each round beginning with the other one, with the
/// medians of the rates and of the rounds' ratios, first over second. A run holds `count` of
/// what is counted.
pub fn row(name: &str, unit: &str, count: usize, sides: [Run; 2], output: &mut [u8]) -> String {
    let times = sides.map(|run| runs_of_a_round(run, output));
    let mut rates = [Vec::new(), Vec::new()];
    for round in 0..ROUNDS {
        for side in [round % 2, 1 - round % 2] {
            let seconds = time(sides[side], output, times[side]).as_secs_f64();
            rates[side].push(count as f64 * f64::from(times[side]) / seconds);
        }
    }
    let ratios = sorted(rates[0].iter().zip(&rates[1]).map(|(a, b)| a / b).collect());
    let middle = ROUNDS / 2;
    let [first, second] = rates.map(|rates| shown(sorted(rates)[middle]));
    let spread = format!("{:.2} | {:.2} to {:.2}", ratios[middle], ratios[0], ratios[ROUNDS - 1]);
    format!("| {name} | {unit} | {first} | {second} | {spread} |")
}

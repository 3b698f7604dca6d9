//! The text of the program `charts`: how long an integration of either start counts, and
//! what each start leaves of the one before, by this implementation. No session file is long enough
//! to show it.

use crate::bench;
use crate::engine::{self, Answer, Entry, Event, Integration, SheetRecord, State};
use crate::rules::SIGNAL_LIMIT;

/// One event under a list of sheets: its answer and the state after it.
pub type Step<'a> = &'a dyn Fn(&[SheetRecord], &State, &Entry) -> (Answer, State);

/// So many samples follow each event of the second table.
const LATER: u32 = 600_001;

const LOAD: Event = Event::Load { index: 0 };

fn reading(raw: i32) -> Event {
    Event::Sample { raw, p: 101_300, t: 29_815, e: 0 }
}

/// The sample of a number in its row, from 1.
pub fn sample(number: u32) -> Event {
    let i = number as i32;
    reading(45_000_000 - 30 * i + 700 * (i % 11))
}

/// A row's engine from fresh on, and how many of the row's samples it was given.
struct Row<'a> {
    step: Step<'a>,
    sheets: [SheetRecord; 1],
    state: State,
    samples: u32,
}

impl<'a> Row<'a> {
    fn after(step: Step<'a>, events: &[Event], samples: u32) -> Row<'a> {
        let mut row = Row { step, sheets: [bench::sheet()], state: State::fresh(), samples: 0 };
        events.iter().for_each(|event| {
            row.feed(Entry::Known(*event));
        });
        row.read(samples);
        row
    }

    fn feed(&mut self, entry: Entry) -> Answer {
        let (answer, next) = (self.step)(&self.sheets, &self.state, &entry);
        self.state = next;
        answer
    }

    /// So many samples more.
    fn read(&mut self, samples: u32) {
        for _ in 0..samples {
            self.samples += 1;
            self.feed(Entry::Known(sample(self.samples)));
        }
    }

    /// What an area answers now.
    fn area(&mut self) -> String {
        told(&self.feed(Entry::Known(Event::Area)))
    }

    /// How the integration stands, how many readings it has counted, and of a running one its limit.
    fn standing(&self) -> String {
        match self.state.integration {
            Integration::Idle => "idle".to_string(),
            Integration::Running { tally, limit } => format!("running {} of {limit}", tally.n),
            Integration::Closed(tally) => format!("closed {}", tally.n),
        }
    }
}

/// n and area, or the number of a refusal; of other answers that they are none.
fn told(answer: &Answer) -> String {
    match (answer.refusal, answer.kind) {
        (0, kind) if kind == Event::Area.kind() => format!("{} {}", answer.m, answer.x),
        (0, _) => "accepted".to_string(),
        (refusal, _) => format!("refused {refusal}"),
    }
}

/// The first table by an engine with this step: a start and so many samples, the area then, and how
/// the integration stands.
pub fn lengths(step: Step) -> String {
    let short = [5_999, 6_000, 6_001].map(|samples| (Event::StartShort, samples));
    let long =
        [5_999, 6_000, 6_001, 599_999, 600_000, 600_001].map(|samples| (Event::Start, samples));
    let row = |(start, samples): &(Event, u32)| {
        let mut row = Row::after(step, &[LOAD, *start], *samples);
        let area = row.area();
        format!("{} | {samples} | {area} | {}\n", start.kind(), row.standing())
    };
    let rows = short.iter().chain(&long).map(row);
    "kind | samples | area | integration\n".to_string() + &rows.collect::<String>()
}

/// What stands before the event of a row: its name, the events, and so many samples.
type Before = (&'static str, &'static [Event], u32);

const NO_SHEET: Before = ("no sheet", &[], 0);
const IDLE: Before = ("idle", &[LOAD], 0);
const LONG_RUNS: Before = ("kind 7, 3 samples", &[LOAD, Event::Start], 3);
const SHORT_RUNS: Before = ("kind 10, 3 samples", &[LOAD, Event::StartShort], 3);
const SHORT_CLOSED: Before = ("kind 10, 6000 samples", &[LOAD, Event::StartShort], 6_000);
/// More readings than a short one can count.
const LONG_FAR: Before = ("kind 7, 6001 samples", &[LOAD, Event::Start], 6_001);

/// The event of a row with its name: first the two starts, then what needs an integration, then
/// what is tried on a running one alone.
fn events() -> [(&'static str, Entry); 8] {
    let refused = reading(SIGNAL_LIMIT as i32 + 1);
    [
        ("kind 7", Entry::Known(Event::Start)),
        ("kind 10", Entry::Known(Event::StartShort)),
        ("stop", Entry::Known(Event::Stop)),
        ("area", Entry::Known(Event::Area)),
        ("refused sample", Entry::Known(refused)),
        ("malformed 6", Entry::Malformed(6)),
        ("malformed 10", Entry::Malformed(10)),
        ("zero", Entry::Known(Event::Zero { raw: 0 })),
    ]
}

/// An event: its answer, how the integration stands after it, and an area 600,001 samples later.
fn event_row(step: Step, before: Before, (event, entry): &(&str, Entry)) -> String {
    let (name, events, samples) = before;
    let mut row = Row::after(step, events, samples);
    let (answer, standing) = (row.feed(*entry), row.standing());
    row.read(LATER);
    format!("{name} | {event} | {} | {standing} | {}\n", told(&answer), row.area())
}

/// The second table by an engine with this step: events with no sheet, and where an integration is
/// idle, runs or is closed.
pub fn starts(step: Step) -> String {
    let title = "before | event | answer | integration | area after 600001 samples more\n";
    let cases = [
        (NO_SHEET, 2),
        (IDLE, 2),
        (LONG_RUNS, 8),
        (SHORT_RUNS, 8),
        (SHORT_CLOSED, 4),
        (LONG_FAR, 2),
    ];
    let rows = cases.map(|(before, count)| {
        events()[..count].iter().map(|event| event_row(step, before, event)).collect::<String>()
    });
    title.to_string() + &rows.concat()
}

pub fn text() -> String {
    lengths(&engine::step) + &starts(&engine::step)
}

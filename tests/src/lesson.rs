//! The sessions of examples/. A lesson: a leaf in a chamber, read against a reference gas for a minute.
//!
//! The analyser is that of source document 000's Table 3-1. Its converter stands 1,250
//! units off zero and reads almost one per cent high, which zero and span take out.

use std::error::Error;
use std::fs;
use std::path::PathBuf;

use crate::bench;
use crate::engine::{Event, SheetRecord};
use crate::file::{EventRecord, Session, EVENTS_LIMIT, SHEETS_LIMIT};
use crate::plan::Plan;

/// Pressure, temperature and vapour pressure in the chamber.
pub const CHAMBER: (u32, u32, u32) = (99_500, 29_815, 1_600);
const ZERO: i32 = 1_250;

/// Five readings a second for a minute.
const SAMPLES: i32 = 300;

/// The signal against the reference: the leaf draws the chamber's CO2 down, and the
/// converter flickers by some tens of units.
fn raw(sample: i32) -> i32 {
    let flicker = (sample * 37 % 21 - 10) * 40;
    ZERO + 600_000 - 4_000 * sample + flicker
}

fn events() -> Vec<Event> {
    let (p, t, e) = CHAMBER;
    let mut events = vec![
        Event::Load { index: 0 },
        Event::Zero { raw: ZERO },
        // A cylinder of 500 µmol/mol, dry.
        Event::Span { raw: 24_800_000, cylinder: 500_000_000, p, t, e: 0 },
        // A reference gas of 350 µmol/mol, dry.
        Event::Reference { cylinder: 350_000_000, e: 0 },
        Event::Start,
    ];
    events.extend((0..SAMPLES).map(|sample| Event::Sample { raw: raw(sample), p, t, e }));
    events.extend([Event::Stop, Event::Area]);
    events
}

pub fn session() -> Session {
    Session {
        sheets: vec![bench::table_sheet()],
        events: events().iter().map(EventRecord::of).collect(),
    }
}

/// The lesson again and again, until it has as many sheets and events as a file may have.
pub fn longest() -> Session {
    let Session { sheets, events } = session();
    Session {
        sheets: sheets.into_iter().cycle().take(SHEETS_LIMIT).collect(),
        events: events.into_iter().cycle().take(EVENTS_LIMIT).collect(),
    }
}

/// The lesson of `examples/plan.c`: document 01's bench sheet, and three of its bench readings
/// against a reference.
pub fn desk() -> Plan {
    let sample = |raw| Event::Sample { raw, p: 101_300, t: 29_815, e: 0 };
    let bench = Session { sheets: vec![bench::sheet()], events: Vec::new() };
    let Plan { sheets, .. } = Plan::of(&bench).expect("the bench's sheet can be planned");
    let mut events = vec![Event::Load { index: 0 }];
    events.extend([Event::Reference { cylinder: 1_000_000_000, e: 0 }, Event::Start]);
    events.extend([0, 10_000_000, 0].map(sample));
    events.extend([Event::Stop, Event::Area]);
    Plan { sheets, events }
}

/// Samples that are over range, one on each ground, and one that is not. With the zero at
/// −20,000,000 raw 140,000,000 is V 160,000,000. K of the second sheet is 50,000,000. V 80,000,000 at
/// P 60,000 has a z of 135,066,667. On document 01's bench sheet the wet value at V 70,000,000 would be
/// 3,010,000,000.
pub fn over_range() -> Session {
    let sample = |raw, p| Event::Sample { raw, p, t: 29_815, e: 0 };
    let events = [
        Event::Load { index: 0 },
        Event::Zero { raw: -20_000_000 },
        sample(140_000_000, 101_300),
        Event::Load { index: 1 },
        sample(50_000_000, 101_300),
        Event::Load { index: 0 },
        sample(80_000_000, 60_000),
        sample(70_000_000, 101_300),
        sample(40_000_000, 101_300),
    ];
    Session {
        sheets: vec![bench::sheet(), SheetRecord { k: 50_000_000, ..bench::sheet() }],
        events: events.iter().map(EventRecord::of).collect(),
    }
}

/// Writes a session file for a program of these tests. It is named as the one argument and not by `>`,
/// which would empty the old one before the program is even built. The bytes go to a file beside it,
/// which takes its place once they are all there.
pub fn write_as_named(session: &Session) -> Result<(), Box<dyn Error>> {
    let words: Vec<_> = std::env::args_os().skip(1).collect();
    let [word] = words.as_slice() else { return Err("name the one file to write".into()) };
    let mut beside = word.clone();
    beside.push(".new");
    let (path, beside) = (PathBuf::from(word), PathBuf::from(beside));
    fs::write(&beside, session.to_bytes())?;
    Ok(fs::rename(beside, path)?)
}

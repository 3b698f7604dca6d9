//! Invented plans with lent buffers for their files: numbers inside and far outside their
//! limits, every count of sheets, and the ends of the count of events.

use crate::engine::{Event, SheetRecord};
use crate::file::{EventRecord, EVENTS_LIMIT, SHEETS_LIMIT};
use crate::hostile;
use crate::plan::{Plan, PlannedSheet};
use crate::random::Random;
use crate::rules;

use super::{numbers, old_bytes};

/// The plan of a number under a seed, and a lent buffer that may be too short: always the same.
pub fn planned(seed: u64, number: u64) -> (Plan, Vec<u8>) {
    let mut random = Random::of_session(seed, number);
    let (sheets, events) = (sheets_count(&mut random), events_count(&mut random));
    let plan = plan(&mut random, sheets, events);
    let room = room(&mut random, plan.session().records().file_bytes());
    (plan, old_bytes(&mut random, room))
}

fn sheets_count(random: &mut Random) -> usize {
    match random.below(16) {
        0 => SHEETS_LIMIT + 1,
        1 => SHEETS_LIMIT + 2,
        2 => SHEETS_LIMIT,
        _ => random.below(SHEETS_LIMIT as u64 + 1) as usize,
    }
}

/// Small counts mostly: a long list shows no more of its records than a short one.
fn events_count(random: &mut Random) -> usize {
    match random.below(100) {
        0 => EVENTS_LIMIT - 1,
        1 => EVENTS_LIMIT,
        2 => EVENTS_LIMIT + 1,
        3 => random.below(EVENTS_LIMIT as u64) as usize,
        4..=8 => 0,
        _ => random.between(1, 40) as usize,
    }
}

pub(super) fn plan(random: &mut Random, sheets: usize, events: usize) -> Plan {
    Plan {
        sheets: (0..sheets).map(|_| sheet(random)).collect(),
        events: (0..events).map(|_| any_event(random, sheets)).collect(),
    }
}

fn sheet(random: &mut Random) -> PlannedSheet {
    let SheetRecord { a1, a2, a3, t0, k, .. } = match random.below(4) {
        0 => numbers::bad_sheet(random),
        1 => return wild_sheet(random),
        _ => numbers::good_sheet(random),
    };
    PlannedSheet { a1, a2, a3, t0, k }
}

fn wild_sheet(random: &mut Random) -> PlannedSheet {
    let [a1, a2, a3, t0, k] = [(); 5].map(|()| numbers::wild(random));
    PlannedSheet { a1: a1 as i32, a2: a2 as i32, a3: a3 as i32, t0, k }
}

/// Loads more often than other kinds, since nothing is read without a sheet.
fn any_event(random: &mut Random, sheets: usize) -> Event {
    let kind = random.between(0, hostile::KINDS.len() as i64).max(1) as u8;
    event(random, kind, sheets)
}

/// An event of one kind, each number a usual one or any that its field can hold.
pub(super) fn event(random: &mut Random, kind: u8, sheets: usize) -> Event {
    let room = numbers::room(random);
    let index = random.below(sheets as u64 + 1) as i64;
    let cylinder = rules::WET_LIMIT / 15;
    let usual =
        [rules::ZERO_LIMIT / 2, if kind == 1 { index } else { cylinder }, room.p, room.t, room.e];
    let [raw, c, p, t, e] = usual.map(|usual| {
        let wild = random.percent(25);
        if wild {
            numbers::wild(random)
        } else {
            usual as u32
        }
    });
    let record = EventRecord { kind, padding: [0; 3], raw: raw as i32, c, p, t, e };
    record.event_of_kind().unwrap_or(Event::Area)
}

/// How long a lent buffer is for a file of so many bytes.
fn room(random: &mut Random, file: usize) -> usize {
    match random.below(12) {
        0 => 0,
        1 | 2 => short_room(random, file),
        _ => enough_room(random, file),
    }
}

pub(super) fn short_room(random: &mut Random, file: usize) -> usize {
    match random.below(3) {
        0 => random.below(file as u64) as usize,
        _ => file - 1,
    }
}

pub(super) fn enough_room(random: &mut Random, file: usize) -> usize {
    match random.below(8) {
        0..=2 => file,
        3 | 4 => file + 1,
        5 | 6 => file + random.between(2, 60) as usize,
        _ => file + random.between(1_000, 5_000) as usize,
    }
}

//! Sessions for the grounds of over range: signals at each of the four limits and beside it, in
//! both modes, under zeros and spans that bring a signal above 150,000,000, and samples that would be
//! over range and are refused before.

use crate::bench;
use crate::engine::{self, Event, Mode, SheetRecord, State};
use crate::file::{EventRecord, Session};
use crate::random::Random;
use crate::rules::{self, Air, Sheet};

use super::author::{fields, raw_of};
use super::numbers;

/// The session of a number under a seed: always the same one.
pub fn aimed(seed: u64, number: u64) -> Session {
    let mut random = Random::of_session(seed, number);
    let sheets = vec![sheet(&mut random), sheet(&mut random)];
    let mut session = Session { sheets, events: Vec::new() };
    let mut state = State::fresh();
    for _ in 0..random.between(4, 30) {
        let event = next(&mut random, &state);
        let mut record = EventRecord::of(&event);
        match random.below(60) {
            0 => record.padding[random.below(3) as usize] = 1 << random.below(8),
            1 if record.kind == 6 => record.c = 1 << random.below(32),
            _ => {}
        }
        state = engine::step(&session.sheets, &state, &record.entry()).1;
        session.events.push(record);
    }
    session
}

/// A straight line whose wet value in the bench's air is V times a whole number, or a tenth or a
/// ten-millionth of V; or a curve. K is at a limit of the signal or of z, beside it, or elsewhere.
fn sheet(random: &mut Random) -> SheetRecord {
    let slopes = [1, 1_000_000, 100_000_000, 300_000_000, 500_000_000, 1_000_000_000];
    let ends = [100_000_000, 100_000_001, 150_000_000, 150_000_001];
    let k = match random.below(5) {
        0 => random.pick(&ends),
        1 => random.between(10_000_000, 60_000_000) as u32,
        2 => random.between(150_000_002, 170_000_000) as u32,
        3 => 400_000_000,
        _ => random.between(100_000_000, 400_000_000) as u32,
    };
    if random.percent(25) {
        SheetRecord { k, ..bench::sheet() }
    } else {
        SheetRecord { a1: random.pick(&slopes), a2: 0, a3: 0, k, ..bench::sheet() }
    }
}

/// The bench's air, more often than not.
fn air(random: &mut Random) -> Air {
    let damp = Air { p: 100_000, e: 10_000, ..bench::AIR };
    let thin = Air { p: 60_000, ..bench::AIR };
    let warm = Air { t: 30_411, e: 1_000, ..bench::AIR };
    random.pick(&[bench::AIR, bench::AIR, bench::AIR, damp, thin, warm])
}

fn next(random: &mut Random, state: &State) -> Event {
    let Some(sheet) = state.sheet else {
        let index = random.pick(&[0, 0, 1, 1, 2]);
        return if random.percent(80) { Event::Load { index } } else { outside(random) };
    };
    match (random.below(30), state.mode) {
        (0, _) => Event::Load { index: random.pick(&[0, 1]) },
        (1..=3, _) => Event::Zero { raw: random.pick(&[-20_000_000, -1, 0, 1, 20_000_000]) },
        (4 | 5, Mode::Absolute) => span(random, state, &sheet),
        (6 | 7, Mode::Absolute) => reference(random, &sheet),
        (6, Mode::Reference { .. }) => Event::Absolute,
        (7, Mode::Reference { .. }) => reference(random, &sheet),
        (8, _) => outside(random),
        _ => sample(random, state, &sheet),
    }
}

/// An input outside its limits, and others that would be over range.
fn outside(random: &mut Random) -> Event {
    let Air { p, t, e } = numbers::edge_air(random, &bench::AIR);
    let raw = random.pick(&[150_000_000, 150_000_001]);
    Event::Sample { raw, p: p as u32, t: t as u32, e: e as u32 }
}

/// A span that reads a signal's own value, or one that no span serves.
fn span(random: &mut Random, state: &State, sheet: &Sheet) -> Event {
    let (v, s) =
        (random.between(5_000_000, 9_000_000), random.pick(&[500_000, 1_250_000, 2_000_000]));
    let wet = rules::absolute_reading(sheet, &bench::AIR, v).unwrap_or(1).max(1);
    let raw = if random.percent(20) { 150_000_000 } else { state.q + v * rules::SPAN_UNIT / s };
    let (p, t, e) = fields(&bench::AIR);
    Event::Span { raw: raw as i32, cylinder: wet as u32, p, t, e }
}

/// A cylinder with a signal somewhere below K, or one that may have none.
fn reference(random: &mut Random, sheet: &Sheet) -> Event {
    let v = random.between(0, sheet.k.min(60_000_000) * 9 / 10);
    let wet = rules::absolute_reading(sheet, &bench::AIR, v).unwrap_or(rules::WET_LIMIT);
    let cylinder = random.pick(&[0, wet, wet, wet, rules::WET_LIMIT]) as u32;
    Event::Reference { cylinder, e: random.pick(&[0, 0, 1_000]) }
}

/// A signal at a limit or beside it, if one of the raw signals around comes to it.
fn sample(random: &mut Random, state: &State, sheet: &Sheet) -> Event {
    let air = air(random);
    let limits = [
        rules::SIGNAL_LIMIT,
        sheet.k,
        rules::near(i128::from(rules::Z_LIMIT) * i128::from(air.broadened()), 10_130_000) as i64,
        numbers::top_signal(sheet, &air),
        rules::LOWEST_SIGNAL,
    ];
    let target = random.pick(&limits) + random.pick(&[-1, 0, 0, 1, 1, 1_000]);
    let near = raw_of(state, sheet, &air, target).unwrap_or(0);
    let limit = rules::SIGNAL_LIMIT;
    let raw = (near + random.pick(&[0, 0, 0, 1, -1])).clamp(-limit, limit);
    let (p, t, e) = fields(&air);
    Event::Sample { raw: raw as i32, p, t, e }
}

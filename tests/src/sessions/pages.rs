//! Sessions for pages: values at a half of a hundredth, next to one and around nothing, in
//! every column, with references that change and events that have no line between them.

use crate::bench;
use crate::engine::{self, Entry, Event, Mode, SheetRecord, State};
use crate::file::{EventRecord, Session};
use crate::page::by_hand::plain_sheet;
use crate::page::{Sample, HUNDREDTH};
use crate::random::Random;
use crate::rules::Air;

use super::author::{fields, raw_of};

/// Dry air, in which a reading of the plain sheet is its signal, and air with a tenth of its
/// pressure in vapour, in which it nearly is.
const AIRS: [Air; 2] = [bench::AIR, Air { e: 10_130, ..bench::AIR }];

/// Events that have no line on a page, one of them a sample outside its limits.
const OTHERS: [Event; 6] = [
    Event::Start,
    Event::StartShort,
    Event::Stop,
    Event::Area,
    Event::Zero { raw: 1_000 },
    Event::Sample { raw: 0, p: 0, t: 0, e: 0 },
];

/// The session of a number under a seed: always the same one.
pub fn aimed(seed: u64, number: u64) -> Session {
    let mut random = Random::of_session(seed, number);
    let mut session = Session { sheets: vec![plain_sheet()], events: Vec::new() };
    let mut state = State::fresh();
    for _ in 0..random.between(3, 40) {
        let event = next(&mut random, &session.sheets, &state);
        state = engine::step(&session.sheets, &state, &Entry::Known(event)).1;
        session.events.push(EventRecord::of(&event));
    }
    session
}

fn next(random: &mut Random, sheets: &[SheetRecord], state: &State) -> Event {
    let Some(sheet) = state.sheet else {
        return Event::Load { index: 0 };
    };
    match random.below(20) {
        0 => Event::Absolute,
        1..=3 => Event::Reference { cylinder: cylinder(random), e: 0 },
        4 | 5 => random.pick(&OTHERS),
        _ => {
            let aim = Aim::new(random, state);
            let near = raw_of(state, &sheet, &aim.air, aim.wet).unwrap_or(0);
            let samples = [0, 1, -1, 2, -2].map(|beside| aim.sample(near + beside));
            samples.into_iter().find(|event| aim.hit(sheets, state, event)).unwrap_or(samples[0])
        }
    }
}

/// Some values next to a hundredth or a half, and these themselves.
fn beside(random: &mut Random) -> i64 {
    random.pick(&[-5_001, -5_000, -4_999, -4_000, -1, 0, 1, 4_999, 5_000, 5_001])
}

fn cylinder(random: &mut Random) -> u32 {
    let cylinder = HUNDREDTH * random.between(0, 8_000) + beside(random);
    cylinder.max(0) as u32
}

fn value(random: &mut Random) -> i64 {
    let hundredths = match random.below(3) {
        0 => 0,
        1 => random.between(-3, 3),
        _ => random.between(-190, 900),
    };
    HUNDREDTH * hundredths + beside(random)
}

/// The value that a sample is to have in one of the columns.
struct Aim {
    column: usize,
    value: i64,
    /// About what wet is then.
    wet: i64,
    air: Air,
}

impl Aim {
    fn new(random: &mut Random, state: &State) -> Aim {
        let (air, value) = (random.pick(&AIRS), value(random));
        let (column, wet) = match (random.below(3), state.mode) {
            (0, _) | (2, Mode::Absolute) => (0, value),
            (2, Mode::Reference { cylinder, .. }) => (2, cylinder + value),
            _ => (1, value * (air.p - air.e) / air.p),
        };
        Aim { column, value, wet, air }
    }

    fn sample(&self, raw: i64) -> Event {
        let (p, t, e) = fields(&self.air);
        Event::Sample { raw: raw as i32, p, t, e }
    }

    fn hit(&self, sheets: &[SheetRecord], state: &State, event: &Event) -> bool {
        let (answer, _) = engine::step(sheets, state, &Entry::Known(*event));
        let values = Sample::read(0, state, &answer).values();
        answer.refusal == 0 && values[self.column] == Some(self.value)
    }
}

//! Document 02's R-9: the grounds of refusal 8. A sample that is over range has passed one of four
//! limits or several, and the first of them, in the paper's order, is its ground.

pub mod by_hand;

use crate::engine::{Entry, Event, Mode, State};
use crate::file::{self, Outcome, Session};
use crate::rules::{self, Air, Sheet};
use crate::store::{self, Stored};

/// What a sample is over range by, with the number that a host gets.
#[derive(Clone, Copy, Debug, PartialEq, Eq)]
pub enum Ground {
    /// The sample is not refused with 8, or the event is no sample.
    None = 0,
    /// The signal is above 150,000,000.
    Signal = 1,
    /// The signal is at K or above it.
    K = 2,
    /// z, the signal reduced to the standard pressure, is above 10^8.
    Reduced = 3,
    /// The wet value is above 3,000,000,000.
    Wet = 4,
}

/// In the paper's order.
pub const GROUNDS: [Ground; 4] = [Ground::Signal, Ground::K, Ground::Reduced, Ground::Wet];

impl Ground {
    pub fn number(self) -> u8 {
        self as u8
    }

    /// The first in the paper's order whose limit is passed.
    pub fn first(passed: [bool; 4]) -> Ground {
        let place = passed.iter().position(|passed| *passed);
        place.map_or(Ground::None, |place| GROUNDS[place])
    }
}

/// What a sample is read from.
#[derive(Clone, Copy, Debug, PartialEq, Eq)]
pub struct Sample {
    pub raw: i64,
    pub air: Air,
}

impl Sample {
    /// What a well-formed sample has; nothing of any other entry.
    pub fn of(entry: &Entry) -> Option<Sample> {
        match *entry {
            Entry::Known(Event::Sample { raw, p, t, e }) => {
                let air = Air { p: i64::from(p), t: i64::from(t), e: i64::from(e) };
                Some(Sample { raw: i64::from(raw), air })
            }
            _ => None,
        }
    }
}

/// The signal that a sample is read at, and the sheet that it is read by. There is none where it is
/// refused before: without a sheet (1), with an input outside its limits (6), the reference's e among
/// them, and without a reference signal (9).
pub fn signal(state: &State, stored: Stored, sample: &Sample) -> Option<(Sheet, i64)> {
    let sheet = state.sheet?;
    let Sample { raw, air } = *sample;
    if !rules::raw_within_limits(raw) || !air.within_limits() {
        return None;
    }
    let v = rules::signal_from_raw(raw, state.q, state.s);
    let Mode::Reference { cylinder, e } = state.mode else {
        return Some((sheet, v));
    };
    let air = Some(air.with_vapour(e)).filter(Air::within_limits)?;
    let r = store::signal(stored, &sheet, cylinder, &air)?;
    Some((sheet, rules::signal_against(v, r, sheet.k)))
}

/// Which of the four limits a signal passes, in the paper's order.
pub fn passed(sheet: &Sheet, air: &Air, signal: i64) -> [bool; 4] {
    let steps = rules::steps(sheet, air, signal);
    [
        signal > rules::SIGNAL_LIMIT,
        signal >= sheet.k,
        steps.z > rules::Z_LIMIT,
        steps.c > rules::WET_LIMIT,
    ]
}

/// The ground of a sample from a state with what is stored; an entry that is no well-formed sample has
/// none. Nor has a signal that is refused with 7: so far below zero it passes none of the limits.
pub fn ground(state: &State, stored: Stored, entry: &Entry) -> Ground {
    let read = Sample::of(entry).and_then(|sample| {
        let (sheet, signal) = signal(state, stored, &sample)?;
        Some(passed(&sheet, &sample.air, signal))
    });
    read.map_or(Ground::None, Ground::first)
}

/// The grounds of all events, from a fresh engine.
pub fn of_session(session: &Session) -> Vec<Ground> {
    let walk = store::walk(session, None).zip(&session.events);
    walk.map(|((state, stored, _), record)| ground(&state, stored, &record.entry())).collect()
}

/// Writes the grounds of a lent file from the start of the lent output, a byte for each event.
pub fn grounds(file: &[u8], output: &mut [u8]) -> Outcome {
    file::into_lent(file, output, 1, |session, output| {
        let grounds = of_session(session);
        output.iter_mut().zip(&grounds).for_each(|(place, ground)| *place = ground.number());
        grounds.len()
    })
}

//! Document 02's R-7: an engine that stores what its last search found. `engine` has no store
//! and searches at each sample; this one takes the same steps with a finding kept beside the
//! state, by the paper's rules or by wrong ones.

use std::cell::Cell;

use crate::engine::{self, Answer, Entry, SheetRecord, State};
use crate::file::Session;
use crate::rules::{self, Air, Refusal, Sheet};

/// What a search found at a pressure and a temperature: a reference signal, or none.
#[derive(Clone, Copy, Debug, PartialEq, Eq)]
pub struct Finding {
    pub p: i64,
    pub t: i64,
    pub found: Option<i64>,
}

/// The finding that is stored, if any.
pub type Stored = Option<Finding>;

/// How a store goes wrong so that answers show it. Other faults show in what is stored alone, and
/// the program `altered` makes them visible: where a zero empties the store the next sample finds
/// the same again, and after a load or an absolute that keeps it a reference has to follow.
#[derive(Clone, Copy, Debug, PartialEq, Eq)]
pub enum Fault {
    ReferenceKeeps,
    PressureNotCompared,
    TemperatureNotCompared,
    /// A search that finds nothing leaves the signal that was stored, at the new P and T.
    SignalKept,
}

pub const FAULTS: [Fault; 4] = [
    Fault::ReferenceKeeps,
    Fault::PressureNotCompared,
    Fault::TemperatureNotCompared,
    Fault::SignalKept,
];

fn is_at(finding: &Finding, air: &Air, fault: Option<Fault>) -> bool {
    let pressure = finding.p == air.p || fault == Some(Fault::PressureNotCompared);
    let temperature = finding.t == air.t || fault == Some(Fault::TemperatureNotCompared);
    pressure && temperature
}

/// The reference signal that a sample goes by, if there is one: the stored finding's at its P and T, and
/// else what a search finds.
pub fn signal(stored: Stored, sheet: &Sheet, cylinder: i64, air: &Air) -> Option<i64> {
    match stored.filter(|finding| is_at(finding, air, None)) {
        Some(finding) => finding.found,
        None => rules::reference_signal(sheet, cylinder, air).ok(),
    }
}

/// The kinds that empty the store where they are accepted: load, reference and absolute.
fn empties(kind: u8, fault: Option<Fault>) -> bool {
    match kind {
        4 => fault != Some(Fault::ReferenceKeeps),
        _ => [1, 5].contains(&kind),
    }
}

/// One event: its answer, the state after it and what is stored then. A reference signal is asked
/// for once a sample's inputs have passed check 6, and not before.
pub fn step(
    fault: Option<Fault>,
    sheets: &[SheetRecord],
    (state, stored): (&State, Stored),
    entry: &Entry,
) -> (Answer, State, Stored) {
    let kept = Cell::new(stored);
    let find = |sheet: &Sheet, cylinder: i64, air: &Air| match kept.get() {
        Some(finding) if is_at(&finding, air, fault) => {
            finding.found.ok_or(Refusal::NoReferenceSignal)
        }
        _ => {
            let found = rules::reference_signal(sheet, cylinder, air);
            let left = stored.filter(|_| fault == Some(Fault::SignalKept));
            let signal = found.ok().or(left.and_then(|finding| finding.found));
            kept.set(Some(Finding { p: air.p, t: air.t, found: signal }));
            found
        }
    };
    let (answer, next) = engine::step_by(&find, sheets, state, entry);
    let emptied = answer.refusal == 0 && empties(answer.kind, fault);
    (answer, next, if emptied { None } else { kept.get() })
}

/// Walks a session from a fresh engine with nothing stored: at each event the state and what is
/// stored before it, and its answer.
pub fn walk(
    session: &Session,
    fault: Option<Fault>,
) -> impl Iterator<Item = (State, Stored, Answer)> + '_ {
    let mut before = (State::fresh(), None);
    session.events.iter().map(move |record| {
        let (state, stored) = before;
        let (answer, next, kept) = step(fault, &session.sheets, (&state, stored), &record.entry());
        before = (next, kept);
        (state, stored, answer)
    })
}

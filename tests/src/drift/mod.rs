//! How far an area slides off over a long lesson: the old program's single precision and
//! the engine, each beside the exact ledger, over one and the same record of readings.

mod leaf;
mod old;
pub mod picture;
pub mod table;

use crate::bench;
use crate::engine::{self, Answer, Entry, Event, State, READINGS_LIMIT};
use crate::exact::Fraction;
use crate::ledger::Ledger;
use crate::lesson::CHAMBER;
use leaf::{Leaf, CYCLE};
use old::OldWay;

/// An area counts in pmol/mol times 0.1 s: so many are 1 µmol/mol s.
const UNITS: i128 = 10_000_000;

/// Five readings a second.
const READINGS_AN_HOUR: u32 = 18_000;

/// The areas of a lesson's first readings: the exact one, and how far the others are from
/// it, in pmol/mol times 0.1 s.
#[derive(Clone, Debug)]
pub struct Point {
    pub readings: u32,
    pub exact: Fraction,
    /// The old way, with the mole fraction rounded to 0.1 µmol/mol as it is shown.
    pub shown: Fraction,
    /// The old way, with the mole fraction left as single precision has it.
    pub unrounded: Fraction,
    pub engine: Fraction,
}

impl Point {
    /// Before the first reading.
    fn nothing() -> Point {
        let zero = || Fraction::whole(0);
        Point { readings: 0, exact: zero(), shown: zero(), unrounded: zero(), engine: zero() }
    }
}

/// The same readings on every way.
struct Ways {
    state: State,
    ledger: Ledger,
    shown: OldWay,
    unrounded: OldWay,
}

impl Ways {
    /// Load the sheet and start an integration, in absolute mode.
    fn started() -> Result<Ways, String> {
        let (shown, unrounded) = (OldWay::new(old::tenths), OldWay::new(|value| value));
        let (state, ledger) = (State::fresh(), Ledger::fresh());
        let mut ways = Ways { state, ledger, shown, unrounded };
        ways.feed(Event::Load { index: 0 })?;
        ways.feed(Event::Start)?;
        Ok(ways)
    }

    /// One event for the engine and the ledger, which checks the answer by demand 3.
    fn feed(&mut self, event: Event) -> Result<Answer, String> {
        let sheets = [bench::table_sheet()];
        let entry = Entry::Known(event);
        let (answer, next) = engine::step(&sheets, &self.state, &entry);
        self.state = next;
        self.ledger.check(&sheets, &entry, &answer)?;
        if answer.refusal != 0 {
            return Err(format!("{event:?} was refused with {}", answer.refusal));
        }
        Ok(answer)
    }

    fn read(&mut self, raw: i32) -> Result<(), String> {
        let (p, t, e) = CHAMBER;
        self.feed(Event::Sample { raw, p, t, e })?;
        self.shown.read(raw);
        self.unrounded.read(raw);
        Ok(())
    }

    fn point(&mut self, readings: u32) -> Result<Point, String> {
        let area = self.feed(Event::Area)?;
        let exact = self.ledger.exact_area().ok_or("an area of no readings")?;
        Ok(Point {
            readings,
            shown: self.shown.exact_area().minus(&exact),
            unrounded: self.unrounded.exact_area().minus(&exact),
            engine: Fraction::whole(i128::from(area.x)).minus(&exact),
            exact,
        })
    }
}

/// A way's distance from the exact area.
pub type Distance = fn(&Point) -> &Fraction;

/// The three ways: the old one as it is shown, the old one left unrounded, the engine.
pub const WAYS: [Distance; 3] =
    [|point| &point.shown, |point| &point.unrounded, |point| &point.engine];

/// The long lesson, with an area read after every reading.
#[derive(Clone, Debug)]
pub struct Drift {
    /// The areas after each whole cycle of light and dark.
    pub points: Vec<Point>,
    /// For each way the first of its areas that are farthest from the exact one.
    pub worst: [Point; 3],
    /// How many areas were read.
    pub areas: u32,
}

impl Drift {
    /// Each way's largest distance.
    pub fn worst_distances(&self) -> [&Fraction; 3] {
        let [shown, unrounded, engine] = &self.worst;
        [&shown.shown, &unrounded.unrounded, &engine.engine]
    }

    fn take(&mut self, point: Point) {
        self.areas += 1;
        for (worst, distance) in self.worst.iter_mut().zip(WAYS) {
            if distance(&point).is_farther_than(distance(worst)) {
                *worst = point.clone();
            }
        }
        if point.readings % CYCLE == 0 {
            self.points.push(point);
        }
    }
}

/// Goes through the longest integration there is.
pub fn measure() -> Result<Drift, String> {
    let mut ways = Ways::started()?;
    let nothing = Point::nothing();
    let worst = [nothing.clone(), nothing.clone(), nothing];
    let mut drift = Drift { points: Vec::new(), worst, areas: 0 };
    for (readings, raw) in (1..=READINGS_LIMIT as u32).zip(Leaf::new()) {
        ways.read(raw)?;
        drift.take(ways.point(readings)?);
    }
    Ok(drift)
}

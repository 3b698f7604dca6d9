//! Readings whose rounding errors are large: short sessions that anyone can run, with
//! the exact error of their last sample. They show how far down an allowed distance
//! could not be moved.

mod search;

pub use search::climb;

use crate::engine::{Answer, Event, SheetRecord};
use crate::exact::{self, Fraction};
use crate::file::{EventRecord, Session};
use crate::rules::{Air, Sheet, SPAN_UNIT};

/// What is wrong by much in a reading.
#[derive(Clone, Copy, Debug, PartialEq, Eq)]
pub enum Kind {
    /// The wet value in absolute mode.
    WetAbsolute,
    /// The wet value against a reference.
    WetAgainst,
    /// The dry value.
    Dry,
    /// The same three at an exact signal below zero.
    WetAbsoluteBelowZero,
    WetAgainstBelowZero,
    DryBelowZero,
    /// The cylinder above equation (11) at R.
    AtReference,
    /// Equation (11) at R − 1 above the cylinder.
    BelowReference,
}

pub const KINDS: [Kind; 8] = [
    Kind::WetAbsolute,
    Kind::WetAgainst,
    Kind::Dry,
    Kind::WetAbsoluteBelowZero,
    Kind::WetAgainstBelowZero,
    Kind::DryBelowZero,
    Kind::AtReference,
    Kind::BelowReference,
];

impl Kind {
    pub fn title(self) -> &'static str {
        match self {
            Kind::WetAbsolute => "wet value in absolute mode, less the exact value",
            Kind::WetAgainst => "wet value against a reference, less the exact value",
            Kind::Dry => "dry value, less the exact value times P / (P - e)",
            Kind::WetAbsoluteBelowZero => {
                "wet value in absolute mode below zero, less the exact value"
            }
            Kind::WetAgainstBelowZero => {
                "wet value against a reference below zero, less the exact value"
            }
            Kind::DryBelowZero => "dry value below zero, less the exact value times P / (P - e)",
            Kind::AtReference => "cylinder, less equation (11) at R",
            Kind::BelowReference => "equation (11) at R - 1, less the cylinder",
        }
    }

    /// Whether the reading has to be one at an exact signal below zero.
    pub fn below_zero(self) -> bool {
        matches!(self, Kind::WetAbsoluteBelowZero | Kind::WetAgainstBelowZero | Kind::DryBelowZero)
    }

    fn dry(self) -> bool {
        matches!(self, Kind::Dry | Kind::DryBelowZero)
    }

    fn absolute(self) -> bool {
        matches!(self, Kind::WetAbsolute | Kind::WetAbsoluteBelowZero)
    }
}

/// A reading with everything that leads to it from a fresh engine.
#[derive(Clone, Copy, Debug, PartialEq, Eq)]
pub struct Reading {
    pub kind: Kind,
    pub sheet: Sheet,
    pub q: i64,
    pub s: i64,
    /// The span event that sets S; none for the S of a fresh engine.
    pub span: Option<Event>,
    /// Cr and er; none in absolute mode.
    pub reference: Option<(i64, i64)>,
    pub raw: i64,
    pub air: Air,
}

impl Reading {
    fn events(&self) -> Vec<Event> {
        let Air { p, t, e } = self.air;
        let (p, t, e) = (p as u32, t as u32, e as u32);
        let mut events = vec![Event::Load { index: 0 }, Event::Zero { raw: self.q as i32 }];
        events.extend(self.span);
        if let Some((cylinder, e)) = self.reference {
            events.push(Event::Reference { cylinder: cylinder as u32, e: e as u32 });
        }
        events.push(Event::Sample { raw: self.raw as i32, p, t, e });
        events
    }

    pub fn session(&self) -> Session {
        let sheet = SheetRecord {
            a1: self.sheet.a1 as i32,
            a2: self.sheet.a2 as i32,
            a3: self.sheet.a3 as i32,
            t0: self.sheet.t0 as u32,
            k: self.sheet.k as u32,
            rest: 0,
        };
        let events = self.events().iter().map(EventRecord::of).collect();
        Session { sheets: vec![sheet], events }
    }

    /// The engine's answer to the sample and the exact error, or why there is none.
    pub fn replay(&self) -> Result<(Answer, Fraction), String> {
        let answers = self.session().answers();
        if let Some(refused) = answers.iter().find(|answer| answer.refusal != 0) {
            return Err(format!("kind {} refused with {}", refused.kind, refused.refusal));
        }
        let span = answers.iter().find(|answer| answer.kind == 3);
        if span.map_or(SPAN_UNIT, |answer| i64::from(answer.m)) != self.s {
            return Err("the span event sets another S".to_string());
        }
        let answer = answers.last().copied().ok_or("no answer")?;
        if self.kind.below_zero() && !self.exact_signal(i64::from(answer.m)).is_negative() {
            return Err("the exact signal is not below zero".to_string());
        }
        Ok((answer, self.error(&answer)))
    }

    fn error(&self, answer: &Answer) -> Fraction {
        let r = i64::from(answer.m);
        let (cylinder, er) = self.reference.unwrap_or((0, 0));
        let whole = |number: i64| Fraction::whole(i128::from(number));
        let cylinder = whole(cylinder);
        let at = |signal: i64| {
            exact::equation_11(&self.sheet, &self.air.with_vapour(er), &whole(signal))
        };
        match self.kind {
            Kind::AtReference => cylinder.minus(&at(r)),
            Kind::BelowReference => at(r - 1).minus(&cylinder),
            kind if kind.dry() => {
                whole(answer.y).minus(&exact::dry_value(&self.exact_wet(r), &self.air))
            }
            _ => whole(answer.x).minus(&self.exact_wet(r)),
        }
    }

    fn exact_signal(&self, r: i64) -> Fraction {
        let v = exact::signal_from_raw(self.raw, self.q, self.s);
        match self.reference {
            None => v,
            Some(_) => exact::signal_against(&v, r, self.sheet.k),
        }
    }

    fn exact_wet(&self, r: i64) -> Fraction {
        exact::equation_11(&self.sheet, &self.air, &self.exact_signal(r))
    }

    /// The block of this reading: every input, the answer, and the error.
    pub fn text(&self) -> Result<String, String> {
        let (answer, error) = self.replay()?;
        let Sheet { a1, a2, a3, t0, k } = self.sheet;
        let Air { p, t, e } = self.air;
        let mut text = format!("[{}]\n", self.kind.title());
        text += &format!("sheet A1 {a1} A2 {a2} A3 {a3} T0 {t0} K {k}\n");
        text += &format!("zero Q {}\n", self.q);
        if let Some(Event::Span { raw, cylinder, p, t, e }) = self.span {
            let s = self.s;
            text += &format!("span raw {raw} C {cylinder} P {p} T {t} e {e} sets S {s}\n");
        }
        if let Some((cylinder, er)) = self.reference {
            text += &format!("reference Cr {cylinder} er {er}\n");
        }
        text += &format!("sample raw {} P {p} T {t} e {e}\n", self.raw);
        text += &format!("answer R {} wet {} dry {}\n", answer.m, answer.x, answer.y);
        text += &format!("error {}\n", error.decimal(12));
        Ok(text)
    }

    /// A block read back; nothing if it is not one.
    pub fn parse(block: &str) -> Option<Reading> {
        let line = |start: &str| block.lines().find(|line| line.starts_with(start));
        let title = line("[")?.trim_matches(['[', ']']);
        let kind = KINDS.into_iter().find(|kind| kind.title() == title)?;
        let sheet = line("sheet ")?;
        let sample = line("sample ")?;
        let air = Air { p: after(sample, "P")?, t: after(sample, "T")?, e: after(sample, "e")? };
        let reference = line("reference ");
        Some(Reading {
            kind,
            sheet: Sheet {
                a1: after(sheet, "A1")?,
                a2: after(sheet, "A2")?,
                a3: after(sheet, "A3")?,
                t0: after(sheet, "T0")?,
                k: after(sheet, "K")?,
            },
            q: after(line("zero ")?, "Q")?,
            s: line("span ").map_or(Some(SPAN_UNIT), |span| after(span, "S"))?,
            span: line("span ").and_then(parse_span),
            reference: reference.and_then(|line| Some((after(line, "Cr")?, after(line, "er")?))),
            raw: after(sample, "raw")?,
            air,
        })
    }
}

fn parse_span(line: &str) -> Option<Event> {
    Some(Event::Span {
        raw: after(line, "raw")? as i32,
        cylinder: after(line, "C")? as u32,
        p: after(line, "P")? as u32,
        t: after(line, "T")? as u32,
        e: after(line, "e")? as u32,
    })
}

/// The number that follows a name in a line.
fn after(line: &str, name: &str) -> Option<i64> {
    let mut words = line.split(' ');
    words.find(|word| *word == name)?;
    words.next()?.parse().ok()
}

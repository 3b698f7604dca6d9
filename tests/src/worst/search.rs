//! A hostile search for large errors. Errors grow with the slope of the curve at the
//! top of the range, with thin warm air and a cold sheet, so the search starts there
//! and then climbs: it changes one or two inputs and keeps what errs by more. Below zero
//! the slope is the same everywhere, and it starts at any signal of the line.

use std::time::{Duration, Instant};

use crate::engine::Event;
use crate::random::Random;
use crate::rules::{self, Air, Sheet, SPAN_UNIT, WET_LIMIT};

use super::{Kind, Reading};

/// The inputs that the search varies. R is chosen and the cylinder follows from it,
/// which spares a search at every try.
#[derive(Clone, Copy, Debug)]
struct Try {
    kind: Kind,
    sheet: Sheet,
    s: i64,
    raw: i64,
    r: i64,
    er: i64,
    air: Air,
}

/// Equation (11) in doubles: good to a hundred-thousandth of a pmol/mol, enough to
/// climb by. What is found is then computed again in exact fractions.
fn roughly(sheet: &Sheet, air: &Air, v: f64) -> f64 {
    let d = air.broadened() as f64;
    let z = 10_130_000.0 * v / d;
    let h2 = sheet.a2 as f64 + sheet.a3 as f64 * z / 1e7;
    let h1 = sheet.a1 as f64 + if v < 0.0 { 0.0 } else { h2 * z / 1e7 };
    let chi = d / (100.0 * air.p as f64);
    z * h1 / 1e7 * chi * air.t as f64 / sheet.t0 as f64
}

impl Try {
    fn at_signal(&self, v: i64) -> Option<i64> {
        let air = self.air.with_vapour(self.er);
        rules::absolute_reading(&self.sheet, &air, v).ok()
    }

    /// The cylinder that has R for its reference signal: one that R reads and R − 1
    /// does not. For an error at R − 1 it stands as low as it can.
    fn cylinder(&self) -> Option<i64> {
        let here = self.at_signal(self.r)?;
        if self.r == 0 {
            return (self.kind != Kind::BelowReference).then_some(here);
        }
        let before = self.at_signal(self.r - 1)?;
        let lowest = self.kind == Kind::BelowReference;
        (before < here).then_some(if lowest { before + 1 } else { here })
    }

    /// Whether R itself is looked at, and not the sample.
    fn bracket(&self) -> bool {
        matches!(self.kind, Kind::AtReference | Kind::BelowReference)
    }

    fn against(&self) -> bool {
        !self.kind.absolute()
    }

    /// The error of this try, positive or negative; none if it is refused.
    fn error(&self) -> Option<f64> {
        let reference_air = self.air.with_vapour(self.er);
        let at = |v: i64| roughly(&self.sheet, &reference_air, v as f64);
        match self.kind {
            Kind::AtReference => Some(self.cylinder()? as f64 - at(self.r)),
            Kind::BelowReference => Some(at(self.r - 1) - self.cylinder()? as f64),
            _ => self.sample_error(),
        }
    }

    fn sample_error(&self) -> Option<f64> {
        let v = rules::signal_from_raw(self.raw, 0, self.s);
        let exact_v = self.raw as f64 * self.s as f64 / 1e6;
        let (k, r) = (self.sheet.k, self.r);
        let (signal, exact_signal) = if self.against() {
            self.cylinder()?;
            let share = exact_v * r as f64 / k as f64;
            (rules::signal_against(v, r, k), r as f64 + exact_v - share)
        } else {
            (v, exact_v)
        };
        if self.kind.below_zero() && exact_signal >= 0.0 {
            return None;
        }
        let wet = rules::absolute_reading(&self.sheet, &self.air, signal).ok()?;
        let exact_wet = roughly(&self.sheet, &self.air, exact_signal);
        if !self.kind.dry() {
            return Some(wet as f64 - exact_wet);
        }
        let dry = rules::dry_value(wet, &self.air) as f64;
        Some(dry - exact_wet * self.air.p as f64 / (self.air.p - self.air.e) as f64)
    }

    fn size(&self) -> f64 {
        let error = self.error().unwrap_or(f64::MIN);
        // A bracket is broken on one side only; a reading may err to both.
        if self.bracket() || error == f64::MIN {
            error
        } else {
            error.abs()
        }
    }

    fn clamped(mut self) -> Try {
        let Sheet { a1, a2, a3, t0, k } = self.sheet;
        self.sheet = Sheet {
            a1: a1.clamp(1, 1_000_000_000),
            a2: a2.clamp(0, 100_000_000),
            a3: a3.clamp(0, 10_000_000),
            t0: t0.clamp(27_315, 32_315),
            k: k.clamp(10_000_000, 400_000_000),
        };
        let Air { p, t, e } = self.air;
        let p = p.clamp(60_000, 115_000);
        self.air = Air { p, t: t.clamp(27_315, 32_315), e: e.clamp(0, p / 10) };
        self.er = self.er.clamp(0, p / 10);
        self.s = self.s.clamp(rules::SPAN_LOWEST, rules::SPAN_HIGHEST);
        self.raw = self.raw.clamp(-rules::SIGNAL_LIMIT, rules::SIGNAL_LIMIT);
        self.r = self.r.clamp(0, rules::SIGNAL_LIMIT);
        if self.bracket() {
            // The sample only has to be accepted: the reference gas itself, unspanned.
            (self.s, self.raw, self.air.e) = (SPAN_UNIT, 0, self.er);
        }
        self
    }

    /// A signal just below the top of the range, where the curve is steepest, or any one of
    /// the line.
    fn steepest(&self, random: &mut Random) -> i64 {
        if self.kind.below_zero() {
            return random.between(rules::LOWEST_SIGNAL, -1);
        }
        let over = |v: i64| rules::absolute_reading(&self.sheet, &self.air, v).is_err();
        let top = rules::first_from(0, rules::SIGNAL_LIMIT + 1, over).unwrap_or(1) - 1;
        top - step(random, 14).abs()
    }

    /// Moves the sample, or R where R is what counts, to a signal where errors are large.
    fn to_the_steepest(mut self, random: &mut Random) -> Try {
        let target = self.steepest(random);
        if self.bracket() {
            self.r = target;
        } else {
            let own = if self.against() { target - self.r } else { target };
            let gain = self.sheet.k - if self.against() { self.r } else { 0 };
            let v = i128::from(own) * i128::from(self.sheet.k) / i128::from(gain.max(1));
            self.raw = (v * i128::from(SPAN_UNIT) / i128::from(self.s)) as i64;
        }
        self.clamped()
    }

    /// The same try with one input changed a little or by much.
    fn neighbour(mut self, random: &mut Random) -> Try {
        match random.below(12) {
            0 => self.sheet.a1 += step(random, 28),
            1 => self.sheet.a2 += step(random, 24),
            2 => self.sheet.a3 += step(random, 20),
            3 => self.sheet.t0 += step(random, 4),
            4 => self.sheet.k += step(random, 26),
            5 => self.air.p += step(random, 8),
            6 => self.air.t += step(random, 4),
            7 => self.air.e += step(random, 12),
            8 => self.er += step(random, 12),
            9 => {
                let beside = self.s + step(random, 16);
                self.s = random.pick(&[500_000, 1_000_000, 1_500_000, beside]);
            }
            10 => self.r += step(random, 20),
            _ => self.raw += step(random, 16),
        }
        self.clamped()
    }

    /// The whole session of this try, with a span event if its S asks for one.
    fn reading(&self) -> Option<Reading> {
        let reference = if self.against() { Some((self.cylinder()?, self.er)) } else { None };
        let span = if self.s == SPAN_UNIT { None } else { Some(span_event(self)?) };
        Some(Reading {
            kind: self.kind,
            sheet: self.sheet,
            q: 0,
            s: self.s,
            span,
            reference,
            raw: self.raw,
            air: self.air,
        })
    }
}

/// A step to either side, small ones as likely as large ones.
fn step(random: &mut Random, bits: u64) -> i64 {
    let size = (random.bits() >> 1) >> (63 - random.below(bits + 1));
    if random.percent(50) {
        size as i64
    } else {
        -(size as i64)
    }
}

/// A span event that sets S: a raw signal whose reading moves with every setting.
fn span_event(tried: &Try) -> Option<Event> {
    let Air { p, t, e } = tried.air;
    for part in 1..=20 {
        let raw = 120_000_000 / part;
        let v = rules::signal_from_raw(raw, 0, tried.s);
        let Ok(cylinder) = rules::absolute_reading(&tried.sheet, &tried.air, v) else {
            continue;
        };
        let set = rules::span_setting(&tried.sheet, raw, 0, cylinder.max(1), &tried.air);
        if set == Ok(tried.s) {
            return Some(Event::Span {
                raw: raw as i32,
                cylinder: cylinder as u32,
                p: p as u32,
                t: t as u32,
                e: e as u32,
            });
        }
    }
    None
}

/// A start with a steep sheet: all three coefficients at their highest.
fn steep(random: &mut Random) -> Sheet {
    Sheet {
        a1: 1_000_000_000 - step(random, 24).abs(),
        a2: 100_000_000 - step(random, 20).abs(),
        a3: 10_000_000 - step(random, 16).abs(),
        t0: 27_315,
        k: random.between(20_000_000, 60_000_000),
    }
}

/// A start with a cubic sheet that reaches the top of the range at z = 10^8, where the
/// rounding of each coefficient weighs most.
fn cubic(random: &mut Random, air: &Air) -> Sheet {
    let t0 = 27_315;
    let at_the_top = WET_LIMIT as f64 * t0 as f64 / air.t as f64;
    let chi = air.broadened() as f64 / (100.0 * air.p as f64);
    Sheet {
        a1: 1 + step(random, 16).abs(),
        a2: step(random, 16).abs(),
        a3: (at_the_top / chi / 1_000.0) as i64 - step(random, 10).abs(),
        t0,
        k: random.between(100_000_000, 400_000_000),
    }
}

fn start(random: &mut Random, kind: Kind) -> Try {
    let p = 60_000 + step(random, 8).abs();
    let some = random.between(0, p / 10);
    let e = random.pick(&[0, p / 10, some]);
    let air = Air { p, t: 32_315, e };
    let sheet = if random.percent(50) { steep(random) } else { cubic(random, &air) };
    let some = random.between(rules::SPAN_LOWEST, rules::SPAN_HIGHEST);
    let s = random.pick(&[500_000, 1_500_000, some]);
    let r = step(random, 22).abs();
    Try { kind, sheet, s, raw: 0, r, er: e, air }.clamped().to_the_steepest(random)
}

/// Climbs from one start until many changes in a row bring nothing.
fn climb_once(random: &mut Random, kind: Kind) -> Try {
    let mut best = start(random, kind);
    let mut size = best.size();
    let mut idle = 0;
    while idle < 6_000 {
        let mut next = best.neighbour(random);
        if random.percent(40) {
            next = next.neighbour(random);
        }
        if random.percent(30) {
            next = next.to_the_steepest(random);
        }
        let next_size = next.size();
        idle += 1;
        if next_size > size {
            (best, size, idle) = (next, next_size, 0);
        }
    }
    best
}

/// The reading with the largest error of a kind that was found within the time.
pub fn climb(kind: Kind, seed: u64, time: Duration) -> Option<Reading> {
    let mut random = Random::new(seed);
    let began = Instant::now();
    let mut best: Option<(f64, Reading)> = None;
    while began.elapsed() < time {
        let found = climb_once(&mut random, kind);
        let size = found.size();
        if best.is_some_and(|(largest, _)| largest >= size) {
            continue;
        }
        // Only a session that the engine accepts in every event counts.
        if let Some(reading) = found.reading().filter(|reading| reading.replay().is_ok()) {
            best = Some((size, reading));
        }
    }
    best.map(|(_, reading)| reading)
}

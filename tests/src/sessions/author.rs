//! The author of a session. It runs the engine along as it writes, so that it can
//! aim: signals that are accepted, cylinders that have a reference signal, raw
//! signals for which a span is found.

use crate::engine::{self, Event, Integration, Mode, State, SAMPLE};
use crate::file::{EventRecord, Session, SHEETS_LIMIT};
use crate::hostile;
use crate::random::Random;
use crate::rules::{self, Air, Sheet};

use super::damage;
use super::numbers;
use super::Profile;

pub struct Author<'a> {
    random: &'a mut Random,
    profile: &'a Profile,
    session: Session,
    state: State,
    rooms: Vec<Air>,
}

impl<'a> Author<'a> {
    pub fn new(random: &'a mut Random, profile: &'a Profile) -> Author<'a> {
        let mut rooms = vec![room(random, profile)];
        for _ in 1..random.between(1, 3) {
            let other = if random.percent(profile.twin) {
                numbers::twin_room(random, &rooms[0])
            } else {
                room(random, profile)
            };
            rooms.push(other);
        }
        let session = Session::default();
        Author { random, profile, session, state: State::fresh(), rooms }
    }

    /// Writes the sheets and so many events.
    pub fn write(mut self, length: usize) -> Session {
        self.write_sheets();
        while self.session.events.len() < length {
            let kind = if self.random.percent(self.profile.stray) {
                self.random.between(1, hostile::KINDS.len() as i64) as u8
            } else {
                self.next_of_a_lesson()
            };
            self.write_kind(kind);
            if self.random.percent(self.profile.twin) && self.session.events.len() < length {
                self.write_between();
            }
        }
        self.session
    }

    /// Against a reference, an event that leaves what a search found: a zero, a reference that is
    /// refused, or a sample that is refused with 6.
    fn write_between(&mut self) {
        if self.state.mode == Mode::Absolute {
            return;
        }
        let (p, t, e) = fields(&self.air());
        let event = match self.random.below(5) {
            0 => self.zero(),
            1 => Event::Reference { cylinder: rules::WET_LIMIT as u32 + 1, e: 0 },
            _ => Event::Sample { raw: rules::SIGNAL_LIMIT as i32 + 1, p, t, e },
        };
        self.write_event(&event);
    }

    fn write_sheets(&mut self) {
        let count = match self.random.below(40) {
            0 => 0,
            1 | 2 => SHEETS_LIMIT as i64,
            3..=9 => self.random.between(5, SHEETS_LIMIT as i64 - 1),
            _ => self.random.between(1, 4),
        };
        for number in 0..count {
            // A first sheet that serves, more often than not: a list without one has
            // nothing but refusals.
            let bad =
                self.random.percent(self.profile.edge) && (number > 0 || self.random.percent(20));
            let sheet = if bad {
                numbers::bad_sheet(self.random)
            } else if self.round() {
                numbers::round_sheet(self.random)
            } else {
                numbers::good_sheet(self.random)
            };
            self.session.sheets.push(sheet);
        }
    }

    /// The kind that a lesson would have next: a sheet, some settings, then readings
    /// while an integration runs, and its area.
    fn next_of_a_lesson(&mut self) -> u8 {
        let dice = self.random.below(100);
        let settings =
            if self.state.mode == Mode::Absolute { [2, 3, 4, 3, 4, 1] } else { [2, 4, 5, 5, 4, 1] };
        let setting = self.random.pick(&settings);
        if self.state.sheet.is_none() {
            return if dice < 90 { 1 } else { setting };
        }
        match self.state.integration {
            Integration::Idle if dice < 45 => setting,
            Integration::Idle => self.random.pick(&[6, 7, 10]),
            Integration::Running { .. } if self.profile.shortest > 100 => long_running(dice),
            Integration::Running { .. } => running(dice, setting),
            Integration::Closed(_) if dice < 40 => 9,
            Integration::Closed(_) if dice < 70 => setting,
            Integration::Closed(_) => self.random.pick(&[6, 7, 10, 8]),
        }
    }

    fn write_kind(&mut self, kind: u8) {
        let event = self.event(kind);
        self.write_event(&event);
    }

    fn write_event(&mut self, event: &Event) {
        let mut record = EventRecord::of(event);
        if self.random.percent(self.profile.wild) {
            self.make_wild(&mut record);
        }
        if self.random.percent(self.profile.spoilt) {
            damage::spoil(self.random, &mut record);
        }
        let (_, next) = engine::step(&self.session.sheets, &self.state, &record.entry());
        self.state = next;
        self.session.events.push(record);
    }

    fn make_wild(&mut self, record: &mut EventRecord) {
        let number = numbers::wild(self.random);
        match (record.kind, self.random.below(5)) {
            (2 | 3 | 6, 0) => record.raw = number as i32,
            (1 | 3 | 4, 1) => record.c = number,
            (3 | 6, 2) => record.p = number,
            (3 | 6, 3) => record.t = number,
            (3 | 4 | 6, 4) => record.e = number,
            _ => {}
        }
    }

    fn event(&mut self, kind: u8) -> Event {
        match kind {
            1 => self.load(),
            2 => self.zero(),
            3 => self.span(),
            4 => self.reference(),
            5 => Event::Absolute,
            6 => self.sample(),
            7 => Event::Start,
            8 => Event::Stop,
            9 => Event::Area,
            _ => Event::StartShort,
        }
    }

    fn edge(&mut self) -> bool {
        self.random.percent(self.profile.edge)
    }

    fn round(&mut self) -> bool {
        self.random.percent(self.profile.round)
    }

    fn load(&mut self) -> Event {
        let count = self.session.sheets.len() as u32;
        let beside = [count, count.wrapping_add(1), u32::MAX, count.wrapping_sub(1)];
        let index = if self.random.percent(self.profile.edge / 4) {
            self.random.pick(&beside)
        } else {
            self.random.below(u64::from(count)) as u32
        };
        Event::Load { index }
    }

    fn zero(&mut self) -> Event {
        let limit = rules::ZERO_LIMIT;
        let raw = if self.edge() {
            self.random.pick(&[limit, limit + 1, -limit, -limit - 1, 0])
        } else {
            let reach = self.random.pick(&[200_000, 200_000, 3_000_000, limit]);
            self.random.between(-reach, reach)
        };
        Event::Zero { raw: raw as i32 }
    }

    fn air(&mut self) -> Air {
        let room = self.random.below(self.rooms.len() as u64) as usize;
        let room = self.rooms[room];
        if self.edge() {
            numbers::edge_air(self.random, &room)
        } else {
            room
        }
    }

    /// A signal that this sheet reads in this air, or one at the ends of that range.
    fn target(&mut self, sheet: &Sheet, air: &Air) -> i64 {
        let top = numbers::top_signal(sheet, air);
        if self.edge() {
            return self.random.pick(&[0, 1, -1, top, top, top + 1, top - 1, top + 1_000]);
        }
        match self.random.below(4) {
            0 => self.random.between(0, top / 100),
            1 => top - self.random.between(0, top / 10),
            _ => self.random.between(0, top * 9 / 10),
        }
    }

    /// A signal over range: above 150,000,000 where raw, zero and span come there, or just
    /// above what this sheet reads, by whichever ground it meets first.
    fn over_range(&mut self, sheet: &Sheet, air: &Air) -> i64 {
        let beyond = self.random.pick(&[1, 1, 2, 1_000]);
        let above = rules::SIGNAL_LIMIT + beyond;
        let raw = raw_of(&self.state, sheet, air, above);
        let within_reach = raw.is_some_and(rules::raw_within_limits);
        if within_reach && self.random.percent(90) {
            above
        } else {
            numbers::top_signal(sheet, air) + beyond
        }
    }

    /// A signal around zero or below it, now and then too far, and how far beside its raw signal
    /// to go: next to zero the exact signal and the rounded one can stand on either side of it.
    fn around_zero(&mut self) -> (i64, i64) {
        let lowest = rules::LOWEST_SIGNAL;
        if self.edge() {
            let far = lowest * self.random.between(2, 40);
            return (self.random.pick(&[lowest, lowest, lowest - 1, lowest + 1, far]), 0);
        }
        match self.random.below(4) {
            0 => (self.random.between(lowest, -1), 0),
            1 => (self.random.between(-2_000, 2_000), 0),
            _ => (self.random.between(-2, 1), self.random.between(-1, 1)),
        }
    }

    /// Holds a raw signal within its limits, or lets it go one beyond.
    fn held(&mut self, raw: i64) -> i64 {
        let beyond = i64::from(self.edge());
        let limit = rules::SIGNAL_LIMIT + beyond;
        raw.clamp(-limit, limit)
    }

    fn any_raw(&mut self) -> i64 {
        let limit = rules::SIGNAL_LIMIT;
        self.random.between(-limit, limit) >> self.random.below(8)
    }

    fn sample(&mut self) -> Event {
        let last = self.session.events.iter().rfind(|record| record.kind == SAMPLE);
        if let Some(last) = last.and_then(EventRecord::event_of_kind) {
            if self.random.percent(self.profile.steady) {
                return last;
            }
        }
        let air = self.air();
        let raw = match self.state.sheet {
            Some(sheet) if air.within_limits() => self.aimed_raw(&sheet, &air),
            _ => self.any_raw(),
        };
        let (p, t, e) = fields(&air);
        Event::Sample { raw: raw as i32, p, t, e }
    }

    /// A raw signal that is read at the signal aimed at, as far as raw goes.
    fn aimed_raw(&mut self, sheet: &Sheet, air: &Air) -> i64 {
        let (target, beside) = if self.random.percent(self.profile.over) {
            (self.over_range(sheet, air), 0)
        } else if self.random.percent(self.profile.below) {
            self.around_zero()
        } else {
            (self.target(sheet, air), 0)
        };
        // A raw signal aimed at a whole signal against a round reference leaves no half.
        let beside = if self.round() { self.random.between(-2, 2) } else { beside };
        match raw_of(&self.state, sheet, air, target) {
            Some(raw) => self.held(raw + beside),
            None => self.any_raw(),
        }
    }

    fn span(&mut self) -> Event {
        let air = self.air();
        let limit = rules::WET_LIMIT;
        let (mut raw, mut cylinder) = (self.any_raw(), self.random.between(1, limit));
        if let Some(sheet) = self.state.sheet.filter(|_| air.within_limits()) {
            let v = self.target(&sheet, &air).max(1);
            let s = self.span_aimed_at();
            raw = self.held(self.state.q + v * rules::SPAN_UNIT / s);
            let signal = rules::signal_from_raw(raw, self.state.q, s);
            cylinder = rules::absolute_reading(&sheet, &air, signal).unwrap_or(limit).max(1);
        }
        if self.edge() {
            cylinder = self.random.pick(&[0, 1, limit, limit + 1, cylinder + 1]);
        }
        let (p, t, e) = fields(&air);
        Event::Span { raw: raw as i32, cylinder: cylinder as u32, p, t, e }
    }

    fn span_aimed_at(&mut self) -> i64 {
        if self.edge() {
            self.random.pick(&[rules::SPAN_LOWEST, rules::SPAN_HIGHEST])
        } else if self.random.percent(self.profile.below) {
            rules::SPAN_LOWEST
        } else if self.round() {
            self.random.pick(&[750_000, 1_250_000, 1_500_000])
        } else {
            self.random.between(rules::SPAN_LOWEST, rules::SPAN_HIGHEST)
        }
    }

    fn reference(&mut self) -> Event {
        let air = self.air();
        let limit = rules::WET_LIMIT;
        let vapour_limit = rules::REFERENCE_VAPOUR_LIMIT;
        let lowest_p = self.rooms.iter().map(|room| room.p).min().unwrap_or(60_000);
        let mut e = self.random.pick(&[0, 0, 1]) * self.random.between(0, lowest_p / 10);
        let mut cylinder = self.random.between(0, limit);
        if let Some(sheet) = self.state.sheet.filter(|_| air.within_limits()) {
            let v = if self.random.percent(self.profile.below) {
                self.random.between(0, 20)
            } else if self.round() {
                sheet.k / self.random.pick(&[2, 4, 8])
            } else {
                self.target(&sheet, &air.with_vapour(e))
            };
            let reading = rules::absolute_reading(&sheet, &air.with_vapour(e), v);
            cylinder = reading.unwrap_or(limit).max(0);
        }
        if self.edge() {
            e = self.random.pick(&[vapour_limit, vapour_limit + 1, air.p / 10, air.p / 10 + 1]);
        }
        if self.edge() {
            cylinder = self.random.pick(&[0, 1, limit, limit + 1, cylinder + 1]);
        }
        Event::Reference { cylinder: cylinder as u32, e: e as u32 }
    }
}

/// The raw signal that is read at this signal or nearly so, in the mode that stands; nothing if
/// there is no reference signal.
pub(super) fn raw_of(state: &State, sheet: &Sheet, air: &Air, target: i64) -> Option<i64> {
    let v = match state.mode {
        Mode::Absolute => target,
        Mode::Reference { cylinder, e } => {
            let r = rules::reference_signal(sheet, cylinder, &air.with_vapour(e)).ok()?;
            let (above_r, k) = (i128::from(target - r), i128::from(sheet.k));
            let v = rules::near(above_r * k, k - i128::from(r));
            v.clamp(-1_000_000_000, 1_000_000_000) as i64
        }
    };
    let unit = i128::from(rules::SPAN_UNIT);
    Some(rules::near(i128::from(v) * unit, i128::from(state.s)) as i64 + state.q)
}

pub(super) fn fields(air: &Air) -> (u32, u32, u32) {
    (air.p as u32, air.t as u32, air.e as u32)
}

fn room(random: &mut Random, profile: &Profile) -> Air {
    if random.percent(profile.round) {
        numbers::round_room(random)
    } else {
        numbers::room(random)
    }
}

fn running(dice: u64, setting: u8) -> u8 {
    match dice {
        0..=79 => 6,
        80..=89 => 9,
        90..=94 => 8,
        95 => 10,
        96 => 7,
        _ => setting,
    }
}

/// An integration that is left alone for long, read now and then.
fn long_running(dice: u64) -> u8 {
    match dice {
        0..=97 => 6,
        _ => 9,
    }
}

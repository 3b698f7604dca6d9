//! What goes into the engine and what comes out of it: the sheets, the ten kinds of
//! event, and the answer.

use crate::rules::Sheet;

const LOAD: u8 = 1;
const ZERO: u8 = 2;
const SPAN: u8 = 3;
const REFERENCE: u8 = 4;
const ABSOLUTE: u8 = 5;
pub const SAMPLE: u8 = 6;
const START: u8 = 7;
const STOP: u8 = 8;
const AREA: u8 = 9;
const START_SHORT: u8 = 10;

/// One of ten kinds, each with its own fields, as wide as the file has them. A short start
/// begins an integration that closes sooner.
#[derive(Clone, Copy, Debug, PartialEq, Eq)]
pub enum Event {
    Load { index: u32 },
    Zero { raw: i32 },
    Span { raw: i32, cylinder: u32, p: u32, t: u32, e: u32 },
    Reference { cylinder: u32, e: u32 },
    Absolute,
    Sample { raw: i32, p: u32, t: u32, e: u32 },
    Start,
    Stop,
    Area,
    StartShort,
}

impl Event {
    pub fn kind(&self) -> u8 {
        match self {
            Event::Load { .. } => LOAD,
            Event::Zero { .. } => ZERO,
            Event::Span { .. } => SPAN,
            Event::Reference { .. } => REFERENCE,
            Event::Absolute => ABSOLUTE,
            Event::Sample { .. } => SAMPLE,
            Event::Start => START,
            Event::Stop => STOP,
            Event::Area => AREA,
            Event::StartShort => START_SHORT,
        }
    }
}

/// An element of the list: an event, or 24 bytes that are none, with their kind byte.
#[derive(Clone, Copy, Debug, PartialEq, Eq)]
pub enum Entry {
    Known(Event),
    Malformed(u8),
}

impl Entry {
    pub fn kind(&self) -> u8 {
        match self {
            Entry::Known(event) => event.kind(),
            Entry::Malformed(kind) => *kind,
        }
    }
}

/// A sheet as the file has it, with its last four bytes; not yet an accepted one.
#[derive(Clone, Copy, Debug, PartialEq, Eq)]
pub struct SheetRecord {
    pub a1: i32,
    pub a2: i32,
    pub a3: i32,
    pub t0: u32,
    pub k: u32,
    pub rest: u32,
}

impl SheetRecord {
    /// The accepted sheet, or none if a number or the zero bytes are not as they must be.
    pub fn accepted(&self) -> Option<Sheet> {
        let sheet = Sheet {
            a1: i64::from(self.a1),
            a2: i64::from(self.a2),
            a3: i64::from(self.a3),
            t0: i64::from(self.t0),
            k: i64::from(self.k),
        };
        (self.rest == 0 && sheet.within_limits()).then_some(sheet)
    }
}

/// The answer to one event; `m`, `x` and `y` are zero in a refusal.
#[derive(Clone, Copy, Debug, PartialEq, Eq)]
pub struct Answer {
    pub kind: u8,
    pub refusal: u8,
    pub m: u32,
    pub x: i64,
    pub y: i64,
}

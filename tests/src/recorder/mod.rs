//! Document 02's R-8, chart recorder output: a wet value as a word for a channel, and what a
//! word holds. The byte for a channel's kind follows include/irga.h.

pub mod by_hand;

use std::ops::RangeInclusive;

use crate::rules::{near, Refusal};

/// Values and the ends of a scale, in pmol/mol.
pub const VALUES: RangeInclusive<i64> = -4_000_000_000..=4_000_000_000;
pub const CHANNELS: RangeInclusive<u32> = 0..=15;
/// As many as twelve bits have.
const CODES: i64 = 4_096;

/// What a channel drives its pen with.
#[derive(Clone, Copy, Debug, PartialEq, Eq)]
pub enum Kind {
    Voltage,
    Current,
}

impl Kind {
    pub fn of(byte: u8) -> Option<Kind> {
        match byte {
            0 => Some(Kind::Voltage),
            1 => Some(Kind::Current),
            _ => None,
        }
    }

    /// How many steps the two ends of a scale are apart.
    pub fn steps(self) -> i64 {
        match self {
            Kind::Voltage => 2_048,
            Kind::Current => 4_096,
        }
    }

    pub fn codes(self) -> RangeInclusive<i64> {
        match self {
            Kind::Voltage => -2_048..=2_047,
            Kind::Current => 0..=4_095,
        }
    }
}

/// A value X to be drawn, the ends X0 and XF of its scale, and the number of its channel.
#[derive(Clone, Copy, Debug, PartialEq, Eq)]
pub struct Drawn {
    pub x: i64,
    pub x0: i64,
    pub xf: i64,
    pub channel: u32,
}

impl Drawn {
    pub fn within_limits(&self) -> bool {
        [self.x, self.x0, self.xf].iter().all(|value| VALUES.contains(value))
            && self.xf > self.x0
            && CHANNELS.contains(&self.channel)
    }

    /// The exact ratio: so many steps from X0, as a numerator and a denominator above 0.
    pub fn exact(&self, kind: Kind) -> (i128, i128) {
        let [x, x0, xf] = [self.x, self.x0, self.xf].map(i128::from);
        (i128::from(kind.steps()) * (x - x0), xf - x0)
    }

    pub fn rounded(&self, kind: Kind) -> i128 {
        let (upper, lower) = self.exact(kind);
        near(upper, lower)
    }

    /// The rounded ratio, held within the channel's codes.
    pub fn code(&self, kind: Kind) -> i64 {
        let codes = kind.codes();
        let (lowest, highest) = (i128::from(*codes.start()), i128::from(*codes.end()));
        self.rounded(kind).clamp(lowest, highest) as i64
    }
}

/// The channel's number in the top four bits of sixteen, and the code in the others: in two's
/// complement a code below 0 has the bits of the one that is 4,096 higher.
pub fn word(code: i64, channel: u32) -> u16 {
    let bits = if code < 0 { code + CODES } else { code };
    (i64::from(channel) * CODES + bits) as u16
}

pub fn pack(kind: u8, drawn: &Drawn) -> Result<u16, Refusal> {
    match Kind::of(kind) {
        Some(kind) if drawn.within_limits() => Ok(word(drawn.code(kind), drawn.channel)),
        _ => Err(Refusal::RecorderLimits),
    }
}

/// Code and channel number of a word.
pub fn unpack(kind: u8, word: u16) -> Result<(i16, u8), Refusal> {
    let kind = Kind::of(kind).ok_or(Refusal::RecorderLimits)?;
    let (channel, bits) = (i64::from(word) / CODES, i64::from(word) % CODES);
    let code = if kind.codes().contains(&bits) { bits } else { bits - CODES };
    Ok((code as i16, channel as u8))
}

/// A recorder as C calls it: a status, and what becomes of the places that it is lent.
pub trait Recorder {
    fn pack(&self, kind: u8, drawn: &Drawn, word: &mut u16) -> u8;
    fn unpack(&self, kind: u8, word: u16, code: &mut i16, channel: &mut u8) -> u8;
}

/// This implementation.
pub struct Paper;

impl Recorder for Paper {
    fn pack(&self, kind: u8, drawn: &Drawn, place: &mut u16) -> u8 {
        let packed = pack(kind, drawn);
        *place = packed.unwrap_or(0);
        packed.err().map_or(0, Refusal::number)
    }

    fn unpack(&self, kind: u8, word: u16, code: &mut i16, channel: &mut u8) -> u8 {
        match unpack(kind, word) {
            Ok(held) => {
                (*code, *channel) = held;
                0
            }
            Err(refusal) => refusal.number(),
        }
    }
}

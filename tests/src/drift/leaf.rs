//! The readings of the long lesson: a leaf in a chamber under a lamp that goes on and off.

use crate::random::Random;

/// Ten minutes of light, ten of dark, at five readings a second.
const HALF_CYCLE: u32 = 3_000;
pub const CYCLE: u32 = 2 * HALF_CYCLE;

/// The raw signal that the chamber settles at: 329 µmol/mol in the light, where the leaf
/// takes CO2 up, and 353 in the dark.
const LIGHT: i64 = 18_000_000;
const DARK: i64 = 19_000_000;

/// The chamber goes a 512th of the way in 0.2 s, which is a time constant of 102 s.
const INERTIA: i64 = 512;

/// The level is kept in 4,096ths of a unit, so that a slow change is not lost.
const FINE: i64 = 4_096;

/// The converter's noise is the sum of four draws: ±4,000 units at the most, 0.2 µmol/mol
/// from peak to peak, which is source document 000's figure.
const DRAWS: usize = 4;
const DRAW: i64 = 1_000;

/// Raw signals without end, always the same ones.
pub struct Leaf {
    random: Random,
    readings: u32,
    level: i64,
}

impl Leaf {
    pub fn new() -> Leaf {
        Leaf { random: Random::new(6_251), readings: 0, level: DARK * FINE }
    }
}

impl Iterator for Leaf {
    type Item = i32;

    fn next(&mut self) -> Option<i32> {
        let light = self.readings % CYCLE < HALF_CYCLE;
        let target = if light { LIGHT } else { DARK } * FINE;
        self.level += (target - self.level) / INERTIA;
        self.readings += 1;
        let noise: i64 = (0..DRAWS).map(|_| self.random.between(-DRAW, DRAW)).sum();
        Some((self.level / FINE + noise) as i32)
    }
}

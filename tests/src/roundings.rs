//! A sample with each of its roundings by a rule that is handed in: to count what a rounding meets,
//! and to spoil one of them.

use crate::engine::{Answer, Mode, State};
use crate::rules::{Air, P0, SPAN_UNIT};

/// What a sample rounds, in document 01's order: V, its share in R, the six steps, the dry value.
#[derive(Clone, Copy, Debug, PartialEq, Eq, PartialOrd, Ord)]
pub enum Rounding {
    V,
    Share,
    Z,
    H2,
    H1,
    F,
    G,
    Wet,
    Dry,
}

use Rounding::{Dry, Share, Wet, F, G, H1, H2, V, Z};

pub const ROUNDINGS: [Rounding; 9] = [V, Share, Z, H2, H1, F, G, Wet, Dry];

impl Rounding {
    /// Below zero the line stands for the curve, and h2 and h1 have no part in it.
    pub fn below_zero_too(self) -> bool {
        ![H2, H1].contains(&self)
    }
}

/// Wet and dry value of a sample that was accepted with this answer from this state, a / b being
/// rounded by `rule`.
pub fn values(
    state: &State,
    raw: i64,
    air: &Air,
    answer: &Answer,
    mut rule: impl FnMut(Rounding, i128, i128) -> i128,
) -> [i64; 2] {
    let sheet = state.sheet.expect("a loaded sheet");
    let (d, ten_to_7) = (air.broadened(), 10_000_000);
    let mut round = |which: Rounding, x: i64, y: i64, b: i64| {
        rule(which, i128::from(x) * i128::from(y), i128::from(b)) as i64
    };
    let v = round(V, raw - state.q, state.s, SPAN_UNIT);
    let signal = match state.mode {
        Mode::Absolute => v,
        Mode::Reference { .. } => {
            let r = i64::from(answer.m);
            r + v - round(Share, v, r, sheet.k)
        }
    };
    let z = round(Z, 100 * P0, signal, d);
    let slope = if signal < 0 {
        sheet.a1
    } else {
        let h2 = sheet.a2 + round(H2, sheet.a3, z, ten_to_7);
        sheet.a1 + round(H1, h2, z, ten_to_7)
    };
    let f = round(F, z, slope, ten_to_7);
    let g = round(G, f, d, 100 * air.p);
    let wet = round(Wet, g, air.t, sheet.t0);
    [wet, round(Dry, wet, air.p, air.p - air.e)]
}

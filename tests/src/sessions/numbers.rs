//! Sheets, rooms and single numbers: usual ones, limits and one beside them, and
//! whatever a field can hold.

use crate::bench;
use crate::engine::SheetRecord;
use crate::random::Random;
use crate::rules::{self, Air, Refusal, Sheet};

/// A sheet as makers give them.
fn usual_sheet(random: &mut Random) -> SheetRecord {
    SheetRecord {
        a1: random.between(60_000_000, 300_000_000) as i32,
        a2: random.between(1_000_000, 40_000_000) as i32,
        a3: random.between(0, 6_000_000) as i32,
        t0: random.between(29_315, 31_815) as u32,
        k: random.between(120_000_000, 300_000_000) as u32,
        rest: 0,
    }
}

/// A sheet within its limits with each number at an end or anywhere between.
fn far_sheet(random: &mut Random) -> SheetRecord {
    let mut number = |low: i64, high: i64| match random.below(3) {
        0 => low,
        1 => high,
        _ => random.between(low, high),
    };
    SheetRecord {
        a1: number(1, 1_000_000_000) as i32,
        a2: number(0, 100_000_000) as i32,
        a3: number(0, 10_000_000) as i32,
        t0: number(27_315, 32_315) as u32,
        k: number(10_000_000, 400_000_000) as u32,
        rest: 0,
    }
}

/// A sheet whose K is met before any other end of its range.
fn narrow_sheet(random: &mut Random) -> SheetRecord {
    SheetRecord { k: random.between(10_000_000, 20_000_000) as u32, ..usual_sheet(random) }
}

/// A sheet so flat that z comes to 10^8 before any other end of its range is met.
fn flat_sheet(random: &mut Random) -> SheetRecord {
    SheetRecord {
        a1: random.between(1, 100_000_000) as i32,
        a2: random.between(0, 5_000_000) as i32,
        a3: random.between(0, 500_000) as i32,
        k: random.between(130_000_000, 400_000_000) as u32,
        ..usual_sheet(random)
    }
}

pub fn good_sheet(random: &mut Random) -> SheetRecord {
    match random.below(10) {
        0 => bench::sheet(),
        1 => bench::table_sheet(),
        2 => usual_sheet(random),
        3 | 4 => far_sheet(random),
        5 | 6 => narrow_sheet(random),
        _ => flat_sheet(random),
    }
}

/// A sheet with round numbers: products with them leave a half of 10^7, of T0 or of K.
pub fn round_sheet(random: &mut Random) -> SheetRecord {
    SheetRecord {
        a1: 5_000_000 * random.between(1, 40) as i32,
        a2: random.pick(&[0, 0, 5_000_000, 15_000_000]),
        a3: random.pick(&[0, 0, 500_000, 2_500_000]),
        t0: random.pick(&[28_000, 30_000, 32_000]),
        k: random.pick(&[120_000_000, 160_000_000, 200_000_000]),
        rest: 0,
    }
}

/// A good sheet with one number just outside its limits, or with a byte too many.
pub fn bad_sheet(random: &mut Random) -> SheetRecord {
    let good = good_sheet(random);
    match random.below(7) {
        0 => SheetRecord { a1: random.pick(&[0, -1, 1_000_000_001, i32::MIN]), ..good },
        1 => SheetRecord { a2: random.pick(&[-1, 100_000_001, i32::MAX]), ..good },
        2 => SheetRecord { a3: random.pick(&[-1, 10_000_001, i32::MIN]), ..good },
        3 => SheetRecord { t0: random.pick(&[27_314, 32_316, 0, u32::MAX]), ..good },
        4 => SheetRecord { k: random.pick(&[9_999_999, 400_000_001, 0, u32::MAX]), ..good },
        _ => SheetRecord { rest: 1 << random.below(32), ..good },
    }
}

/// The air of a room within its limits.
pub fn room(random: &mut Random) -> Air {
    let usual = random.percent(50);
    let p = if usual { random.between(93_000, 104_000) } else { random.between(60_000, 115_000) };
    let t = if usual { random.between(28_815, 31_315) } else { random.between(27_315, 32_315) };
    let e = if random.percent(30) { 0 } else { random.between(0, p / 10) };
    Air { p, t, e }
}

/// A room that differs from another in its pressure, its temperature or its damp, within the limits;
/// where its damp would be too much for its pressure, in both.
pub fn twin_room(random: &mut Random, room: &Air) -> Air {
    let steps = [-2_000, -200, -20, -1, 1, 20, 200, 2_000];
    let step = random.pick(&steps);
    match random.below(5) {
        0 | 1 => {
            let p = (room.p + step).clamp(60_000, 115_000);
            Air { p, e: room.e.min(p / 10), ..*room }
        }
        2 | 3 => Air { t: (room.t + step).clamp(27_315, 32_315), ..*room },
        _ => Air { e: random.between(0, room.p / 10), ..*room },
    }
}

/// Air with round numbers. In the first three, 10,130,000 / D is 1, 5/4 and 25/16; in the fourth
/// D / (100 P) is 21/20, and in the last P / (P − e) is 11/10.
pub fn round_room(random: &mut Random) -> Air {
    let rooms = [(101_300, 0), (81_040, 0), (64_832, 0), (114_000, 10_000), (110_000, 10_000)];
    let (p, e) = random.pick(&rooms);
    Air { p, t: random.pick(&[28_000, 30_000, 31_500]), e }
}

/// The same air with one of its numbers at a limit or one beside it.
pub fn edge_air(random: &mut Random, air: &Air) -> Air {
    match random.below(4) {
        0 => {
            let p = random.pick(&[59_999, 60_000, 60_001, 114_999, 115_000, 115_001]);
            Air { p, e: air.e.min(p / 10), ..*air }
        }
        1 => Air { t: random.pick(&[27_314, 27_315, 27_316, 32_314, 32_315, 32_316]), ..*air },
        2 => Air { e: random.pick(&[0, 1, air.p / 10]), ..*air },
        _ => Air { e: air.p / 10 + random.between(0, 1), ..*air },
    }
}

/// Any number that a field of 32 bits can hold, large and small ones alike.
pub fn wild(random: &mut Random) -> u32 {
    let bits = random.bits() as u32;
    match random.below(4) {
        0 => bits,
        1 => bits >> random.below(32),
        2 => u32::MAX - (bits & 3),
        _ => (1u32 << 31).wrapping_add(bits & 3).wrapping_sub(1),
    }
}

/// The largest signal that is read at all with this sheet in this air.
pub fn top_signal(sheet: &Sheet, air: &Air) -> i64 {
    let over = |v: i64| rules::absolute_reading(sheet, air, v) == Err(Refusal::OverRange);
    let first_over = rules::first_from(0, rules::SIGNAL_LIMIT + 1, over);
    first_over.unwrap_or(0) - 1
}

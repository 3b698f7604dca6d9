//! What the papers themselves give to compare with: the bench sheet and air of
//! document 01, and the maker's calibration table of source document 000.

use crate::engine::{self, Entry, Event, SheetRecord, State};
use crate::rules::{self, Air, Sheet};

/// The sheet of document 01's readings on the bench.
pub fn sheet() -> SheetRecord {
    SheetRecord {
        a1: 150_000_000,
        a2: 5_000_000,
        a3: 5_000_000,
        t0: 29_815,
        k: 200_000_000,
        rest: 0,
    }
}

/// The air of document 01's readings on the bench.
pub const AIR: Air = Air { p: 101_300, t: 29_815, e: 0 };

/// The sheet of Table 3-1: a1 0.1420, a2 2.258E-05, a3 1.787E-09, K 19130 mV,
/// T0 40.2 °C.
pub const TABLE_SHEET: Sheet =
    Sheet { a1: 142_000_000, a2: 22_580_000, a3: 1_787_000, t0: 31_335, k: 191_300_000 };

/// The same sheet as a file has it.
pub fn table_sheet() -> SheetRecord {
    SheetRecord {
        a1: TABLE_SHEET.a1 as i32,
        a2: TABLE_SHEET.a2 as i32,
        a3: TABLE_SHEET.a3 as i32,
        t0: TABLE_SHEET.t0 as u32,
        k: TABLE_SHEET.k as u32,
        rest: 0,
    }
}

/// The table knows nothing of pressure and warmth: P is P0, T is T0, dry air.
pub const TABLE_AIR: Air = Air { p: 101_300, t: 31_335, e: 0 };

/// Table 3-1 of source document 000, down the left column and then the right:
/// signal in mV, mole fraction in tenths of a ppm.
#[rustfmt::skip]
pub const TABLE_3_1: [(i64, i64); 72] = [
    (1600, 2923), (1620, 2969), (1640, 3015), (1660, 3061), (1680, 3108), (1700, 3154),
    (1720, 3201), (1740, 3249), (1760, 3296), (1780, 3344), (1800, 3392), (1820, 3440),
    (1840, 3489), (1860, 3537), (1880, 3586), (1900, 3636), (1920, 3685), (1940, 3735),
    (1960, 3785), (1980, 3836), (2000, 3886), (2020, 3937), (2040, 3988), (2060, 4040),
    (2080, 4091), (2100, 4143), (2120, 4196), (2140, 4248), (2160, 4301), (2180, 4354),
    (2200, 4407), (2220, 4461), (2240, 4515), (2260, 4569), (2280, 4623), (2300, 4678),
    (2320, 4733), (2340, 4788), (2360, 4844), (2380, 4900), (2400, 4956), (2420, 5012),
    (2440, 5069), (2460, 5126), (2480, 5183), (2500, 5240), (2520, 5298), (2540, 5356),
    (2560, 5415), (2580, 5474), (2600, 5532), (2620, 5592), (2640, 5651), (2660, 5711),
    (2680, 5771), (2700, 5832), (2720, 5893), (2740, 5954), (2760, 6015), (2780, 6077),
    (2800, 6139), (2820, 6201), (2840, 6263), (2860, 6326), (2880, 6389), (2900, 6453),
    (2920, 6517), (2940, 6581), (2960, 6645), (2980, 6710), (3000, 6775), (3020, 6840),
];

/// Signal units (100 nV) in a millivolt, and pmol/mol in a tenth of a ppm.
pub const UNITS_PER_MV: i64 = 10_000;
pub const PMOL_PER_TENTH: i64 = 100_000;

fn outcome(reading: Result<i64, rules::Refusal>) -> String {
    match reading {
        Ok(wet) => wet.to_string(),
        Err(refusal) => format!("refusal {}", refusal.number()),
    }
}

/// The bench cases over range and outside a sheet's limits, as lines.
fn refused_cases() -> String {
    let bench = sheet();
    let over = bench.accepted().map(|sheet| rules::absolute_reading(&sheet, &AIR, 70_000_000));
    let over = over.map_or_else(|| "no sheet".to_string(), outcome);
    let load = Entry::Known(Event::Load { index: 0 });
    let without_a1 = SheetRecord { a1: 0, ..bench };
    let (answer, _) = engine::step(&[without_a1], &State::fresh(), &load);
    format!("V 70000000: {over}\nA1 0: refusal {}\n", answer.refusal)
}

/// The bench text: the refused cases, then the maker's table beside our readings.
pub fn table_text() -> String {
    let mut text = refused_cases();
    text.push_str("mV document ours difference\n");
    for (millivolts, tenths) in TABLE_3_1 {
        let document = tenths * PMOL_PER_TENTH;
        let reading = rules::absolute_reading(&TABLE_SHEET, &TABLE_AIR, millivolts * UNITS_PER_MV);
        match reading {
            Ok(ours) => {
                let difference = ours - document;
                text.push_str(&format!("{millivolts} {document} {ours} {difference}\n"));
            }
            refused => text.push_str(&format!("{millivolts} {document} {}\n", outcome(refused))),
        }
    }
    text
}

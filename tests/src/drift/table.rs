//! The drift as a table.

use super::{Drift, Point, READINGS_AN_HOUR, UNITS};
use crate::exact::Fraction;
use crate::figures::grouped;
use crate::ledger::area_allowed;

/// The lengths that the table shows: 20 minutes, then 1, 3, 6, 12 and 24 hours, and the
/// longest integration.
const LENGTHS: [u32; 7] = [6_000, 18_000, 54_000, 108_000, 216_000, 432_000, 600_000];

fn lesson(readings: u32) -> String {
    let minutes = readings / (READINGS_AN_HOUR / 60);
    match (minutes / 60, minutes % 60) {
        (0, minutes) => format!("{minutes} min"),
        (hours, 0) => format!("{hours} h"),
        (hours, minutes) => format!("{hours} h {minutes} min"),
    }
}

/// In µmol/mol s, cut after some decimals.
fn micro(area: &Fraction, digits: u32) -> String {
    grouped(&area.times(&Fraction::of(1, UNITS)).decimal(digits))
}

/// What is proved of an area of so many readings, in tenths of 1 µmol/mol s and rounded up: a
/// bound that is cut would say more than is proved.
fn allowed(readings: u32) -> String {
    let tenth = UNITS / 10;
    let tenths = (area_allowed(u64::from(readings)) + tenth - 1) / tenth;
    grouped(&format!("{}.{}", tenths / 10, tenths % 10))
}

fn row(point: &Point) -> String {
    let readings = point.readings;
    let cells = [
        grouped(&readings.to_string()),
        lesson(readings),
        micro(&point.exact, 1),
        micro(&point.shown, 1),
        micro(&point.unrounded, 1),
        micro(&point.engine, 4),
        allowed(readings),
    ];
    format!("| {} |\n", cells.join(" | "))
}

/// How far off the worst of all areas is, on each way, without its sign.
pub fn worst(drift: &Drift) -> [String; 3] {
    let [shown, unrounded, engine] = drift.worst_distances();
    let cells = [micro(shown, 1), micro(unrounded, 1), micro(engine, 4)];
    cells.map(|cell| cell.trim_start_matches('-').to_string())
}

/// The last row: of all areas, not only of those shown.
fn last_row(drift: &Drift) -> String {
    let (count, sizes) = (grouped(&drift.areas.to_string()), worst(drift).join(" | "));
    format!("| the worst of {count} areas, in size | | | {sizes} | |\n")
}

/// The table in Markdown; everything but the first two columns is in µmol/mol s.
pub fn text(drift: &Drift) -> String {
    let mut text = "| readings | lesson | exact area | old way, shown to 0.1: off by | \
                    old way, not rounded: off by | engine: off by | engine: proved to be within |\n"
        .to_string();
    text.push_str("|---:|---|---:|---:|---:|---:|---:|\n");
    let wanted = drift.points.iter().filter(|point| LENGTHS.contains(&point.readings));
    text.extend(wanted.map(row));
    text + &last_row(drift)
}

//! The drift as a picture: the distance from the exact area over the length of the lesson,
//! as lines through the areas after each cycle, with a dot at the worst of all areas.

use super::{table, Distance, Drift, Point, READINGS_AN_HOUR, UNITS, WAYS};
use crate::exact::Fraction;
use crate::figures::grouped;

const WIDTH: f64 = 760.0;
const HEIGHT: f64 = 430.0;

/// The frame within the picture: left, right, top, bottom.
const LEFT: f64 = 90.0;
const RIGHT: f64 = 740.0;
const TOP: f64 = 56.0;
const BOTTOM: f64 = 372.0;

/// Where an afternoon ends, in hours.
const AFTERNOON: f64 = 3.0;

/// One way to the area: what the legend calls it, how its line is drawn, its distance.
struct Line {
    name: &'static str,
    colour: &'static str,
    pen: &'static str,
    distance: Distance,
    /// Where the number of its worst area stands beside the dot.
    number: Place,
}

struct Place {
    anchor: &'static str,
    right: f64,
    down: f64,
}

const LINES: [Line; 3] = [
    Line {
        name: "old way, readings rounded to 0.1 µmol/mol",
        colour: "#c0392b",
        pen: "stroke-width=\"2\"",
        distance: WAYS[0],
        number: Place { anchor: "end", right: -7.0, down: 11.0 },
    },
    Line {
        name: "old way, readings not rounded",
        colour: "#d98e04",
        pen: "stroke-width=\"2\" stroke-dasharray=\"7 4\"",
        distance: WAYS[1],
        number: Place { anchor: "start", right: 9.0, down: 8.0 },
    },
    Line {
        name: "this engine",
        colour: "#1f5fa8",
        pen: "stroke-width=\"3\"",
        distance: WAYS[2],
        number: Place { anchor: "end", right: -7.0, down: -8.0 },
    },
];

/// In µmol/mol s, as a double to draw by.
fn micro(area: &Fraction) -> f64 {
    -area.error_of(0) / UNITS as f64
}

/// The step between two marks, 1, 2 or 5 times a power of ten, so that at most eight
/// steps cover a stretch.
fn step(stretch: f64) -> f64 {
    let mut unit = 1.0;
    loop {
        let fits = [1.0, 2.0, 5.0]
            .map(|times| times * unit)
            .into_iter()
            .find(|step| 8.0 * step >= stretch);
        match fits {
            Some(step) => return step,
            None => unit *= 10.0,
        }
    }
}

/// From hours and µmol/mol s to places in the picture.
struct Scale {
    hours: f64,
    low: f64,
    high: f64,
    step: f64,
}

impl Scale {
    /// The marks next beyond the lowest and the highest distance are the ends.
    fn new(drift: &Drift) -> Scale {
        let all = drift.points.iter().chain(&drift.worst);
        let all = all.flat_map(|point| LINES.map(|line| micro((line.distance)(point))));
        let (low, high) = all.fold((0.0f64, 0.0f64), |(low, high), distance| {
            (low.min(distance), high.max(distance))
        });
        let step = step(high - low);
        let hours = drift.points.last().map_or(1.0, hours_of);
        Scale { hours, low: (low / step).floor() * step, high: (high / step).ceil() * step, step }
    }

    fn x(&self, hours: f64) -> f64 {
        LEFT + (RIGHT - LEFT) * hours / self.hours
    }

    fn y(&self, distance: f64) -> f64 {
        BOTTOM - (BOTTOM - TOP) * (distance - self.low) / (self.high - self.low)
    }

    /// A light line across for each mark, with its number before it.
    fn marks_of_distance(&self) -> String {
        let count = ((self.high - self.low) / self.step).round() as i32;
        let mark = |i: i32| {
            let distance = self.low + f64::from(i) * self.step;
            let (y, number) = (self.y(distance), grouped(&format!("{distance:.0}")));
            let colour = if distance == 0.0 { "#888888" } else { "#dddddd" };
            format!(
                "<path d=\"M{LEFT} {y:.1}H{RIGHT}\" stroke=\"{colour}\"/>\n\
                 <text x=\"{:.1}\" y=\"{:.1}\" text-anchor=\"end\">{number}</text>\n",
                LEFT - 8.0,
                y + 4.0
            )
        };
        (0..=count).map(mark).collect()
    }

    fn marks_of_hours(&self) -> String {
        let mark = |hours: i32| {
            let x = self.x(f64::from(hours));
            format!(
                "<path d=\"M{x:.1} {BOTTOM}v5\" stroke=\"#888888\"/>\n\
                 <text x=\"{x:.1}\" y=\"{:.1}\" text-anchor=\"middle\">{hours}</text>\n",
                BOTTOM + 20.0
            )
        };
        (0..=self.hours as i32).step_by(3).map(mark).collect()
    }

    fn line(&self, line: &Line, points: &[Point]) -> String {
        let place = |point: &Point| {
            let distance = micro((line.distance)(point));
            format!(" {:.1},{:.1}", self.x(hours_of(point)), self.y(distance))
        };
        let start = format!("{:.1},{:.1}", self.x(0.0), self.y(0.0));
        let places: String = points.iter().map(place).collect();
        let (colour, pen) = (line.colour, line.pen);
        format!("<polyline points=\"{start}{places}\" fill=\"none\" stroke=\"{colour}\" {pen}/>\n")
    }

    /// A dot at the worst of all areas, and how far off it is.
    fn dot(&self, line: &Line, worst: &Point, size: &str) -> String {
        let (x, y) = (self.x(hours_of(worst)), self.y(micro((line.distance)(worst))));
        let (colour, Place { anchor, right, down }) = (line.colour, &line.number);
        format!(
            "<circle cx=\"{x:.1}\" cy=\"{y:.1}\" r=\"4\" fill=\"{colour}\"/>\n\
             <text x=\"{:.1}\" y=\"{:.1}\" text-anchor=\"{anchor}\" fill=\"{colour}\">\
             worst {size}</text>\n",
            x + right,
            y + down
        )
    }
}

fn hours_of(point: &Point) -> f64 {
    f64::from(point.readings) / f64::from(READINGS_AN_HOUR)
}

/// Three names in a row above the frame, each behind a piece of its line.
fn legend() -> String {
    let lefts = [LEFT, LEFT + 305.0, LEFT + 535.0];
    let entry = |(line, left): (&Line, f64)| {
        format!(
            "<path d=\"M{left} 38h26\" fill=\"none\" stroke=\"{}\" {}/>\n\
             <text x=\"{}\" y=\"42\">{}</text>\n",
            line.colour,
            line.pen,
            left + 32.0,
            line.name
        )
    };
    LINES.iter().zip(lefts).map(entry).collect()
}

const HOURS: &str = "length of the lesson in hours, five readings a second";
const DISTANCE: &str = "area less exact area, in µmol/mol s";

/// The afternoon's end, and what the axes say.
fn words(scale: &Scale) -> String {
    let afternoon = scale.x(AFTERNOON);
    let (middle, centre) = ((LEFT + RIGHT) / 2.0, (TOP + BOTTOM) / 2.0);
    format!(
        "<path d=\"M{afternoon:.1} {TOP}V{BOTTOM}\" stroke=\"#888888\" stroke-dasharray=\"2 3\"/>\n\
         <text x=\"{:.1}\" y=\"{:.1}\">an afternoon</text>\n\
         <text x=\"{middle}\" y=\"{:.1}\" text-anchor=\"middle\">{HOURS}</text>\n\
         <text transform=\"translate(18 {centre}) rotate(-90)\" text-anchor=\"middle\">\
         {DISTANCE}</text>\n",
        afternoon + 5.0,
        TOP + 15.0,
        BOTTOM + 44.0
    )
}

/// The picture as SVG.
pub fn text(drift: &Drift) -> String {
    let scale = Scale::new(drift);
    let lines: String = LINES.iter().map(|line| scale.line(line, &drift.points)).collect();
    let worst = drift.worst.iter().zip(table::worst(drift));
    let dots = LINES.iter().zip(worst).map(|(line, (point, size))| scale.dot(line, point, &size));
    let dots: String = dots.collect();
    let title = "How far the area slides off over a long lesson";
    format!(
        "<svg xmlns=\"http://www.w3.org/2000/svg\" width=\"{WIDTH}\" height=\"{HEIGHT}\" \
         viewBox=\"0 0 {WIDTH} {HEIGHT}\" font-family=\"sans-serif\" font-size=\"12\" \
         fill=\"#222222\">\n<title>{title}</title>\n\
         <rect width=\"{WIDTH}\" height=\"{HEIGHT}\" fill=\"#ffffff\"/>\n\
         <text x=\"{LEFT}\" y=\"20\" font-size=\"14\" font-weight=\"bold\">{title}</text>\n\
         {}{}{}{}{lines}{dots}</svg>\n",
        legend(),
        scale.marks_of_distance(),
        scale.marks_of_hours(),
        words(&scale)
    )
}

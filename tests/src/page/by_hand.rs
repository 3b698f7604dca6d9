//! Sessions with their pages worked out by hand, from document 01's readings on the bench and
//! R-4's words.
//!
//! On some sheets here a reading is its signal, or a hundred times that: with A2 and A3 zero, at
//! P0 and T0 in dry air, z is V and f is A1 V / 10^7, and nothing else comes in.

use crate::bench;
use crate::engine::{Event, SheetRecord};
use crate::file::{EventRecord, Session, EVENTS_LIMIT};

use super::LINE_BYTES;

/// A session with its page, so many sample lines under a header line.
pub struct OwedPage {
    pub name: &'static str,
    pub session: Session,
    pub every: u32,
    /// The words of each line; in absolute mode there is one less.
    pub lines: &'static str,
}

impl OwedPage {
    pub fn bytes(&self) -> Vec<u8> {
        self.lines.lines().flat_map(laid_out).collect()
    }
}

/// The columns before which the words of a line end: 6, and 14 more for each.
const ENDS: [usize; 4] = [6, 20, 34, 48];

fn laid_out(words: &str) -> [u8; LINE_BYTES] {
    let mut line = [b' '; LINE_BYTES];
    line[72] = b'\n';
    for (word, end) in words.split(' ').zip(ENDS) {
        line[end - word.len()..end].copy_from_slice(word.as_bytes());
    }
    line
}

/// A sheet on which a reading is its signal.
pub fn plain_sheet() -> SheetRecord {
    SheetRecord { a1: 10_000_000, a2: 0, a3: 0, t0: 29_815, k: 320_000_000, rest: 0 }
}

/// A sheet on which a reading is a hundred times its signal.
fn steep_sheet() -> SheetRecord {
    SheetRecord { a1: 1_000_000_000, k: 60_000_000, ..plain_sheet() }
}

const LOAD: Event = Event::Load { index: 0 };

fn sample(raw: i32) -> Event {
    Event::Sample { raw, p: 101_300, t: 29_815, e: 0 }
}

/// Air with a tenth of its pressure in vapour: D is 10,570,000 and dry is wet times 10/9.
fn damp(raw: i32) -> Event {
    Event::Sample { raw, p: 100_000, t: 29_815, e: 10_000 }
}

fn against(cylinder: u32) -> Event {
    Event::Reference { cylinder, e: 0 }
}

/// A session that begins with a load of its only sheet.
fn owed(
    name: &'static str,
    sheet: SheetRecord,
    events: &[Event],
    every: u32,
    lines: &'static str,
) -> OwedPage {
    let events = [&[LOAD], events].concat();
    let events = events.iter().map(EventRecord::of).collect();
    OwedPage { name, session: Session { sheets: vec![sheet], events }, every, lines }
}

/// The example that document 01 prints.
pub fn example() -> OwedPage {
    let events = [against(1_000_000_000), sample(10_000_000), Event::Area];
    let lines = "no wet dry diff\n3 1388.16 1388.16 388.16";
    owed("document 01's example", bench::sheet(), &events, 40, lines)
}

/// 999,999,967 is rounded to 1000.00, 1,019,989,938 to 1019.99, and of the damp reading
/// 1,034,193,379 to 1034.19 and 1,055,299,366 to 1055.30. The refused ones have no line.
fn bench_readings() -> OwedPage {
    let at = |raw, p, t, e| Event::Sample { raw, p, t, e };
    let events = [
        sample(0),
        sample(1),
        sample(-1),
        sample(-2_000_001),
        sample(39_999_999),
        sample(40_000_000),
        sample(70_000_000),
        at(32_000_000, 81_040, 29_815, 0),
        at(40_000_000, 101_300, 30_411, 0),
        at(40_456_000, 100_000, 29_815, 2_000),
        at(40_456_000, 100_000, 29_815, 10_001),
    ];
    let lines = "no wet dry diff\n\
                 2 0.00 0.00\n3 0.00 0.00\n4 0.00 0.00\n\
                 6 1000.00 1000.00\n7 1000.00 1000.00\n\
                 9 1000.00 1000.00\n10 1019.99 1019.99\n11 1034.19 1055.30";
    owed("readings on the bench", bench::sheet(), &events, 40, lines)
}

/// The cylinder is that of the reference that stood at the sample: a refused one and a later one
/// change nothing.
fn references() -> OwedPage {
    let events = [
        against(1_000_000_000),
        sample(0),
        sample(10_000_000),
        sample(-10_000_000),
        against(3_000_000_001),
        sample(0),
        against(0),
        sample(40_000_000),
        Event::Absolute,
        sample(40_000_000),
        against(500_000_000),
        LOAD,
        sample(0),
    ];
    let lines = "no wet dry diff\n3 1000.00 1000.00 0.00\n4 1388.16 1388.16 388.16\n\
                 no wet dry diff\n5 695.04 695.04 -304.96\n7 1000.00 1000.00 0.00\n\
                 no wet dry diff\n9 1000.00 1000.00 1000.00\n11 1000.00 1000.00\n\
                 no wet dry diff\n14 0.00 0.00";
    owed("references", bench::sheet(), &events, 2, lines)
}

/// The span is document 01's 800,000, with the zero taken off.
fn zero_and_span() -> OwedPage {
    let (p, t, e) = (101_300, 29_815, 0);
    let events = [
        Event::Zero { raw: 1_000_000 },
        sample(41_000_000),
        Event::Span { raw: 51_000_000, cylinder: 1_000_000_000, p, t, e },
        sample(51_000_000),
        sample(1_000_000),
    ];
    let lines =
        "no wet dry diff\n3 1000.00 1000.00\n5 1000.00 1000.00\nno wet dry diff\n6 0.00 0.00";
    owed("zero and span", bench::sheet(), &events, 2, lines)
}

/// Readings next to a half and at it, which goes away from zero, on both sides of zero.
fn around_nothing() -> OwedPage {
    let below = [-2_000_000, -995_000, -994_999, -15_000, -14_999, -10_000, -6_000];
    let nothing = [-5_000, -4_999, -4_000, -1, 0, 4_999, 5_000];
    let above = [14_999, 15_000, 994_999, 995_000, 1_000_000, 99_999_999, 100_000_000];
    let events = [below, nothing, above].concat().into_iter().map(sample).collect::<Vec<Event>>();
    let lines = "no wet dry diff\n2 -2.00 -2.00\n3 -1.00 -1.00\n4 -0.99 -0.99\n\
                 5 -0.02 -0.02\n6 -0.01 -0.01\n7 -0.01 -0.01\n8 -0.01 -0.01\n\
                 no wet dry diff\n9 -0.01 -0.01\n10 0.00 0.00\n11 0.00 0.00\n\
                 12 0.00 0.00\n13 0.00 0.00\n14 0.00 0.00\n15 0.01 0.01\n\
                 no wet dry diff\n16 0.01 0.01\n17 0.02 0.02\n18 0.99 0.99\n\
                 19 1.00 1.00\n20 1.00 1.00\n21 100.00 100.00\n22 100.00 100.00";
    owed("around nothing", plain_sheet(), &events, 7, lines)
}

/// Wet less Cr that is −4,000, −5,000, −4,999, −10,000, 5,000 and 4,999, in this order: R is
/// 80,000,000, a quarter of K, so that V adds V − near(V / 4).
pub fn differences() -> OwedPage {
    let raws = [-5_333, -6_667, -6_665, -13_333, 6_667, 6_665];
    let events = [&[against(80_000_000)], &raws.map(sample)[..]].concat();
    let lines = "no wet dry diff\n3 80.00 80.00 0.00\n4 80.00 80.00 -0.01\n\
                 5 80.00 80.00 0.00\n6 79.99 79.99 -0.01\n\
                 7 80.01 80.01 0.01\n8 80.00 80.00 0.00";
    owed("differences around nothing", plain_sheet(), &events, 6, lines)
}

/// The same differences against cylinders of 10, 5, 4, 10, 10 and 11, whose signal is 1, which
/// reads 15: the signal is 1 + V, and 15 times that is wet.
pub fn faint_cylinders() -> OwedPage {
    let pairs = [(10, -267), (5, -334), (4, -334), (10, -667), (10, 333), (11, 333)];
    let events = pairs.map(|(cylinder, raw)| [against(cylinder), sample(raw)]).concat();
    let lines = "no wet dry diff\n3 0.00 0.00 0.00\n5 0.00 0.00 -0.01\n7 0.00 0.00 0.00\n\
                 9 -0.01 -0.01 -0.01\n11 0.01 0.01 0.01\nno wet dry diff\n13 0.01 0.01 0.00";
    owed("faint cylinders", bench::sheet(), &events, 5, lines)
}

/// 80.006 less 80.004, whose figures are 80.01 and 80.00; and 80.004 less 79.996, both 80.00.
/// V is 2,667 with a share of 666.78, and 10,667 with a share of 2,666.62.
pub fn rounded_by_itself() -> OwedPage {
    let events =
        [against(80_004_000), sample(2_667), against(79_996_000), sample(10_667), Event::Start];
    let lines = "no wet dry diff\n3 80.01 80.01 0.00\n5 80.00 80.00 0.01";
    owed("a difference is rounded by itself", plain_sheet(), &events, 40, lines)
}

/// A half above zero whose difference from a cylinder of whole hundredths is a half below zero:
/// 0.995 and 0.005 less 1.00, and 1.005 less 1.00 beside them. R is 1,000,000 and V has a share of
/// V / 320: −15.675, −3,119.12 and 15.675.
fn halves_across_zero() -> OwedPage {
    let events = [&[against(1_000_000)], &[-5_016, -998_119, 5_016].map(sample)[..]].concat();
    let lines = "no wet dry diff\n3 1.00 1.00 -0.01\n4 0.01 0.01 -1.00\n5 1.01 1.01 0.01";
    owed("halves across zero", plain_sheet(), &events, 40, lines)
}

/// At raw −1,057,000 z is −1,013,000, f −15,195,000, wet −16,061,115 and dry −17,845,683; at −300
/// they are −288, −4,320, −4,566 and −5,073.
fn damp_below_zero() -> OwedPage {
    let events = [damp(-1_057_000), damp(-300), against(0), damp(-1_057_000), damp(-300)];
    let lines = "no wet dry diff\n2 -16.06 -17.85\n3 0.00 -0.01\n\
                 5 -16.06 -17.85 -16.06\n6 0.00 -0.01 0.00";
    owed("damp air below zero", bench::sheet(), &events, 40, lines)
}

/// The highest wet value, and the lowest signal against the highest cylinder: R is 30,000,000,
/// half of K, and of V half is left.
fn far_figures() -> OwedPage {
    let events = [against(3_000_000_000), sample(0), sample(-64_000_000), sample(-64_000_002)];
    let lines = "no wet dry diff\n3 3000.00 3000.00 0.00\n4 -200.00 -200.00 -3200.00";
    owed("far figures", steep_sheet(), &events, 999, lines)
}

/// Four samples under headers of one to five lines.
fn headers() -> [OwedPage; 5] {
    let lines = [
        "no wet dry diff\n2 0.00 0.00\nno wet dry diff\n3 0.00 0.00\n\
         no wet dry diff\n4 0.00 0.00\nno wet dry diff\n5 0.00 0.00",
        "no wet dry diff\n2 0.00 0.00\n3 0.00 0.00\nno wet dry diff\n4 0.00 0.00\n5 0.00 0.00",
        "no wet dry diff\n2 0.00 0.00\n3 0.00 0.00\n4 0.00 0.00\nno wet dry diff\n5 0.00 0.00",
        "no wet dry diff\n2 0.00 0.00\n3 0.00 0.00\n4 0.00 0.00\n5 0.00 0.00",
        "no wet dry diff\n2 0.00 0.00\n3 0.00 0.00\n4 0.00 0.00\n5 0.00 0.00",
    ];
    let page = |every| {
        let lines = lines[every as usize - 1];
        owed("headers", bench::sheet(), &[sample(0); 4], every, lines)
    };
    [1, 2, 3, 4, 5].map(page)
}

/// No event at all; no sheet, so that samples are refused with 1; samples that are refused with
/// 7, 8 and 6, and no sample.
pub fn empty() -> [OwedPage; 4] {
    let nothing = |name, session| OwedPage { name, session, every: 40, lines: "" };
    let events = [sample(0), sample(1)].iter().map(EventRecord::of).collect();
    let refused = [-2_000_001, 70_000_000, 150_000_001].map(sample);
    let others = [Event::Start, against(0), Event::Area, Event::Stop, Event::StartShort];
    [
        nothing("no event", Session::default()),
        nothing("no sheet", Session { sheets: Vec::new(), events }),
        owed("refused samples", bench::sheet(), &refused, 1, ""),
        owed("no sample", bench::sheet(), &others, 999, ""),
    ]
}

/// As many samples as a file can have that are accepted.
pub fn longest() -> Session {
    let mut events = vec![EventRecord::of(&LOAD)];
    events.resize(EVENTS_LIMIT, EventRecord::of(&sample(40_000_000)));
    Session { sheets: vec![bench::sheet()], events }
}

pub fn pages() -> Vec<OwedPage> {
    let mut pages = vec![example(), bench_readings(), references(), zero_and_span()];
    pages.extend([around_nothing(), differences(), faint_cylinders(), rounded_by_itself()]);
    pages.extend([halves_across_zero(), damp_below_zero(), far_figures()]);
    pages.extend(headers());
    pages.extend(empty());
    pages
}

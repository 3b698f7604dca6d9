//! Every reading on the bench of document 01, starred and not, with what document 02
//! changes of them, and document 01's printed example. The expected figures stand in these
//! documents, or follow from them as said.

use irga_tests::bench;
use irga_tests::engine::{step, Answer, Entry, Event, SheetRecord, State};
use irga_tests::file::{self, EventRecord, Session};
use irga_tests::harness::{Executable, Program};
use irga_tests::page::by_hand::plain_sheet;
use irga_tests::rules::{absolute_reading, dry_value, steps, Air, Refusal, Sheet};

fn sheet() -> Sheet {
    bench::sheet().accepted().expect("the bench sheet is within its limits")
}

fn read(air: Air, v: i64) -> Result<i64, u8> {
    absolute_reading(&sheet(), &air, v).map_err(Refusal::number)
}

/// Runs events from a fresh engine and gives back the last answer.
fn last_answer(sheets: &[SheetRecord], events: &[Event]) -> Answer {
    let mut state = State::fresh();
    let mut last = None;
    for event in events {
        let (answer, next) = step(sheets, &state, &Entry::Known(*event));
        last = Some(answer);
        state = next;
    }
    last.expect("at least one event")
}

const LOAD: Event = Event::Load { index: 0 };
const CYLINDER: u32 = 1_000_000_000;
const REFERENCE: Event = Event::Reference { cylinder: CYLINDER, e: 0 };

fn sample(raw: i32) -> Event {
    Event::Sample { raw, p: 101_300, t: 29_815, e: 0 }
}

fn span(raw: i32) -> Event {
    Event::Span { raw, cylinder: CYLINDER, p: 101_300, t: 29_815, e: 0 }
}

fn accepted(kind: u8, m: u32, x: i64, y: i64) -> Answer {
    Answer { kind, refusal: 0, m, x, y }
}

fn refused(kind: u8, refusal: u8) -> Answer {
    Answer { kind, refusal, m: 0, x: 0, y: 0 }
}

#[test]
fn around_nothing() {
    assert_eq!(read(bench::AIR, 0), Ok(0));
    assert_eq!(read(bench::AIR, 1), Ok(15));
    assert_eq!(read(bench::AIR, -1), Ok(-15));
    assert_eq!(read(bench::AIR, -2_000_000), Ok(-30_000_000));
    assert_eq!(read(bench::AIR, -2_000_001), Err(7));
}

#[test]
fn around_the_cylinder() {
    assert_eq!(read(bench::AIR, 39_999_999), Ok(999_999_967));
    assert_eq!(read(bench::AIR, 40_000_000), Ok(1_000_000_000));
}

#[test]
fn over_range() {
    assert_eq!(steps(&sheet(), &bench::AIR, 70_000_000).c, 3_010_000_000);
    assert_eq!(read(bench::AIR, 70_000_000), Err(8));
}

#[test]
fn other_pressure_and_warmth() {
    assert_eq!(read(Air { p: 81_040, ..bench::AIR }, 32_000_000), Ok(1_000_000_000));
    assert_eq!(read(Air { t: 30_411, ..bench::AIR }, 40_000_000), Ok(1_019_989_938));
}

#[test]
fn damp_air() {
    let damp = Air { p: 100_000, t: 29_815, e: 2_000 };
    assert_eq!(steps(&sheet(), &damp, 40_456_000).z, 40_520_000);
    assert_eq!(read(damp, 40_456_000), Ok(1_034_193_379));
    assert_eq!(dry_value(1_034_193_379, &damp), 1_055_299_366);
    let at = |e: u32| Event::Sample { raw: 40_456_000, p: 100_000, t: 29_815, e };
    let answer = last_answer(&[bench::sheet()], &[LOAD, at(2_000)]);
    assert_eq!(answer, accepted(6, 0, 1_034_193_379, 1_055_299_366));
    assert_eq!(last_answer(&[bench::sheet()], &[LOAD, at(10_001)]), refused(6, 6));
    assert_eq!(last_answer(&[bench::sheet()], &[LOAD, at(10_000)]).refusal, 0);
}

#[test]
fn against_a_reference() {
    let sheets = [bench::sheet()];
    let cases = [(0, 1_000_000_000), (10_000_000, 1_388_160_000), (-10_000_000, 695_040_000)];
    for (raw, wet) in cases {
        let answer = last_answer(&sheets, &[LOAD, REFERENCE, sample(raw)]);
        assert_eq!(answer, accepted(6, 40_000_000, wet, wet));
    }
    let narrow = [SheetRecord { k: 10_000_000, ..bench::sheet() }];
    assert_eq!(last_answer(&narrow, &[LOAD, REFERENCE, sample(0)]), refused(6, 9));
}

#[test]
fn span_to_the_cylinder() {
    let sheets = [bench::sheet()];
    let set = |raw: i32| last_answer(&sheets, &[LOAD, span(raw)]);
    assert_eq!(set(50_000_000), accepted(3, 800_000, 0, 0));
    assert_eq!(set(20_000_000), accepted(3, 2_000_000, 0, 0));
    assert_eq!(set(19_999_999), refused(3, 5));
    assert_eq!(set(80_000_000), accepted(3, 500_000, 0, 0));
    assert_eq!(set(90_000_000), refused(3, 5));
}

/// As document 02's R-5 has them.
#[test]
fn area_of_three_readings_and_of_one() {
    let sheets = [bench::sheet()];
    for start in [Event::Start, Event::StartShort] {
        let start = [LOAD, REFERENCE, start];
        let three = [&start[..], &[sample(0), sample(10_000_000), sample(0), Event::Area]].concat();
        assert_eq!(last_answer(&sheets, &three), accepted(9, 3, 776_320_000, 0));
        let one = [&start[..], &[sample(10_000_000), Event::Stop, Event::Area]].concat();
        assert_eq!(last_answer(&sheets, &one), accepted(9, 1, 0, 0));
    }
}

/// Document 02's R-10: a short start without a sheet, alone, while a long integration runs, while a
/// short one does, and after a closed one. Each begins anew.
#[test]
fn short_starts() {
    const SHORT: Event = Event::StartShort;
    let readings = [sample(0), sample(10_000_000), Event::Area];
    let begun = [&[SHORT][..], &readings, &[Event::Start, sample(0)]].concat();
    let anew = [&[SHORT, Event::Area][..], &readings, &[SHORT], &readings, &[Event::Stop]].concat();
    let events = [&[SHORT, LOAD, REFERENCE][..], &begun, &anew, &[SHORT, Event::Area]].concat();
    let text = printed(&[bench::sheet()], &events);
    let others: Vec<&str> = text
        .lines()
        .filter_map(|line| line.split_once(' '))
        .map(|(_, answer)| answer)
        .filter(|answer| !answer.starts_with("6 0 "))
        .collect();
    let area = "9 0 2 388160000 0";
    let begun = ["10 0 0 0 0", area, "7 0 0 0 0"];
    let anew = ["10 0 0 0 0", "9 10 0 0 0", area, "10 0 0 0 0", area, "8 0 0 0 0"];
    let before = ["10 1 0 0 0", "1 0 0 0 0", "4 0 0 0 0"];
    assert_eq!(others, [&before[..], &begun, &anew, &["10 0 0 0 0", "9 10 0 0 0"]].concat());
}

/// Document 02's R-5: a steady reading of 1,000 µmol/mol over three samples, where the class
/// expects none. Then a step up and down again: two readings have the area of their step, and
/// back where it began the three have twice that of the one that stands out. Then steady
/// readings below zero, and a straight fall from −15 to −45, which has last less first.
#[test]
fn a_flat_line_has_no_area() {
    const START: Event = Event::Start;
    const AREA: Event = Event::Area;
    let flat = [START, sample(0), AREA, sample(0), AREA, sample(0), AREA];
    let step = [START, sample(0), sample(10_000_000), AREA, sample(0), AREA];
    let low = [START, sample(-1), sample(-1), sample(-1), sample(-1), AREA];
    let fall = [START, sample(-1), sample(-2), sample(-3), AREA];
    let events = [&[LOAD, REFERENCE][..], &flat, &step, &[Event::Absolute], &low, &fall].concat();
    let text = printed(&[bench::sheet()], &events);
    let areas: Vec<&str> =
        text.lines().filter_map(|line| line.split_once(" 9 0 ")).map(|(_, area)| area).collect();
    assert_eq!(
        areas,
        ["1 0 0", "2 0 0", "3 0 0", "2 388160000 0", "3 776320000 0", "4 0 0", "3 -30 0"]
    );
}

#[test]
fn zero_and_sheet_limits() {
    let sheets = [bench::sheet()];
    let zero = |raw: i32| last_answer(&sheets, &[LOAD, Event::Zero { raw }]);
    assert_eq!(zero(20_000_000), accepted(2, 0, 20_000_000, 0));
    assert_eq!(zero(20_000_001), refused(2, 3));
    let without_a1 = [SheetRecord { a1: 0, ..bench::sheet() }];
    assert_eq!(last_answer(&without_a1, &[LOAD]), refused(1, 2));
}

/// What a session prints, by this implementation and by the program under test.
fn printed(sheets: &[SheetRecord], events: &[Event]) -> String {
    let events = events.iter().map(EventRecord::of).collect();
    let bytes = Session { sheets: sheets.to_vec(), events }.to_bytes();
    let text = file::program(&bytes);
    assert_eq!(Executable::under_test().print(&bytes).as_deref(), Ok(text.as_bytes()));
    text
}

/// Document 02's R-1: noise around zero is read down to −2,000,000. On the bench sheet z is V
/// and the line is 15 V. Against the bench cylinder the signal is 40,000,000 + V − V / 5, so
/// raw −52,500,000 is the lowest that is read; with R 0 it is V.
#[test]
fn around_zero_through_the_program() {
    let nothing = Event::Reference { cylinder: 0, e: 0 };
    let read = [-1, -2_000_000, -2_000_001].map(sample);
    let against = [-50_000_000, -50_000_001, -52_500_000, -52_500_001].map(sample);
    let events = [&[LOAD][..], &read, &[nothing], &read, &[REFERENCE], &against].concat();
    let expected = "1 1 0 0 0 0\n\
                    2 6 0 0 -15 -15\n\
                    3 6 0 0 -30000000 -30000000\n\
                    4 6 7 0 0 0\n\
                    5 4 0 0 0 0\n\
                    6 6 0 0 -15 -15\n\
                    7 6 0 0 -30000000 -30000000\n\
                    8 6 7 0 0 0\n\
                    9 4 0 0 0 0\n\
                    10 6 0 40000000 0 0\n\
                    11 6 0 40000000 -15 -15\n\
                    12 6 0 40000000 -30000000 -30000000\n\
                    13 6 7 0 0 0\n";
    assert_eq!(printed(&[bench::sheet()], &events), expected);
}

/// Document 02's R-6: under the lowest span a raw unit is half a unit of signal, and one and a half
/// and two and a half go away from zero, too; half a unit below the lowest signal is too low. On
/// the plain sheet a reading is its signal, and against 80,000,000, a quarter of K, it is
/// R + V − near(V / 4).
#[test]
fn halves_through_the_program() {
    let quarter = [Event::Load { index: 1 }, Event::Reference { cylinder: 80_000_000, e: 0 }];
    let steps = [1, -1, 3, -3, 5, -5, -4_000_000, -4_000_001].map(sample);
    let shares = [2, -2, 6, -6].map(sample);
    let events = [&[LOAD, span(80_000_000)][..], &steps, &quarter, &shares].concat();
    let expected = "1 1 0 0 0 0\n\
                    2 3 0 500000 0 0\n\
                    3 6 0 0 15 15\n\
                    4 6 0 0 -15 -15\n\
                    5 6 0 0 30 30\n\
                    6 6 0 0 -30 -30\n\
                    7 6 0 0 45 45\n\
                    8 6 0 0 -45 -45\n\
                    9 6 0 0 -30000000 -30000000\n\
                    10 6 7 0 0 0\n\
                    11 1 0 0 0 0\n\
                    12 4 0 0 0 0\n\
                    13 6 0 80000000 80000001 80000001\n\
                    14 6 0 80000000 79999999 79999999\n\
                    15 6 0 80000000 80000004 80000004\n\
                    16 6 0 80000000 79999996 79999996\n";
    assert_eq!(printed(&[bench::sheet(), plain_sheet()], &events), expected);
}

/// Noise on both sides of zero: its readings add up to nothing, and all are counted. The area
/// is 2 × 15 × (2 − 1 + 4 − 2) − 4 × 15 × (−3 − 2).
#[test]
fn noise_around_zero_is_counted() {
    let sheets = [bench::sheet()];
    let noise = [-3, 2, -1, 4, -2].map(sample);
    let wet = noise.map(|event| last_answer(&sheets, &[LOAD, event]).x);
    assert_eq!((wet, wet.iter().sum()), ([-45, 30, -15, 60, -30], 0));
    let events = [&[LOAD, Event::Start][..], &noise, &[Event::Area]].concat();
    assert_eq!(last_answer(&sheets, &events), accepted(9, 5, 390, 0));
}

/// The cases that no theorem has, in one session.
#[test]
fn cases_without_a_star() {
    let sheets = [bench::sheet(), SheetRecord { a1: 0, ..bench::sheet() }];
    let zero = |raw: i32| Event::Zero { raw };
    let events = [
        LOAD,
        zero(20_000_000),
        zero(20_000_001),
        zero(0),
        sample(70_000_000),
        Event::Load { index: 1 },
    ];
    let expected = "1 1 0 0 0 0\n\
                    2 2 0 0 20000000 0\n\
                    3 2 3 0 0 0\n\
                    4 2 0 0 0 0\n\
                    5 6 8 0 0 0\n\
                    6 1 2 0 0 0\n";
    assert_eq!(printed(&sheets, &events), expected);
}

#[test]
fn printed_example() {
    let events = [LOAD, REFERENCE, sample(10_000_000), Event::Area];
    let expected = "1 1 0 0 0 0\n\
                    2 4 0 0 0 0\n\
                    3 6 0 40000000 1388160000 1388160000\n\
                    4 9 10 0 0 0\n";
    assert_eq!(printed(&[bench::sheet()], &events), expected);
}

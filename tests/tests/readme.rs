//! The figures that README.md quotes, each made again and looked for in its words; those of
//! the drift are in `drift`. Only how long the proofs and the gate take is held by no test.

use irga_tests::bench;
use irga_tests::engine::{step, Answer, Entry, Event, SheetRecord, State};
use irga_tests::engine::{READINGS_LIMIT, SHORT_LIMIT};
use irga_tests::figures::{grouped, in_one_line};
use irga_tests::file::{self, EventRecord, Session};
use irga_tests::grounds::by_hand::ADVICE;
use irga_tests::grounds::{self, GROUNDS};
use irga_tests::harness::recorders::VALUES_EACH;
use irga_tests::harness::SESSIONS;
use irga_tests::hostile;
use irga_tests::recorder::{self, Drawn, Kind};
use irga_tests::rules::{self, Air, Refusal};
use irga_tests::{ledger, lesson, pace, page};

const README: &str = include_str!("../../README.md");
const SPEED: &str = include_str!("../../docs/SPEED.md");
const GATE: &str = include_str!("../../.ci/run");

fn assert_says(sentence: &str) {
    assert!(in_one_line(README).contains(sentence), "README.md does not say: {sentence}");
}

fn number(number: impl ToString) -> String {
    grouped(&number.to_string())
}

/// Kinds of event as the sentence on the lesson calls them.
const KINDS: [&str; 10] = [
    "load",
    "zero",
    "span",
    "reference",
    "absolute",
    "sample",
    "start",
    "stop",
    "area",
    "short start",
];

#[test]
fn the_lesson_s_events() {
    let kinds: Vec<u8> = lesson::session().events.iter().map(|record| record.kind).collect();
    let same = kinds.chunk_by(|one, next| one == next);
    let words = same.map(|run| match (KINDS[usize::from(run[0]) - 1], run.len()) {
        (name, 1) => name.to_string(),
        (name, count) => format!("{count} {name}s at 0.2 s"),
    });
    let words: Vec<String> = words.collect();
    assert_says(&format!("is a leaf in a chamber: {};", words.join(", ")));
}

/// A whole number of pmol/mol in µmol/mol.
fn micro(value: i64) -> String {
    format!("{}.{:06}", value / 1_000_000, value % 1_000_000)
}

#[test]
fn the_sixth_line_of_the_lesson() {
    let session = lesson::session();
    let text = session.text();
    let line = text.lines().nth(5).expect("a sixth line");
    let Answer { kind, refusal, m, x, y } = session.answers()[5];
    assert_eq!((kind, refusal), (6, 0));
    assert_says(&format!(
        "Its sixth line, `{line}`, says: sixth event, a sample, accepted, reference signal {m}, \
         wet {} µmol/mol, dry {} µmol/mol.",
        micro(x),
        micro(y)
    ));
}

/// The area is below zero, so that its sign stands before the size.
#[test]
fn the_last_line_of_the_lesson() {
    let session = lesson::session();
    let text = session.text();
    let line = text.lines().last().expect("a last line");
    let Some(Answer { kind: 9, refusal: 0, m, x, .. }) = session.answers().last().copied() else {
        panic!("{line} is no area");
    };
    assert!(x < 0);
    // In pmol/mol times 0.1 s, ten million are 1 µmol/mol s.
    let (whole, rest) = (-x / 10_000_000, -x % 10_000_000);
    assert_says(&format!(
        "Its last line, `{line}`, is the area of the {m} readings, −{whole}.{rest:07} µmol/mol s:"
    ));
}

#[test]
fn the_line_of_a_refused_file() {
    assert_says(&format!("gives the one line `{}`;", file::program(&[]).trim_end()));
}

#[test]
fn lengths_in_bytes() {
    let (header, record, line) = (file::HEADER_BYTES, file::RECORD_BYTES, file::LINE_ROOM);
    let (sheets, events) = (file::SHEETS_LIMIT, file::EVENTS_LIMIT);
    let longest =
        Session { sheets: vec![bench::sheet(); sheets], events: vec![Default::default(); events] };
    let longest = longest.to_bytes();
    assert!(Session::open(&longest).is_some());
    let (longest, answers) = (number(longest.len()), number(record * events));
    let (lines, events) = (number(line * events), number(events));
    for sentence in [
        format!("A file has a header of {header} bytes,"),
        format!("{header} + {record} × sheets + {record} × events bytes, {longest} at the most."),
        format!("that a run writes are records of {record} bytes:"),
        format!("| sheet count u32, 0 to {sheets} | sheet offset u32, {header} |"),
        format!("| event count u32, 0 to {events} |"),
        format!("| event offset u32, {header} + {record} × sheet count |"),
        format!("{answers} bytes of output are enough for any session, {lines} for its lines,"),
        format!(
            "{events} for its grounds, {} for its page, and {longest} for any file that is written.",
            number(page::LONGEST)
        ),
        format!("shorter than the page, {} × its lines |", page::LINE_BYTES),
        format!("lend more; {} × event count is enough |", 2 * page::LINE_BYTES),
        format!("no page is longer than {} bytes", number(page::LONGEST)),
        format!("`irga_write` takes up to {sheets} sheets and {events} events and"),
        format!("than the file to be written, {header} + {record} × sheets + {record} × events |"),
        format!(
            "shorter than {record} × event count, for the lines {line} × event count, for the \
             grounds the event count |"
        ),
    ] {
        assert_says(&sentence);
    }
}

/// The beginning of the lesson's page, as it is printed, and the columns of its lines.
#[test]
fn the_page_of_the_lesson() {
    let (every, lines) = (4, 11);
    let command = format!("target/bin/labpage {every} < examples/lesson.session | head -n {lines}");
    let (_, after) = README.split_once(&command).expect("the command");
    assert_says(&format!("with a header line at every {every} samples:"));
    let samples = page::samples(&lesson::session());
    let first = samples[0];
    let cylinder = first.cylinder.expect("a reference");
    assert_says(&format!("The first sample is event {}, after load, zero, span,", first.ordinal));
    assert_says(&format!(
        "The reference cylinder has {} µmol/mol, so a wet value of {} has a `diff` of {}.",
        cylinder / 1_000_000,
        page::figure(first.wet),
        page::figure(first.wet - cylinder)
    ));
    let text = page::text(&samples, every);
    let begin: String = text.split_inclusive('\n').take(lines).collect();
    let (_, shown) = after.split_once("samples:\n\n```\n").expect("the page");
    assert!(shown.starts_with(&format!("{begin}```\n")), "README.md has another page");
    let [ordinal, value, ..] = page::COLUMNS;
    assert_says(&format!(
        "A line has {} columns: {ordinal} for the event's ordinal in the session, from 1, refused \
         events counted, then {value} each for wet, dry,",
        page::WIDTH
    ));
    let (low, high) = (page::EVERY.start(), page::EVERY.end());
    assert_says(&format!("stand under a header line, {low} to {high} in decimal digits,"));
    assert_says(&format!(
        "| 16 | the number of sample lines under a header line is outside {low} to {high} |"
    ));
}

/// What examples/plan.c prepares: the papers' figures are those of `c_programs`.
#[test]
fn the_lesson_of_the_desk() {
    let plan = lesson::desk();
    assert_eq!((plan.sheets.len(), plan.events.len()), (1, 8));
    assert_says("fills in one sheet and eight events,");
    let lines = file::program(&plan.session().to_bytes());
    let area = lines.lines().last().expect("a line for each event");
    assert_says(&format!("on the last line, `{area}`, their area, 77.632 µmol/mol s: "));
    // Readings of 1,000, 1,388.16 and 1,000 µmol/mol.
    assert_says("2 × (1,388.16 + 1,000) − 2 × (1,000 + 1,000) is 776.32, times 0.1 s.");
    assert_eq!(area.split(' ').nth(4), Some("776320000"));
}

/// What examples/recorder.c prints of the lesson's first samples: `c_programs` holds all to this
/// implementation.
#[test]
fn the_words_of_the_lesson() {
    let (x0, xf, channel, lines) = (330_000_000, 370_000_000, 3, 3);
    let command = format!(
        "target/recorder voltage {x0} {xf} {channel} examples/lesson.session | head -n {lines}"
    );
    let (_, after) = README.split_once(&command).expect("the command");
    assert_says(&format!(
        "draw the lesson's wet values on channel {channel}, from {} µmol/mol at 0 V to {} at full scale;",
        x0 / 1_000_000,
        xf / 1_000_000
    ));
    let samples = page::samples(&lesson::session());
    let words = samples.iter().take(lines).map(|sample| {
        let drawn = Drawn { x: sample.wet, x0, xf, channel };
        let word = recorder::pack(Kind::Voltage as u8, &drawn).expect("a word");
        let (ordinal, code) = (sample.ordinal, drawn.code(Kind::Voltage));
        format!("{ordinal}: word {word:04X}, code {code} on channel {channel}\n")
    });
    let words: String = words.collect();
    let (_, shown) = after.split_once("in pmol/mol:\n\n```\n").expect("the words");
    assert!(shown.starts_with(&format!("{words}```\n")), "README.md has other words than\n{words}");
}

/// What the example prints of samples over range, as it is printed, and the four limits.
#[test]
fn what_to_turn() {
    let session = lesson::over_range();
    let mut printed = String::new();
    for ((ordinal, answer), ground) in
        (1..).zip(session.answers()).zip(grounds::of_session(&session))
    {
        match (answer.kind, answer.refusal) {
            (6, 0) => printed.push_str(&format!(
                "{ordinal}: wet {} umol/mol, dry {} umol/mol\n",
                micro(answer.x),
                micro(answer.y)
            )),
            (_, 8) => printed.push_str(&format!(
                "{ordinal}: refused 8, over range, ground {}: {}\n",
                ground.number(),
                ADVICE[usize::from(ground.number()) - 1]
            )),
            _ => assert_eq!(answer.refusal, 0),
        }
    }
    assert!(README.contains(&format!("```\n{printed}```\n")), "{printed}");
    for (ground, words) in GROUNDS.iter().zip([
        format!("the signal is above {} (15 V) |", number(rules::SIGNAL_LIMIT)),
        "the signal is at the sheet's K or above it |".to_string(),
        "z, the signal reduced to 101,300 Pa and dry air, is above 10^8 (10 V) |".to_string(),
        format!(
            "the wet value would be above {}, which is 3,000 µmol/mol |",
            number(rules::WET_LIMIT)
        ),
    ]) {
        assert_says(&format!("| ground {} | {words}", ground.number()));
    }
}

/// Steps, codes and limits of a chart recorder, and the manual's example.
#[test]
fn the_recorder_s_numbers() {
    for (kind, name) in [(Kind::Voltage, "voltage"), (Kind::Current, "current")] {
        let (steps, codes, byte) = (kind.steps(), kind.codes(), kind as u8);
        let lowest = codes.start().to_string().replace('-', "−");
        let highest = codes.end();
        let near = format!("near({steps} (X − X0) / (XF − X0))");
        assert_says(&format!("| {name}, kind {byte} | {near} | {lowest} and {highest} |"));
    }
    let manual = Drawn { x: -40_000_000, x0: -100_000_000, xf: 100_000_000, channel: 0 };
    let (upper, lower) = manual.exact(Kind::Current);
    assert_eq!((10 * upper) % lower, 0);
    let tenths = 10 * upper / lower;
    assert_says(&format!(
        "4096 × 0.3 is {}.{}, and the code {}.",
        number(tenths / 10),
        tenths % 10,
        manual.code(Kind::Current)
    ));
    let (limit, channels) = (number(recorder::VALUES.end()), recorder::CHANNELS.end());
    assert_says(&format!("X, X0 and XF go from −{limit} to {limit}, and XF is above X0."));
    assert_says(&format!(
        "Any others, a channel above {channels} and a kind that is neither 0 nor 1"
    ));
    assert_says(&format!("scale is beyond {limit} on either side, the upper end is not above"));
    assert_says(&format!("channel's number is above {channels}, or the kind is neither 0 nor 1 |"));
    assert_says(&format!("number, 0 to {channels}, in the top four."));
}

/// The cells, but for the first, of the first row of a table that begins like this.
fn row(first: &str) -> Vec<&'static str> {
    let begin = format!("| {first}");
    let row = README.lines().find(|line| line.starts_with(&begin));
    let row = row.unwrap_or_else(|| panic!("no row {first}"));
    row.split('|').map(str::trim).skip(2).collect()
}

/// The offsets that differ between two records.
fn differing(one: &[u8], other: &[u8]) -> Vec<usize> {
    (0..file::RECORD_BYTES).filter(|at| one[*at] != other[*at]).collect()
}

/// Holds the bytes that a field fills to its column in the table of records, and its type.
fn assert_place(record: &str, name: &str, kind: &str, one: &[u8], other: &[u8]) {
    let columns: Vec<usize> = row("| 0 |").iter().filter_map(|cell| cell.parse().ok()).collect();
    let cells = row(&format!("{record} |"));
    let field = format!("{name} {kind}");
    let of_field = |cell: &str| cell.split(", ").any(|part| part.starts_with(&field));
    let column = cells.iter().position(|cell| of_field(cell));
    let column = column.unwrap_or_else(|| panic!("{record} has no {field}"));
    // The refusal stands behind the kind, in the same column.
    let first = columns[column] + usize::from(name == "refusal");
    let bytes: usize = kind[1..].parse::<usize>().expect("a number of bits") / 8;
    assert_eq!(differing(one, other), (first..first + bytes).collect::<Vec<usize>>(), "{field}");
}

/// Here and below, all bytes of a field turned over and nothing else.
#[test]
fn places_of_an_event_s_fields() {
    let none = EventRecord::default();
    for (name, kind, record) in [
        ("kind", "u8", EventRecord { kind: u8::MAX, ..none }),
        ("raw", "i32", EventRecord { raw: -1, ..none }),
        ("C", "u32", EventRecord { c: u32::MAX, ..none }),
        ("P", "u32", EventRecord { p: u32::MAX, ..none }),
        ("T", "u32", EventRecord { t: u32::MAX, ..none }),
        ("e", "u32", EventRecord { e: u32::MAX, ..none }),
    ] {
        assert_place("event", name, kind, &none.to_bytes(), &record.to_bytes());
    }
}

#[test]
fn places_of_a_sheet_s_fields() {
    let none = SheetRecord { a1: 0, a2: 0, a3: 0, t0: 0, k: 0, rest: 0 };
    let bytes = |sheet: SheetRecord| {
        let file = Session { sheets: vec![sheet], events: Vec::new() }.to_bytes();
        file[file::HEADER_BYTES..].to_vec()
    };
    for (name, kind, sheet) in [
        ("A1", "i32", SheetRecord { a1: -1, ..none }),
        ("A2", "i32", SheetRecord { a2: -1, ..none }),
        ("A3", "i32", SheetRecord { a3: -1, ..none }),
        ("T0", "u32", SheetRecord { t0: u32::MAX, ..none }),
        ("K", "u32", SheetRecord { k: u32::MAX, ..none }),
    ] {
        assert_place("sheet", name, kind, &bytes(none), &bytes(sheet));
    }
}

#[test]
fn places_of_an_answer_s_fields() {
    let none = Answer { kind: 0, refusal: 0, m: 0, x: 0, y: 0 };
    for (name, kind, answer) in [
        ("kind", "u8", Answer { kind: u8::MAX, ..none }),
        ("refusal", "u8", Answer { refusal: u8::MAX, ..none }),
        ("m", "u32", Answer { m: u32::MAX, ..none }),
        ("x", "i64", Answer { x: -1, ..none }),
        ("y", "i64", Answer { y: -1, ..none }),
    ] {
        let [one, other] = [none, answer].map(|answer| file::answer_to_bytes(&answer));
        assert_place("answer", name, kind, &one, &other);
    }
}

/// The fields of each kind of event, by their offsets.
#[test]
fn fields_of_the_kinds() {
    let names = [("raw", 4), ("C", 8), ("P", 12), ("T", 16), ("e", 20)];
    for (event, offsets) in hostile::KINDS {
        let kind = event.kind();
        let number = if kind == 7 || kind == 8 { "7, 8".to_string() } else { kind.to_string() };
        let cells = row(&format!("{number} |"));
        assert!(cells[0].contains(KINDS[usize::from(kind) - 1]), "{cells:?}");
        let words: Vec<&str> = cells[1].split([',', ':', ' ']).collect();
        let has: Vec<usize> =
            names.iter().filter(|(name, _)| words.contains(name)).map(|(_, at)| *at).collect();
        assert_eq!(has, offsets, "kind {kind}");
    }
}

/// Five readings a second, and nothing else in the file.
#[test]
fn a_session_file_in_minutes() {
    assert_eq!(file::EVENTS_LIMIT / 5 / 60, 9);
    assert_says("a session file holds nine minutes of readings");
    assert_eq!(SHORT_LIMIT / 5 / 60, 20);
    assert_says("has room for 6,000 readings, 20 minutes of them at 0.2 s");
}

/// The first lines of what the program `charts` prints.
#[test]
fn the_first_lines_of_charts() {
    let printed: Vec<&str> = include_str!("../../crates/charts/stdout").lines().take(4).collect();
    assert!(README.contains(&format!("```\n{}\n```", printed.join("\n"))), "{printed:?}");
}

/// The smallest units of a mole fraction, and of an area, which counts in 0.1 s.
#[test]
fn units_of_values() {
    let micro = 10 * bench::PMOL_PER_TENTH;
    assert_says(&format!("(10^{} of them are 1 µmol/mol)", micro.ilog10()));
    assert_says(&format!("(10^{} of them are 1 µmol/mol s)", (10 * micro).ilog10()));
    assert_eq!((10i64.pow(micro.ilog10()), micro), (micro, 1_000_000));
}

/// A printed decimal number times a power of ten, which comes out whole.
fn scaled(printed: &str, power: i32) -> i64 {
    let (decimal, exponent) = printed.split_once('E').unwrap_or((printed, "0"));
    let (whole, parts) = decimal.split_once('.').unwrap_or((decimal, ""));
    let digits: i64 = format!("{whole}{parts}").parse().expect("digits");
    let exponent: i32 = exponent.parse().expect("an exponent");
    let left = power + exponent - parts.len() as i32;
    let unit = 10i64.pow(left.unsigned_abs());
    assert!(left >= 0 || digits % unit == 0, "{printed} is finer");
    if left >= 0 {
        digits * unit
    } else {
        digits / unit
    }
}

/// The maker's sheet of Table 3-1, from what is printed to what a file has.
#[test]
fn a_printed_sheet() {
    let [a1, a2, a3, k, celsius] = ["0.1420", "2.258E-05", "1.787E-09", "19130", "40.2"];
    assert_says(&format!(
        "A printed sheet with a1 {a1}, a2 {a2}, a3 {a3}, K {k} mV and {celsius} °C becomes"
    ));
    let k = scaled(k, 0) * bench::UNITS_PER_MV;
    assert_says("in hundredths of a kelvin (°C + 273.15)");
    let t0 = scaled(celsius, 2) + scaled("273.15", 2);
    let sheet = rules::Sheet { a1: scaled(a1, 9), a2: scaled(a2, 12), a3: scaled(a3, 15), t0, k };
    assert_eq!(sheet, bench::TABLE_SHEET);
    let [a1, a2, a3, t0, k] = [sheet.a1, sheet.a2, sheet.a3, sheet.t0, sheet.k].map(number);
    assert_says(&format!("becomes A1 {a1}, A2 {a2}, A3 {a3}, T0 {t0}, K {k}."));
}

/// A number as README.md writes it: 27,315 or −150,000,000 or 10^9.
fn parse(word: &str) -> i64 {
    let word = word.trim_end_matches([',', ';', '.', '|']).replace(',', "").replace('−', "-");
    let read = |word: &str| word.parse::<i64>().unwrap_or_else(|why| panic!("{word}: {why}"));
    match word.split_once('^') {
        Some((base, power)) => read(base).pow(read(power) as u32),
        None => read(&word),
    }
}

/// Holds a rule to the limits that README.md gives after these words: "low to high".
fn assert_limits(words: &str, within: impl Fn(i64) -> bool) {
    let page = in_one_line(README);
    let (_, after) = page.split_once(words).unwrap_or_else(|| panic!("{words} is not there"));
    let mut after = after.split(' ');
    let (low, to, high) = (after.next(), after.next(), after.next());
    assert_eq!(to, Some("to"), "{words}");
    let [low, high] = [low, high].map(|word| parse(word.expect("a limit")));
    for (value, right) in [(low - 1, false), (low, true), (high, true), (high + 1, false)] {
        assert_eq!(within(value), right, "{words}{value}");
    }
}

/// Whether a sheet is accepted; a number that its field cannot hold is not.
fn accepts(sheet: Option<SheetRecord>) -> bool {
    sheet.is_some_and(|sheet| sheet.accepted().is_some())
}

#[test]
fn limits_of_a_sheet() {
    let good = bench::sheet();
    let signed = |value: i64| i32::try_from(value).ok();
    let unsigned = |value: i64| u32::try_from(value).ok();
    let a1 = |value: i64| accepts(signed(value).map(|a1| SheetRecord { a1, ..good }));
    let a2 = |value: i64| accepts(signed(value).map(|a2| SheetRecord { a2, ..good }));
    let a3 = |value: i64| accepts(signed(value).map(|a3| SheetRecord { a3, ..good }));
    let t0 = |value: i64| accepts(unsigned(value).map(|t0| SheetRecord { t0, ..good }));
    let k = |value: i64| accepts(unsigned(value).map(|k| SheetRecord { k, ..good }));
    assert_limits("A1 (10^-9 µmol/mol per mV) ", a1);
    assert_limits("A2 (10^-12 per mV²) ", a2);
    assert_limits("A3 (10^-15 per mV³) ", a3);
    assert_limits(", T0 ", t0);
    assert_limits("32,315, K ", k);
}

/// The answer's refusal to an event after a load.
fn refusal_after_load(event: Event) -> u8 {
    let sheets = [bench::sheet()];
    let (_, state) = step(&sheets, &State::fresh(), &Entry::Known(Event::Load { index: 0 }));
    step(&sheets, &state, &Entry::Known(event)).0.refusal
}

#[test]
fn limits_of_room_and_signal() {
    assert_limits("| room | P ", |p| Air { p, ..bench::AIR }.within_limits());
    assert_limits("115,000, T ", |t| Air { t, ..bench::AIR }.within_limits());
    assert_says("10 e at most P |");
    let damp = |e: i64| Air { p: 100_000, e, ..bench::AIR }.within_limits();
    assert!(damp(10_000) && !damp(10_001));
    assert_limits("| signal | raw of a span or a sample ", rules::raw_within_limits);
    let zero = |raw: i64| refusal_after_load(Event::Zero { raw: raw as i32 }) != 3;
    assert_limits("150,000,000, of a zero ", zero);
    let sheet = bench::sheet().accepted().expect("the bench sheet");
    let read = |v: i64| rules::absolute_reading(&sheet, &bench::AIR, v);
    let lowest = rules::LOWEST_SIGNAL;
    assert!(read(lowest).is_ok() && read(lowest - 1) == Err(Refusal::BelowZero));
    let millivolts = minus(lowest / bench::UNITS_PER_MV);
    let words = format!("the signal V that is read at least {} ({millivolts} mV),", minus(lowest));
    assert_says(&words);
}

/// A number below 0 as README.md writes it.
fn minus(value: i64) -> String {
    format!("−{}", number(-value))
}

#[test]
fn limits_of_a_cylinder() {
    let span = |cylinder: i64| {
        let cylinder = u32::try_from(cylinder).unwrap_or(u32::MAX);
        let (raw, p, t, e) = (50_000_000, 101_300, 29_815, 0);
        refusal_after_load(Event::Span { raw, cylinder, p, t, e }) != 4
    };
    assert_limits("| cylinder | ", span);
    let reference = |cylinder: i64, e: i64| {
        let cylinder = u32::try_from(cylinder).unwrap_or(u32::MAX);
        refusal_after_load(Event::Reference { cylinder, e: e as u32 }) != 4
    };
    assert_limits("for a span; ", |cylinder| reference(cylinder, 0));
    assert!(reference(1, rules::REFERENCE_VAPOUR_LIMIT));
    assert!(!reference(1, rules::REFERENCE_VAPOUR_LIMIT + 1));
    let vapour = number(rules::REFERENCE_VAPOUR_LIMIT);
    assert_says(&format!("for a reference, with its e at most {vapour} |"));
    assert_says(&format!("or a reference's e above {vapour} |"));
}

#[test]
fn numbers_of_the_rules() {
    let (signal, wet) = (number(rules::SIGNAL_LIMIT), number(rules::WET_LIMIT));
    let (lowest, highest) = (number(rules::SPAN_LOWEST), number(rules::SPAN_HIGHEST));
    let (zero, unit) = (number(rules::ZERO_LIMIT), number(rules::SPAN_UNIT));
    let [readings, short] = [READINGS_LIMIT, SHORT_LIMIT].map(number);
    assert_eq!(rules::Z_LIMIT, 10i64.pow(8));
    let pressure = Air { p: 1, t: 0, e: 0 }.broadened();
    let vapour = Air { p: 0, t: 0, e: 1 }.broadened();
    for sentence in [
        format!("A load sets the zero to 0, the span to {unit} and absolute mode;"),
        format!(
            "counts each accepted sample; its {readings}th, or its {short}th after a short start, is \
             counted and closes it."
        ),
        format!("with R the least signal from 0 to {signal} whose reading"),
        format!("D = {pressure} P + {vapour} e: z = near({} V / D)", number(100 * rules::P0)),
        format!("the least S from {lowest} to {highest} under which"),
        format!("| zero beyond {zero} on either side |"),
        format!(
            "no span from {lowest} to {highest} has an accepted reading of the cylinder or more,"
        ),
        format!("or {} has one too |", number(rules::SPAN_LOWEST - 1)),
        format!("over range: the signal above {signal} or not below K, z above 10^8,"),
        format!("or the wet value above {wet} |"),
    ] {
        assert_says(&sentence);
    }
}

/// The steps in README.md's words, and in the same numbers, at the bench's damp reading.
#[test]
fn steps_of_a_reading() {
    assert_says("V = near((raw − Q) S / 10^6).");
    let (raw, q, s) = (41_000_000, 1_250, 987_654);
    assert_eq!(rules::signal_from_raw(raw, q, s), near((raw - q) * s, 10i64.pow(6)));
    assert_says("h2 = A2 + near(A3 z / 10^7), h1 = A1 + near(h2 z / 10^7), f = near(z h1 / 10^7),");
    assert_says("g = near(f D / (100 P)), and wet = near(g T / T0). Dry is near(wet P / (P − e)).");
    let (sheet, ten_to_7) = (bench::sheet().accepted().expect("the bench sheet"), 10i64.pow(7));
    let air = Air { p: 100_000, t: 29_815, e: 2_000 };
    let (v, d) = (40_456_000, air.broadened());
    let z = near(10_130_000 * v, d);
    let h2 = sheet.a2 + near(sheet.a3 * z, ten_to_7);
    let h1 = sheet.a1 + near(h2 * z, ten_to_7);
    let f = near(z * h1, ten_to_7);
    let g = near(f * d, 100 * air.p);
    let wet = near(g * air.t, sheet.t0);
    assert_eq!(rules::absolute_reading(&sheet, &air, v), Ok(wet));
    assert_eq!(rules::dry_value(wet, &air), near(wet * air.p, air.p - air.e));
    // Below zero, at the lowest signal.
    let v = rules::LOWEST_SIGNAL;
    assert_says(&format!("for V from {} to −1, f = near(z A1 / 10^7),", minus(v)));
    let f = near(near(10_130_000 * v, d) * sheet.a1, ten_to_7);
    let wet = near(near(f * d, 100 * air.p) * air.t, sheet.t0);
    assert_eq!(rules::absolute_reading(&sheet, &air, v), Ok(wet));
}

fn near(a: i64, b: i64) -> i64 {
    rules::near(i128::from(a), i128::from(b)) as i64
}

/// Document 01's numbers, and its order.
#[test]
fn refusals_and_their_order() {
    let [sheets, events] = [file::SHEETS_LIMIT, file::EVENTS_LIMIT].map(number);
    for (refusal, words) in [
        (Refusal::NoSheet, "no sheet loaded,"),
        (Refusal::SheetOutsideLimits, "the sheet that is loaded is outside its limits,"),
        (Refusal::ZeroOutsideRange, "zero beyond"),
        (Refusal::CylinderOutsideRange, "cylinder outside its limits,"),
        (Refusal::NoSpanServes, "no span from"),
        (Refusal::InputOutsideLimits, "of a span or a sample: raw, P, T or e outside its limits;"),
        (Refusal::BelowZero, &format!("the signal is below {},", minus(rules::LOWEST_SIGNAL))),
        (Refusal::OverRange, "over range:"),
        (Refusal::NoReferenceSignal, "no signal has an accepted reading of the reference cylinder"),
        (Refusal::NotNow, "span against a reference;"),
        (Refusal::MalformedEvent, "unknown kind,"),
        (Refusal::MalformedFile, "header or length"),
        (Refusal::OutputTooShort, "the lent output is shorter"),
        (Refusal::TooMany, &format!("more than {sheets} sheets or {events} events")),
        (Refusal::NoRoom, "the lent buffer is shorter than the file to be written,"),
        (Refusal::HeaderInterval, "the number of sample lines under a header line is outside"),
        (Refusal::PageTooLong, "the lent buffer is shorter than the page,"),
        (Refusal::RecorderLimits, "of a chart recorder: the value or an end of its scale"),
    ] {
        assert_says(&format!("| {} | {words}", refusal.number()));
    }
    assert_says("the first in this order is given: 11, 1, 2, 10, 6, 3, 4, 5, 9, 7, 8. 12 and 13");
    assert_says("14, 11 and 15, in this order, what is to be written; 12, 16 and 17, in this order, a page;");
    assert_says("18 a word for a chart recorder:");
}

#[test]
fn distances_from_the_exact_equation() {
    let [absolute, against] = [ledger::WET_ABSOLUTE, ledger::WET_AGAINST].map(number);
    let [dry, cylinder] = [ledger::DRY, ledger::CYLINDER].map(number);
    assert_eq!(ledger::area_allowed(7), ledger::WET_AGAINST * (4 * 7 - 4));
    for sentence in [
        format!(
            "within {absolute} pmol/mol of equation (11) in exact fractions, {against} against"
        ),
        format!("its dry value within {dry} of that exact value times P / (P − e)."),
        format!(
            "at least the cylinder less {cylinder}, and one unit lower, if that signal isn't 0,"
        ),
        format!("less than the cylinder plus {cylinder} "),
        format!("within {against} (4n − 4) of the exact area"),
    ] {
        assert_says(&sentence);
    }
}

/// What the gate goes through, and what it asks for.
#[test]
fn sessions_and_versions_of_the_gate() {
    let sessions = number(SESSIONS);
    assert_says(&format!("which go through {sessions} sessions with the proved program"));
    let pages = number(2 * (SESSIONS / 4));
    assert_says(&format!(
        "and through {sessions} twice with the library, as answers and as lines, and through {pages} \
         as pages,"
    ));
    assert_says(&format!("and hand it {sessions} plans and {sessions} with faults to write,"));
    let values = number(VALUES_EACH * SESSIONS);
    assert_says(&format!("and have it pack {values} values for a chart recorder,"));
    // Each invented session, and one that aims at the limits.
    assert_says(&format!("and name the grounds of {} sessions.", number(2 * SESSIONS)));
    assert!(GATE.contains(&format!("\nexport IRGA_SESSIONS={SESSIONS}\n")));
    assert_says(&format!("`cargo` (Rust {} or later)", env!("CARGO_PKG_RUST_VERSION")));
}

/// A row of the first tables of docs/SPEED.md: the proved rate and the ratio.
fn rates(name: &str) -> Vec<(f64, f64)> {
    let (first, _) = SPEED.split_once("\n## ").expect("a first part");
    let rows = first.lines().filter_map(|line| line.strip_prefix(&format!("| {name} | ")));
    let figure = |cell: &str| cell.replace(',', "").parse::<f64>().expect("a figure");
    let cells = rows.map(|row| row.split(" | ").collect::<Vec<&str>>());
    cells.map(|cells| (figure(cells[1]), figure(cells[3]))).collect()
}

/// The lower of both tables' rates, cut after two digits.
fn rate(name: &str) -> String {
    let lowest = rates(name).iter().fold(f64::INFINITY, |low, (rate, _)| low.min(*rate));
    let unit = 10f64.powi(lowest.log10() as i32 - 1);
    number((lowest / unit).floor() * unit)
}

/// A rate depends on the machine: it is held to the page that has the measurement.
#[test]
fn rates_are_those_of_the_page_on_speed() {
    assert_says(&format!(
        "reads more than {} samples a second in absolute mode, {} against a reference while \
         pressure and temperature stay the same, and {} where they move at every sample,",
        rate("samples, absolute"),
        rate("the same, P and T still"),
        rate("samples against a reference")
    ));
    assert_says("it is faster than the independent Rust implementation in each case measured");
    for case in pace::cases().map(|case| case.name) {
        let rates = rates(case);
        assert_eq!(rates.len(), 2, "{case}: a row in each table");
        assert!(rates.iter().all(|(_, ratio)| *ratio > 1.0), "{case}");
    }
}

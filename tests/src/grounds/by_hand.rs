//! Sessions whose grounds were worked out by hand from document 01: each limit of refusal 8 and one
//! beyond it, their order, and all that has no ground.

use crate::bench;
use crate::engine::{Event, SheetRecord};
use crate::file::{EventRecord, Session, EVENTS_LIMIT};

/// The words of `examples/readings.c` for each ground: the limit of document 01, and what to turn.
pub const ADVICE: [&str; 4] = [
    "the signal is above 150,000,000 (15 V): set zero and span again (span in absolute mode), \
     against a reference look at its cylinder, or dilute the gas",
    "the signal is not below the sheet's K: compare K with the printed sheet, set zero and span \
     again (span in absolute mode), or dilute the gas",
    "the signal at standard pressure is above 100,000,000 (10 V): look at pressure and vapour \
     pressure, set zero and span again (span in absolute mode), against a reference look at its \
     cylinder, or dilute the gas",
    "more than 3,000 umol/mol: dilute the gas; if it has less, look at pressure, temperature and \
     sheet, set zero and span again (span in absolute mode), against a reference look at its \
     cylinder",
];

/// A session with the refusal and the ground that are owed to each of its events.
#[derive(Clone, Debug)]
pub struct Owed {
    pub name: &'static str,
    pub session: Session,
    pub refusals: Vec<u8>,
    pub grounds: Vec<u8>,
}

/// An event, its refusal and its ground.
type Row = (EventRecord, u8, u8);

/// The events after a load of the sheet.
fn owed(name: &'static str, sheet: SheetRecord, rows: &[Row]) -> Owed {
    let rows = [&[accepted(Event::Load { index: 0 })], rows].concat();
    let events = rows.iter().map(|(record, ..)| *record).collect();
    Owed {
        name,
        session: Session { sheets: vec![sheet], events },
        refusals: rows.iter().map(|(_, refusal, _)| *refusal).collect(),
        grounds: rows.iter().map(|(.., ground)| *ground).collect(),
    }
}

fn accepted(event: Event) -> Row {
    refused(event, 0)
}

fn refused(event: Event, number: u8) -> Row {
    (EventRecord::of(&event), number, 0)
}

fn over(event: Event, ground: u8) -> Row {
    (EventRecord::of(&event), 8, ground)
}

/// In the bench's air, and at another pressure, warmth and damp.
fn sample(raw: i32) -> Event {
    sample_in(raw, [101_300, 29_815, 0])
}

fn sample_in(raw: i32, [p, t, e]: [u32; 3]) -> Event {
    Event::Sample { raw, p, t, e }
}

/// A straight line: in the bench's air z is V, and the wet value near(V A1 / 10^7).
fn straight(a1: i32, k: u32) -> SheetRecord {
    SheetRecord { a1, a2: 0, a3: 0, k, ..bench::sheet() }
}

/// So flat that nothing but the signal, K or z ends its range.
fn flat(k: u32) -> SheetRecord {
    straight(1, k)
}

/// Document 01: V 70,000,000 would be 3,010,000,000. The last that is read is 69,895,161: h2 is
/// 5,000,000 + 34,947,581, h1 150,000,000 + near(39,947,581 × 6.9895161) = 429,214,261, and the wet
/// value 2,999,999,988; the next signal's h1 is 429,214,265, and its wet value 3,000,000,058. At
/// 10^8, where it would be 7,000,000,000, z is not above its limit, and one further it is.
fn bench_sheet() -> Owed {
    owed(
        "bench sheet",
        bench::sheet(),
        &[
            accepted(sample(0)),
            accepted(sample(69_895_161)),
            over(sample(69_895_162), 4),
            over(sample(70_000_000), 4),
            over(sample(100_000_000), 4),
            over(sample(100_000_001), 3),
            over(sample(150_000_000), 3),
            accepted(sample(-2_000_000)),
            refused(sample(-2_000_001), 7),
            refused(sample(-150_000_000), 7),
        ],
    )
}

/// With a zero of -1, raw 149,999,999 is V 150,000,000: not above that limit, but its z is above 10^8.
/// With one of -20,000,000 the highest raw is V 170,000,000.
fn signal_by_zero() -> Owed {
    let zero = |raw| accepted(Event::Zero { raw });
    owed(
        "signal, by the zero",
        flat(400_000_000),
        &[
            over(sample(150_000_000), 3),
            zero(-1),
            over(sample(149_999_999), 3),
            over(sample(150_000_000), 1),
            zero(-20_000_000),
            over(sample(130_000_000), 3),
            over(sample(130_000_001), 1),
            over(sample(150_000_000), 1),
            zero(20_000_000),
            over(sample(150_000_000), 3),
            accepted(sample(120_000_000)),
            over(sample(120_000_001), 3),
            accepted(sample(18_000_000)),
            refused(sample(17_999_999), 7),
        ],
    )
}

/// Near(V / 10^7) is 1 from V 5,000,000 on, which raw 2,500,000 comes to under a span of 2,000,000
/// and no lower one: 1,999,999 makes it 4,999,997.5, and rounded 4,999,998.
fn signal_by_span() -> Owed {
    let span = Event::Span { raw: 2_500_000, cylinder: 1, p: 101_300, t: 29_815, e: 0 };
    owed(
        "signal, by the span",
        flat(400_000_000),
        &[
            accepted(span),
            accepted(sample(50_000_000)),
            over(sample(50_000_001), 3),
            over(sample(75_000_000), 3),
            over(sample(75_000_001), 1),
            over(sample(150_000_000), 1),
            accepted(sample(-1_000_000)),
            refused(sample(-1_000_001), 7),
        ],
    )
}

/// At K, one below it and one above it. Of K 10^8, z is at its limit there and not above it.
fn around_k() -> [Owed; 2] {
    let narrow = [
        accepted(sample(9_999_999)),
        over(sample(10_000_000), 2),
        over(sample(10_000_001), 2),
        over(sample(150_000_000), 2),
        accepted(Event::Zero { raw: -1 }),
        over(sample(150_000_000), 1),
    ];
    let at_z = [accepted(sample(99_999_999)), over(sample(100_000_000), 2)];
    [
        owed("K 10,000,000", flat(10_000_000), &narrow),
        owed("K 100,000,000", flat(100_000_000), &at_z),
    ]
}

/// Around 150,000,000, where z is above 10^8: a K of that is passed before z, and at a K one above it
/// the signal's own limit is passed before K. Above 150,000,000 that is so below K and from K on.
fn high_k() -> [Owed; 3] {
    let zero = |raw| accepted(Event::Zero { raw });
    let at = [over(sample(149_999_999), 3), over(sample(150_000_000), 2)];
    let above = [over(sample(150_000_000), 3), zero(-1), over(sample(150_000_000), 1)];
    let far_above = [
        zero(-20_000_000),
        over(sample(130_000_000), 3),
        over(sample(139_999_999), 1),
        over(sample(140_000_000), 1),
        over(sample(150_000_000), 1),
    ];
    [
        owed("K 150,000,000", flat(150_000_000), &at),
        owed("K 150,000,001", flat(150_000_001), &above),
        owed("K 160,000,000", flat(160_000_000), &far_above),
    ]
}

/// 10,130,000 V / D by the air: at P 60,000 it is 100,000,000.2 and 100,000,001.9, at P 115,000
/// 100,000,000.4 and 100,000,001.2; at P 100,000 with e 10,000, D 10,570,000, it is 99,999,999.9 and
/// 100,000,000.9, and without that e V 100,000,000 has z 101,300,000.
fn reduced() -> Owed {
    let [low, high] = [60_000, 115_000].map(|p| [p, 29_815, 0]);
    let [dry, damp] = [0, 10_000].map(|e| [100_000, 29_815, e]);
    owed(
        "z by pressure and vapour",
        flat(400_000_000),
        &[
            accepted(sample(100_000_000)),
            over(sample(100_000_001), 3),
            accepted(sample_in(59_230_010, low)),
            over(sample_in(59_230_011, low), 3),
            accepted(sample_in(113_524_186, high)),
            over(sample_in(113_524_187, high), 3),
            over(sample_in(150_000_000, high), 3),
            accepted(sample_in(100_000_000, damp)),
            accepted(sample_in(104_343_534, damp)),
            over(sample_in(104_343_535, damp), 3),
            over(sample_in(100_000_000, dry), 3),
            over(sample_in(104_343_534, dry), 3),
        ],
    )
}

/// The wet value is 100 times the signal, and 3,000,000,000 is not above its limit; a hundredth of a
/// kelvin more makes it 3,000,100,620. With e 1,000 f is 2,983,213,900 and g 3,000,000,000 again, and the
/// dry value above that; one unit of signal more is 100 more. Against 1,000,000,000 R is 10,000,000, a
/// fortieth of K: V 20,512,821, whose share is 512,820.5, is read at 30,000,000. K is named before the wet
/// value. A signal of 10^8 with A1 300,000,000 is at both last limits, and the next one beyond both.
fn wet() -> [Owed; 3] {
    let [warm, damp] = [[101_300, 29_816, 0], [101_300, 29_815, 1_000]];
    let steep = [
        accepted(sample(30_000_000)),
        over(sample(30_000_001), 4),
        over(sample_in(30_000_000, warm), 4),
        accepted(sample_in(30_000_000, damp)),
        over(sample_in(30_000_001, damp), 4),
        over(sample(100_000_000), 4),
        over(sample(100_000_001), 3),
        accepted(Event::Reference { cylinder: 1_000_000_000, e: 0 }),
        accepted(sample(20_512_821)),
        over(sample(20_512_822), 4),
    ];
    let at_k = [accepted(sample(30_000_000)), over(sample(30_000_001), 2)];
    let both = [accepted(sample(100_000_000)), over(sample(100_000_001), 3)];
    [
        owed("wet value", straight(1_000_000_000, 400_000_000), &steep),
        owed("wet value and K", straight(1_000_000_000, 30_000_001), &at_k),
        owed("wet value and z", straight(300_000_000, 400_000_000), &both),
    ]
}

/// Against 1,000,000,000, R is 40,000,000 and the signal 40,000,000 + V − near(V / 5): V 37,500,000 is
/// 70,000,000, V 75,000,000 is 10^8, V 137,500,000 is 150,000,000 and V −52,500,000 is −2,000,000.
fn bench_reference() -> Owed {
    let reference = Event::Reference { cylinder: 1_000_000_000, e: 0 };
    owed(
        "bench sheet against a reference",
        bench::sheet(),
        &[
            over(sample(70_000_000), 4),
            accepted(reference),
            accepted(sample(0)),
            accepted(sample(37_000_000)),
            over(sample(37_500_000), 4),
            over(sample(70_000_000), 4),
            over(sample(75_000_000), 4),
            over(sample(75_000_001), 3),
            over(sample(137_500_000), 3),
            over(sample(137_500_001), 1),
            over(sample(150_000_000), 1),
            accepted(sample(-52_500_000)),
            refused(sample(-52_500_001), 7),
            accepted(Event::Absolute),
            accepted(sample(37_500_000)),
            over(sample(75_000_000), 4),
            over(sample(137_500_001), 3),
        ],
    )
}

/// Near(V / 10^7) is 1 from V 5,000,000 on: that is R, half of K, and the signal is
/// 5,000,000 + V − near(V / 2). V 9,999,999 is read at 9,999,999, V 10,000,000 and 10,000,001 at K,
/// V 150,000,000 at 80,000,000, and V −14,000,002 at −2,000,001. A cylinder of 2 would need
/// V 15,000,000, above K: it has no signal.
fn narrow_reference() -> Owed {
    let [faint, strong] = [1, 2].map(|cylinder| Event::Reference { cylinder, e: 0 });
    owed(
        "K against a reference",
        flat(10_000_000),
        &[
            accepted(sample(9_999_999)),
            accepted(faint),
            accepted(sample(9_999_999)),
            over(sample(10_000_000), 2),
            over(sample(10_000_001), 2),
            over(sample(150_000_000), 2),
            accepted(sample(-14_000_001)),
            refused(sample(-14_000_002), 7),
            accepted(strong),
            refused(sample(0), 9),
            refused(sample(150_000_000), 9),
        ],
    )
}

/// The wet value is 10 z T / 28,000, and R belongs to each P and T: 40,000,000; 32,000,000 at P 81,040,
/// where z is 5/4 of the signal; 35,555,556 at T 31,500, 9/8 of T0. The signal is R + V − near(V R / K),
/// and z 10^8 at V 66,666,667, whose share is 6,666,666.7, at V 52,173,913, whose share is 4,173,913.04,
/// and at V 70,731,707, whose share is 6,287,262.9. One more is one unit of signal more.
fn moving_room() -> Owed {
    let [room, thin, warm] = [[101_300, 28_000, 0], [81_040, 28_000, 0], [101_300, 31_500, 0]];
    let sheet = SheetRecord { t0: 28_000, ..straight(100_000_000, 400_000_000) };
    let rows = [(room, 66_666_667), (thin, 52_173_913), (room, 66_666_667), (warm, 70_731_707)];
    let rows =
        rows.map(|(air, raw)| [accepted(sample_in(raw, air)), over(sample_in(raw + 1, air), 3)]);
    let reference = accepted(Event::Reference { cylinder: 400_000_000, e: 0 });
    owed("a room that moves", sheet, &[&[reference], &rows.concat()[..], &rows[0]].concat())
}

/// The same line with K 35,000,000: R is 32,000,000 at P 81,040, and at P 101,300 it would be above K.
/// V K is read at K, whatever R is.
fn no_signal_in_one_room() -> Owed {
    let [room, thin] = [[101_300, 28_000, 0], [81_040, 28_000, 0]];
    owed(
        "no reference signal in one room",
        SheetRecord { t0: 28_000, ..straight(100_000_000, 35_000_000) },
        &[
            accepted(Event::Reference { cylinder: 400_000_000, e: 0 }),
            accepted(sample_in(0, thin)),
            over(sample_in(35_000_000, thin), 2),
            refused(sample_in(35_000_000, room), 9),
            refused(sample_in(35_000_000, room), 9),
            over(sample_in(35_000_000, thin), 2),
        ],
    )
}

/// R is that of dry air, 40,000,000, whatever the sample's e: V 40,000,000 is read at 72,000,000. D is
/// 1.057 times 10,130,000: z 68,117,313, h2 39,058,657, h1 416,057,076, f 2,834,069,007, and the wet value
/// 1.057 times that, 2,995,610,940. V 41,000,000 is read at 72,800,000: 3,069,391,146. With the
/// sample's own e R would be 40,928,557, and V 40,000,000 would be over range.
fn damp_sample() -> Owed {
    let damp = [101_300, 29_815, 10_130];
    owed(
        "a damp sample against a dry reference",
        bench::sheet(),
        &[
            accepted(Event::Reference { cylinder: 1_000_000_000, e: 0 }),
            accepted(sample_in(40_000_000, damp)),
            over(sample_in(41_000_000, damp), 4),
        ],
    )
}

/// The sheet that is loaded, and no other: K 10,000,000 and K 400,000,000.
fn two_sheets() -> Owed {
    let load = |index| accepted(Event::Load { index });
    let raw = sample(20_000_000);
    let rows = [over(raw, 2), load(1), accepted(raw), load(0), over(raw, 2)];
    let mut owed = owed("two sheets", flat(10_000_000), &rows);
    owed.session.sheets.push(flat(400_000_000));
    owed
}

/// A reference's e above a tenth of the sample's P is 6, and at a tenth it passes. There D is 6,343,057,
/// R about 5,000,000 D / 10,130,000, which is 3,130,828, and the signal V and 2.3 or 2.0 million more.
fn damp_reference() -> Owed {
    let reference = Event::Reference { cylinder: 1, e: 6_001 };
    owed(
        "a damp reference",
        flat(400_000_000),
        &[
            accepted(reference),
            refused(sample_in(150_000_000, [60_009, 29_815, 0]), 6),
            over(sample_in(100_000_000, [60_010, 29_815, 0]), 3),
            over(sample_in(150_000_000, [60_010, 29_815, 0]), 1),
        ],
    )
}

/// Over range, and refused before that is looked at.
fn refused_before() -> Owed {
    let raw = 150_000_000;
    let spoilt = EventRecord::of(&sample(raw));
    let malformed = [
        EventRecord { padding: [1, 0, 0], ..spoilt },
        EventRecord { padding: [0, 0, 128], ..spoilt },
        EventRecord { c: 1, ..spoilt },
        EventRecord { kind: 0, ..spoilt },
        EventRecord { kind: 10, ..spoilt },
    ];
    let malformed = malformed.map(|record| (record, 11, 0));
    let airs = [
        [59_999, 29_815, 0],
        [115_001, 29_815, 0],
        [101_300, 27_314, 0],
        [101_300, 32_316, 0],
        [101_300, 29_815, 10_131],
    ];
    let outside = airs.map(|air| refused(sample_in(raw, air), 6));
    let signals = [150_000_001, i32::MAX, -150_000_001, i32::MIN];
    let signals = signals.map(|raw| refused(sample(raw), 6));
    let within = over(sample(raw), 2);
    let rows = [&[within], &malformed[..], &outside, &signals, &[within]].concat();
    let mut owed = owed("refused before", flat(10_000_000), &rows);
    // And before any sheet is loaded.
    owed.session.events.insert(0, spoilt);
    owed.refusals.insert(0, 1);
    owed.grounds.insert(0, 0);
    owed
}

/// No other kind has a ground: neither where its signal would be over range, nor while samples are.
fn other_kinds() -> Owed {
    let span = |raw| Event::Span { raw, cylinder: 1, p: 101_300, t: 29_815, e: 0 };
    owed(
        "other kinds",
        flat(10_000_000),
        &[
            accepted(Event::Start),
            over(sample(150_000_000), 2),
            refused(Event::Stop, 10),
            refused(Event::Area, 10),
            refused(span(150_000_000), 5),
            refused(Event::Zero { raw: 150_000_000 }, 3),
            refused(Event::Reference { cylinder: 3_000_000_001, e: 0 }, 4),
            refused(Event::Load { index: 1 }, 1),
            over(sample(150_000_000), 2),
            accepted(Event::Start),
            accepted(sample(5_000_000)),
            accepted(Event::Area),
            accepted(Event::StartShort),
            over(sample(150_000_000), 2),
            refused(Event::Area, 10),
            accepted(Event::StartShort),
            accepted(sample(5_000_000)),
            accepted(Event::Area),
            accepted(Event::Stop),
            accepted(span(5_000_000)),
            accepted(Event::Zero { raw: 0 }),
            accepted(Event::Reference { cylinder: 0, e: 0 }),
            refused(span(150_000_000), 10),
            over(sample(150_000_000), 2),
            accepted(Event::Absolute),
            accepted(Event::Load { index: 0 }),
        ],
    )
}

/// As many events as a file may have: the bench sheet's, loaded again and again.
pub fn longest() -> Owed {
    let Owed { mut session, mut refusals, mut grounds, .. } = bench_sheet();
    session.events = session.events.repeat(EVENTS_LIMIT);
    session.events.truncate(EVENTS_LIMIT);
    for bytes in [&mut refusals, &mut grounds] {
        *bytes = bytes.repeat(EVENTS_LIMIT);
        bytes.truncate(EVENTS_LIMIT);
    }
    Owed { name: "as many as there can be", session, refusals, grounds }
}

/// All of them, and a session without an event.
pub fn owed_grounds() -> Vec<Owed> {
    let nothing = Owed {
        name: "no event",
        session: Session::default(),
        refusals: Vec::new(),
        grounds: Vec::new(),
    };
    let mut all = vec![bench_sheet(), signal_by_zero(), signal_by_span(), reduced()];
    all.extend(around_k().into_iter().chain(high_k()).chain(wet()));
    all.extend([bench_reference(), narrow_reference(), damp_reference(), damp_sample()]);
    all.extend([moving_room(), no_signal_in_one_room(), two_sheets()]);
    all.extend([refused_before(), other_kinds(), longest(), nothing]);
    all
}

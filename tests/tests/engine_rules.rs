//! The engine's refusals in their order, what each event leaves behind, and how an
//! integration runs and closes. The expected numbers are document 01's words, and document 02's.

use irga_tests::bench;
use irga_tests::engine::{
    step, Answer, Entry, Event, Integration, Mode, SheetRecord, State, Tally,
};

const LOAD: Event = Event::Load { index: 0 };

/// Kind 7, and kind 10.
const STARTS: [Event; 2] = [Event::Start, Event::StartShort];

fn good(raw: i32) -> Event {
    Event::Sample { raw, p: 101_300, t: 29_815, e: 0 }
}

fn walk(state: State, entries: &[Entry]) -> (Vec<Answer>, State) {
    let bad = SheetRecord { rest: 1, ..bench::sheet() };
    let sheets = [bench::sheet(), bad];
    let mut state = state;
    let mut answers = Vec::new();
    for entry in entries {
        let (answer, next) = step(&sheets, &state, entry);
        answers.push(answer);
        state = next;
    }
    (answers, state)
}

fn after(events: &[Event]) -> State {
    let entries: Vec<Entry> = events.iter().map(|event| Entry::Known(*event)).collect();
    let (answers, state) = walk(State::fresh(), &entries);
    assert!(answers.iter().all(|answer| answer.refusal == 0), "{answers:?}");
    state
}

/// The refusal of one event at a state; a refused one has zero fields.
fn refusal(state: &State, event: Event) -> u8 {
    let (answers, _) = walk(*state, &[Entry::Known(event)]);
    let answer = answers[0];
    if answer.refusal != 0 {
        assert_eq!((answer.m, answer.x, answer.y), (0, 0, 0));
    }
    answer.refusal
}

fn span(raw: i32, cylinder: u32, p: u32) -> Event {
    Event::Span { raw, cylinder, p, t: 29_815, e: 0 }
}

#[test]
fn without_a_sheet_everything_but_a_load_is_refused_with_1() {
    let all = [
        Event::Zero { raw: 99_999_999 },
        span(0, 0, 0),
        Event::Reference { cylinder: u32::MAX, e: u32::MAX },
        Event::Absolute,
        Event::Sample { raw: i32::MIN, p: 0, t: 0, e: 9 },
        Event::Start,
        Event::Stop,
        Event::Area,
        Event::StartShort,
    ];
    for event in all {
        assert_eq!(refusal(&State::fresh(), event), 1, "{event:?}");
    }
    assert_eq!(refusal(&State::fresh(), Event::Load { index: 2 }), 1);
    assert_eq!(refusal(&State::fresh(), Event::Load { index: u32::MAX }), 1);
    assert_eq!(refusal(&State::fresh(), Event::Load { index: 1 }), 2);
}

#[test]
fn span_refusals_come_in_order() {
    let absolute = after(&[LOAD]);
    let against = after(&[LOAD, Event::Reference { cylinder: 5, e: 0 }]);
    assert_eq!(refusal(&against, span(150_000_001, 0, 0)), 10);
    assert_eq!(refusal(&absolute, span(150_000_001, 0, 0)), 6);
    assert_eq!(refusal(&absolute, span(-150_000_001, 5, 101_300)), 6);
    assert_eq!(refusal(&absolute, span(1, 0, 59_999)), 6);
    assert_eq!(refusal(&absolute, span(-1, 0, 101_300)), 4);
    assert_eq!(refusal(&absolute, span(1, 3_000_000_001, 101_300)), 4);
    assert_eq!(refusal(&absolute, span(-1, 3_000_000_000, 101_300)), 5);
    assert_eq!(refusal(&absolute, span(150_000_000, 1, 101_300)), 5);
}

#[test]
fn reference_limits() {
    let state = after(&[LOAD]);
    let set = |cylinder: u32, e: u32| refusal(&state, Event::Reference { cylinder, e });
    assert_eq!(set(0, 0), 0);
    assert_eq!(set(3_000_000_000, 11_500), 0);
    assert_eq!(set(3_000_000_001, 0), 4);
    assert_eq!(set(0, 11_501), 4);
}

#[test]
fn sample_refusals_come_in_order() {
    let narrow = [SheetRecord { k: 10_000_000, ..bench::sheet() }];
    let wide = [bench::sheet()];
    let answered = |sheets: &[SheetRecord], er: u32, raw: i32, p: u32| {
        let reference = Event::Reference { cylinder: 1_000_000_000, e: er };
        let sample = Event::Sample { raw, p, t: 29_815, e: 0 };
        let mut state = State::fresh();
        let mut last = 0;
        for event in [LOAD, reference, sample] {
            let (answer, next) = step(sheets, &state, &Entry::Known(event));
            last = answer.refusal;
            state = next;
        }
        last
    };
    // K 10,000,000 leaves no reference signal: 9, after 6 and before 7 and 8.
    assert_eq!(answered(&narrow, 6_001, 0, 60_009), 6);
    assert_eq!(answered(&narrow, 6_001, 0, 60_010), 9);
    assert_eq!(answered(&narrow, 0, 150_000_001, 101_300), 6);
    assert_eq!(answered(&narrow, 0, -150_000_000, 101_300), 9);
    assert_eq!(answered(&narrow, 0, 150_000_000, 101_300), 9);
    assert_eq!(answered(&wide, 6_001, 0, 60_009), 6);
    assert_eq!(answered(&wide, 6_001, 0, 60_010), 0);
    assert_eq!(answered(&wide, 0, -150_000_000, 101_300), 7);
    assert_eq!(answered(&wide, 0, 150_000_000, 101_300), 8);
}

#[test]
fn settings_leave_what_they_say() {
    let state = after(&[LOAD, Event::Zero { raw: -7 }, span(40_000_000, 1_000_000_000, 101_300)]);
    assert_eq!((state.q, state.mode), (-7, Mode::Absolute));
    let against = after(&[LOAD, Event::Zero { raw: 3 }, Event::Reference { cylinder: 5, e: 6 }]);
    assert_eq!(against.mode, Mode::Reference { cylinder: 5, e: 6 });
    let back = [Entry::Known(Event::Absolute)];
    assert_eq!(walk(against, &back).1, State { mode: Mode::Absolute, ..against });
    let again = walk(against, &[Entry::Known(LOAD)]).1;
    assert_eq!(again, after(&[LOAD]), "a load starts over");
}

/// All five settings, when accepted, throw the running integration away.
#[test]
fn settings_make_the_integration_idle() {
    let settings = [
        LOAD,
        Event::Zero { raw: 0 },
        span(40_000_000, 1_000_000_000, 101_300),
        Event::Reference { cylinder: 5, e: 0 },
        Event::Absolute,
    ];
    for (start, event) in STARTS.into_iter().flat_map(|start| settings.map(|event| (start, event)))
    {
        let running = after(&[LOAD, start, good(0)]);
        let (answers, state) = walk(running, &[Entry::Known(event)]);
        assert_eq!(answers[0].refusal, 0);
        assert_eq!(state.integration, Integration::Idle, "{start:?}, {event:?}");
    }
}

#[test]
fn refused_events_leave_the_state() {
    let others = [
        Entry::Known(Event::Load { index: 1 }),
        Entry::Known(Event::Load { index: 2 }),
        Entry::Known(Event::Zero { raw: 20_000_001 }),
        Entry::Known(span(-1, 5, 101_300)),
        Entry::Known(Event::Reference { cylinder: 0, e: 11_501 }),
        Entry::Malformed(0),
        Entry::Malformed(5),
        Entry::Malformed(7),
        Entry::Malformed(10),
        Entry::Malformed(11),
        Entry::Malformed(255),
    ];
    for (start, entry) in STARTS.into_iter().flat_map(|start| others.map(|entry| (start, entry))) {
        let running = after(&[LOAD, start, good(10)]);
        let (answers, state) = walk(running, &[entry]);
        assert_ne!(answers[0].refusal, 0);
        assert_eq!(state, running, "{start:?}, {entry:?}");
    }
}

#[test]
fn a_refused_sample_closes_a_running_integration() {
    let closing = [
        (Entry::Malformed(6), 11),
        (Entry::Known(Event::Sample { raw: 0, p: 0, t: 0, e: 0 }), 6),
        (Entry::Known(good(-2_000_001)), 7),
        (Entry::Known(good(100_000_000)), 8),
    ];
    for start in STARTS {
        let running = after(&[LOAD, start, good(10)]);
        let tally = Tally { n: 1, first: 150, last: 150, sum: 150 };
        let closed = State { integration: Integration::Closed(tally), ..running };
        for (entry, number) in closing {
            let (answers, state) = walk(running, &[entry]);
            assert_eq!(answers[0].refusal, number);
            assert_eq!(state, closed, "{start:?}");
        }
    }
}

#[test]
fn stop_and_area_wait_for_their_time() {
    let loaded = after(&[LOAD]);
    assert_eq!(refusal(&loaded, Event::Stop), 10);
    assert_eq!(refusal(&loaded, Event::Area), 10);
    for start in STARTS {
        let empty = after(&[LOAD, start]);
        assert_eq!(refusal(&empty, Event::Area), 10);
        let closed_empty = after(&[LOAD, start, Event::Stop]);
        assert_eq!(refusal(&closed_empty, Event::Area), 10);
        assert_eq!(refusal(&closed_empty, Event::Stop), 10);
        // Readings of 15 and 30: twice the second, less both.
        let running = after(&[LOAD, start, good(1), good(2)]);
        let (answers, state) = walk(running, &[Entry::Known(Event::Area)]);
        assert_eq!(answers[0], Answer { kind: 9, refusal: 0, m: 2, x: 15, y: 0 });
        assert_eq!(state, running, "an area leaves the state");
        let restarted = after(&[LOAD, Event::Start, good(1), Event::Stop, start]);
        assert_eq!(restarted, empty, "a start takes whatever stood before");
    }
}

#[test]
fn a_closed_integration_counts_no_more() {
    for start in STARTS {
        let closed = after(&[LOAD, start, good(1), Event::Stop]);
        let (answers, state) = walk(closed, &[Entry::Known(good(2)), Entry::Known(Event::Area)]);
        assert_eq!(answers[1].m, 1);
        assert_eq!(state, closed);
    }
}

/// So many samples that are accepted, from a state on.
fn read(state: State, samples: u32) -> State {
    let entry = Entry::Known(good(1));
    (0..samples).fold(state, |state, _| {
        let (answer, next) = step(&[bench::sheet()], &state, &entry);
        assert_eq!(answer.refusal, 0);
        next
    })
}

/// Whether an integration runs, and how many readings it has.
fn standing(state: &State) -> (bool, u64) {
    match state.integration {
        Integration::Idle => panic!("no integration"),
        Integration::Running { tally, .. } => (true, tally.n),
        Integration::Closed(tally) => (false, tally.n),
    }
}

/// Whatever a start can meet: no sheet, no integration in either mode, one that runs with readings
/// and without, and one that was closed by a stop, by a refused sample, or at its limit.
fn met_by_a_start() -> Vec<State> {
    let against = Event::Reference { cylinder: 5, e: 6 };
    let mut states = vec![State::fresh(), after(&[LOAD]), after(&[LOAD, against])];
    for start in STARTS {
        let empty = after(&[LOAD, Event::Zero { raw: -7 }, start]);
        let running = read(empty, 2);
        let stopped = walk(running, &[Entry::Known(Event::Stop)]).1;
        let refused = walk(running, &[Entry::Malformed(6)]).1;
        states.extend([empty, running, stopped, refused, after(&[LOAD, against, start, good(1)])]);
    }
    states.push(read(after(&[LOAD, Event::StartShort]), 6_000));
    states
}

/// Document 02's R-10: kind 10 is accepted and refused as kind 7 is, and begins anew whatever stood
/// before. Nothing else of the state moves.
#[test]
fn a_short_start_is_accepted_and_refused_as_a_start_is() {
    for state in met_by_a_start() {
        for (start, kind, limit) in [(Event::Start, 7, 600_000), (Event::StartShort, 10, 6_000)] {
            let (answers, next) = walk(state, &[Entry::Known(start)]);
            let refusal = if state.sheet.is_none() { 1 } else { 0 };
            assert_eq!(answers, [Answer { kind, refusal, m: 0, x: 0, y: 0 }]);
            let begun = Integration::Running { tally: Tally::default(), limit };
            let integration = if refusal == 0 { begun } else { state.integration };
            assert_eq!(next, State { integration, ..state });
        }
    }
}

/// The 6,000th reading is counted and closes it; the next one is answered and not counted. Kind 7
/// counts its 6,000th and its 6,001st and runs on.
#[test]
fn a_short_integration_closes_at_its_6000th() {
    let short = read(after(&[LOAD, Event::StartShort]), 5_999);
    assert_eq!(standing(&short), (true, 5_999));
    let closed = read(short, 1);
    assert_eq!(standing(&closed), (false, 6_000));
    assert_eq!(read(closed, 1), closed);
    assert_eq!(refusal(&closed, Event::Stop), 10);
    let (answers, state) = walk(closed, &[Entry::Known(Event::Area)]);
    assert_eq!((answers[0], state), (Answer { kind: 9, refusal: 0, m: 6_000, x: 0, y: 0 }, closed));
    let long = read(after(&[LOAD, Event::Start]), 6_000);
    assert_eq!(standing(&long), (true, 6_000));
    assert_eq!(standing(&read(long, 1)), (true, 6_001));
}

/// Each start has its own limit, whichever start, and whichever integration, stood before.
#[test]
fn no_limit_passes_from_one_start_to_the_next() {
    for state in met_by_a_start().into_iter().filter(|state| state.sheet.is_some()) {
        let [long, short] = STARTS.map(|start| walk(state, &[Entry::Known(start)]).1);
        assert_eq!(standing(&read(long, 6_001)), (true, 6_001));
        assert_eq!(standing(&read(short, 6_001)), (false, 6_000));
    }
    // A short one after a long one that has counted more than it may, and the other way round.
    let long = read(after(&[LOAD, Event::Start]), 6_001);
    let short = walk(long, &[Entry::Known(Event::StartShort)]).1;
    assert_eq!(standing(&read(short, 5_999)), (true, 5_999));
    let closed = read(short, 6_001);
    assert_eq!(standing(&closed), (false, 6_000));
    for before in [short, read(short, 5_999), closed] {
        let long = walk(before, &[Entry::Known(Event::Start)]).1;
        let nearly = read(long, 599_999);
        assert_eq!(standing(&nearly), (true, 599_999));
        assert_eq!(standing(&read(nearly, 1)), (false, 600_000));
        assert_eq!(standing(&read(nearly, 2)), (false, 600_000));
    }
}

//! The session file by bytes: header, length, records, the lent output, the program's limit,
//! and plans that become files. The expected bytes are laid out by hand from document 01.

use irga_tests::bench;
use irga_tests::engine::{Entry, Event};
use irga_tests::file::{self, EventRecord, Outcome, Records, Session};
use irga_tests::harness::{Executable, Program};
use irga_tests::hostile;
use irga_tests::plan::{self, Plan, PlannedSheet};

fn word(bytes: &mut Vec<u8>, number: u32) {
    bytes.extend(number.to_le_bytes());
}

/// One bench sheet; a load, and a sample of raw −2.
fn by_hand() -> Vec<u8> {
    let mut bytes = Vec::new();
    for number in [1, 16, 2, 40] {
        word(&mut bytes, number);
    }
    for number in [150_000_000, 5_000_000, 5_000_000, 29_815, 200_000_000, 0] {
        word(&mut bytes, number);
    }
    for number in [1, 0, 0, 0, 0, 0] {
        word(&mut bytes, number);
    }
    bytes.extend([6, 0, 0, 0, 0xFE, 0xFF, 0xFF, 0xFF]);
    for number in [0, 101_300, 29_815, 7] {
        word(&mut bytes, number);
    }
    bytes
}

#[test]
fn reads_and_writes_the_layout() {
    let session = Session::open(&by_hand()).expect("a sound file");
    assert_eq!(session.sheets, [bench::sheet()]);
    let entries: Vec<Entry> = session.events.iter().map(|record| record.entry()).collect();
    let sample = Event::Sample { raw: -2, p: 101_300, t: 29_815, e: 7 };
    assert_eq!(entries, [Entry::Known(Event::Load { index: 0 }), Entry::Known(sample)]);
    assert_eq!(session.to_bytes(), by_hand());
}

#[test]
fn answers_stand_at_the_start_and_the_rest_stays() {
    let mut output = [0xAA; 51];
    let outcome = file::run(&by_hand(), &mut output);
    assert_eq!(outcome, Outcome { status: 0, written: 48 });
    let mut expected = [0u8; 51];
    expected[0] = 1;
    expected[24] = 6;
    // Raw −2 reads −30, wet and dry.
    expected[32..40].copy_from_slice(&(-30i64).to_le_bytes());
    expected[40..48].copy_from_slice(&(-30i64).to_le_bytes());
    expected[48..].fill(0xAA);
    assert_eq!(output, expected);
}

#[test]
fn a_short_output_is_13_and_stays() {
    let mut output = [0xAA; 47];
    assert_eq!(file::run(&by_hand(), &mut output), Outcome { status: 13, written: 0 });
    assert_eq!(output, [0xAA; 47]);
    let mut bad = by_hand();
    bad.pop();
    assert_eq!(file::run(&bad, &mut output[..3]), Outcome { status: 12, written: 0 });
}

#[test]
fn every_header_word_and_the_length_count() {
    let sound = by_hand();
    for at in 0..16 {
        for bit in 0..8 {
            let mut file = sound.clone();
            file[at] ^= 1 << bit;
            let mut output = [0xAA; 96];
            assert_eq!(file::run(&file, &mut output).status, 12, "byte {at} bit {bit}");
            assert_eq!(output, [0xAA; 96]);
        }
    }
    for length in 0..sound.len() {
        assert_eq!(file::program(&sound[..length]), "0 0 12 0 0 0\n");
    }
    let mut longer = sound;
    longer.push(0);
    assert_eq!(file::program(&longer), "0 0 12 0 0 0\n");
}

/// A bit that is set where a kind has no field is refused with 11, and in the last bytes of a
/// sheet with 2; where the kind has a field it is not 11.
#[test]
fn bits_that_must_be_zero() {
    for spoilt in hostile::bits_that_must_be_zero() {
        let mut output = vec![0; 24 * spoilt.owed.len()];
        assert_eq!(file::run(&spoilt.file, &mut output).status, 0);
        assert_eq!(spoilt.check_answers(&output), Ok(()));
        assert_eq!(spoilt.check_lines(&file::program(&spoilt.file)), Ok(()));
    }
}

#[test]
fn bits_that_must_be_zero_in_the_program_under_test() {
    for spoilt in hostile::bits_that_must_be_zero() {
        let printed = Executable::under_test().print(&spoilt.file).expect("the program runs");
        assert_eq!(spoilt.check_lines(&String::from_utf8_lossy(&printed)), Ok(()));
        assert_eq!(printed, file::program(&spoilt.file).as_bytes());
    }
}

#[test]
fn headers_whose_sums_wrap() {
    for file in hostile::wrapping_headers() {
        let mut output = [0xAA; 96];
        assert_eq!(file::run(&file, &mut output), Outcome { status: 12, written: 0 });
        let printed = Executable::under_test().print(&file);
        assert_eq!(printed.as_deref(), Ok("0 0 12 0 0 0\n".as_bytes()), "{:?}", &file[..16]);
    }
}

#[test]
fn records_come_back_as_they_were() {
    let bytes: Vec<u8> = (100..124).collect();
    assert_eq!(EventRecord::from_bytes(&bytes).to_bytes().to_vec(), bytes);
}

#[test]
fn counts_at_their_limits() {
    let full = Session {
        sheets: vec![bench::sheet(); 16],
        events: vec![EventRecord { kind: 1, ..EventRecord::default() }; 2_700],
    };
    let bytes = full.to_bytes();
    assert_eq!(bytes.len(), 65_200);
    assert_eq!(file::program(&bytes).lines().count(), 2_700);
    let mut more_sheets = full.clone();
    more_sheets.sheets.push(bench::sheet());
    more_sheets.events.truncate(4);
    assert_eq!(file::program(&more_sheets.to_bytes()), "0 0 12 0 0 0\n");
    let mut more_events = full;
    more_events.sheets.truncate(1);
    more_events.events.push(EventRecord { kind: 1, ..EventRecord::default() });
    assert_eq!(file::program(&more_events.to_bytes()), "0 0 12 0 0 0\n");
}

#[test]
fn an_empty_session_prints_nothing() {
    let empty = Session::default();
    assert_eq!(file::program(&empty.to_bytes()), "");
    assert_eq!(file::run(&empty.to_bytes(), &mut []), Outcome { status: 0, written: 0 });
}

#[test]
fn too_long_an_input_is_refused() {
    for length in [65_536, 65_537, 200_000] {
        assert_eq!(file::program(&vec![0; length]), "0 0 12 0 0 0\n");
    }
}

#[test]
fn a_malformed_event_keeps_its_kind_in_the_line() {
    let record = EventRecord { kind: 200, padding: [0, 0, 9], ..EventRecord::default() };
    let session = Session { sheets: vec![], events: vec![record] };
    assert_eq!(file::program(&session.to_bytes()), "1 200 11 0 0 0\n");
}

/// One bench sheet; a load, a short start, a sample of raw −2, and an area.
fn short_by_hand() -> Vec<u8> {
    let mut bytes = Vec::new();
    for number in [1, 16, 4, 40] {
        word(&mut bytes, number);
    }
    bytes.extend(&by_hand()[16..64]);
    bytes.extend([10, 0, 0, 0, 0, 0, 0, 0, 0, 0, 0, 0, 0, 0, 0, 0, 0, 0, 0, 0, 0, 0, 0, 0]);
    bytes.extend(&by_hand()[64..]);
    for number in [9, 0, 0, 0, 0, 0] {
        word(&mut bytes, number);
    }
    bytes
}

/// Kind 10 as bytes, as an event and as answers; kind 11 is still none.
#[test]
fn a_short_start_by_bytes() {
    let file = short_by_hand();
    let session = Session::open(&file).expect("a sound file");
    assert_eq!(session.events[1].entry(), Entry::Known(Event::StartShort));
    assert_eq!(session.to_bytes(), file);
    let lines = "1 1 0 0 0 0\n2 10 0 0 0 0\n3 6 0 0 -30 -30\n4 9 0 1 0 0\n";
    assert_eq!(file::program(&file), lines);
    let mut output = [0xAA; 96];
    assert_eq!(file::run(&file, &mut output), Outcome { status: 0, written: 96 });
    let mut answer = [0; 24];
    answer[0] = 10;
    assert_eq!(output[24..48], answer);
    let plan = Plan::of(&session).expect("a plan");
    assert_eq!(plan.events[1], Event::StartShort);
    assert_eq!(written(&plan, file.len()), (Outcome { status: 0, written: file.len() }, file));
    let mut unknown = short_by_hand();
    unknown[64] = 11;
    let lines = "1 1 0 0 0 0\n2 11 11 0 0 0\n3 6 0 0 -30 -30\n4 9 10 0 0 0\n";
    assert_eq!(file::program(&unknown), lines);
}

/// Kind 10 has no field: with any other byte that is not zero it is refused with 11, begins nothing
/// and closes nothing, and no plan makes it.
#[test]
fn a_short_start_with_another_byte() {
    for at in 1..24 {
        let mut file = short_by_hand();
        file[64 + at] = 1;
        let lines = "1 1 0 0 0 0\n2 10 11 0 0 0\n3 6 0 0 -30 -30\n4 9 10 0 0 0\n";
        assert_eq!(file::program(&file), lines, "byte {at}");
        let session = Session::open(&file).expect("a sound header");
        assert_eq!(session.events[1].entry(), Entry::Malformed(10));
        assert_eq!(Plan::of(&session), None);
        let records = Records::of_file(&file).expect("a sound header");
        let outcome = plan::write_records(&records, &mut [0; 200]);
        assert_eq!(outcome, Outcome { status: 11, written: 0 }, "byte {at}");
    }
}

/// The plan that `by_hand` is the file of.
fn planned_by_hand() -> Plan {
    let sample = Event::Sample { raw: -2, p: 101_300, t: 29_815, e: 7 };
    let Plan { sheets, .. } = Plan::of(&Session { sheets: vec![bench::sheet()], events: vec![] })
        .expect("the bench sheet's last bytes are zero");
    Plan { sheets, events: vec![Event::Load { index: 0 }, sample] }
}

/// What both writers make of a plan and of a lent buffer of so many bytes 0xAA.
fn written(plan: &Plan, room: usize) -> (Outcome, Vec<u8>) {
    let mut out = vec![0xAA; room];
    let outcome = plan.write(&mut out);
    let mut by_records = vec![0xAA; room];
    let records = plan.session().records();
    assert_eq!(plan::write_records(&records, &mut by_records), outcome);
    assert_eq!(by_records, out);
    (outcome, out)
}

#[test]
fn a_plan_stands_at_the_start_and_the_rest_stays() {
    for spare in [0, 1, 300] {
        let (outcome, out) = written(&planned_by_hand(), 88 + spare);
        assert_eq!(outcome, Outcome { status: 0, written: 88 });
        assert_eq!(out, [by_hand(), vec![0xAA; spare]].concat());
    }
    let (outcome, out) = written(&Plan::default(), 17);
    assert_eq!(outcome, Outcome { status: 0, written: 16 });
    assert_eq!(out, [0, 0, 0, 0, 16, 0, 0, 0, 0, 0, 0, 0, 16, 0, 0, 0, 0xAA]);
}

/// 14 before 15, and the buffer stays.
#[test]
fn a_plan_that_is_turned_away() {
    let mut plan = planned_by_hand();
    for room in [0, 16, 87] {
        assert_eq!(written(&plan, room), (Outcome { status: 15, written: 0 }, vec![0xAA; room]));
    }
    plan.sheets = plan.sheets.repeat(17);
    for room in [0, 87, 100_000] {
        assert_eq!(written(&plan, room), (Outcome { status: 14, written: 0 }, vec![0xAA; room]));
    }
    plan.sheets.truncate(16);
    plan.events = plan.events.repeat(1_350);
    assert_eq!(written(&plan, 65_200).0, Outcome { status: 0, written: 65_200 });
    plan.events.push(Event::Stop);
    assert_eq!(written(&plan, 65_224).0, Outcome { status: 14, written: 0 });
}

/// A sheet of K 0, a pressure of 0, an index that no sheet has, the ends of every width.
#[test]
fn numbers_outside_their_limits_are_written_as_given() {
    let plan = Plan {
        sheets: vec![PlannedSheet { a1: i32::MIN, a2: -1, a3: i32::MAX, t0: u32::MAX, k: 0 }],
        events: vec![
            Event::Load { index: u32::MAX },
            Event::Span { raw: i32::MIN, cylinder: u32::MAX, p: 0, t: 0, e: 1 << 31 },
        ],
    };
    let mut expected = Vec::new();
    for number in [1, 16, 2, 40, 1 << 31, u32::MAX, (1 << 31) - 1, u32::MAX, 0, 0] {
        word(&mut expected, number);
    }
    for number in [1, 0, u32::MAX, 0, 0, 0, 3, 1 << 31, u32::MAX, 0, 0, 1 << 31] {
        word(&mut expected, number);
    }
    assert_eq!(written(&plan, 88), (Outcome { status: 0, written: 88 }, expected.clone()));
    assert_eq!(Session::open(&expected).and_then(|session| Plan::of(&session)), Some(plan));
}

#[test]
fn plans_that_are_owed_a_status() {
    for plan in hostile::plans() {
        assert_eq!(plan.check(plan::write_records), Ok(()));
    }
}

/// A file whose sheet has a last byte that is not zero, or with an event that is none, is
/// nobody's plan.
#[test]
fn a_file_that_no_plan_makes() {
    let sound = by_hand();
    assert_eq!(Session::open(&sound).and_then(|file| Plan::of(&file)), Some(planned_by_hand()));
    for at in [36, 39, 41, 43, 44, 72] {
        let mut file = sound.clone();
        file[at] = 1;
        assert_eq!(Plan::of(&Session::open(&file).expect("a sound header")), None, "byte {at}");
        let records = Records::of_file(&file).expect("a sound header");
        let mut out = vec![0xAA; 88];
        let outcome = plan::write_records(&records, &mut out);
        assert_eq!((outcome, out), (Outcome { status: 11, written: 0 }, vec![0xAA; 88]));
    }
}

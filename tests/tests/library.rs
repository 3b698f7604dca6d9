//! The proved library's nine functions beside this implementation: every status, every
//! length and every byte of a lent output, every double, every word. The archive's folder is named by
//! IRGA_LIBRARY when the tests are built.

use std::path::Path;
use std::thread;

use irga_tests::engine::Answer;
use irga_tests::file::{self, Outcome, Session, LINE_ROOM, RECORD_BYTES};
use irga_tests::grounds;
use irga_tests::harness::recorders::every_word;
use irga_tests::harness::{check_grounds, check_page, Campaign, Count};
use irga_tests::hostile::{self, OwedPlan};
use irga_tests::lesson;
use irga_tests::library;
use irga_tests::page::{self, by_hand};
use irga_tests::random::Random;
use irga_tests::recorder;
use irga_tests::sessions::{self, PROFILES};

type Run = fn(&[u8], &mut [u8]) -> Outcome;

fn campaign(seed: u64) -> Campaign {
    Campaign::from_environment(seed, Path::new(env!("CARGO_TARGET_TMPDIR")))
}

/// Agreement says little unless the runs end in every way and are refused in every way.
fn assert_wide(count: &Count) {
    for status in [0, 12, 13] {
        assert!(count.statuses[status] > 0, "no run ended with status {status}");
    }
    for number in 0..=11 {
        assert!(count.refused_with(number) > 0, "no event was answered with {number}");
    }
}

#[test]
fn runs_write_the_same_bytes() {
    let count = campaign(0x6262).against_engine(&mut library::run);
    assert_wide(&count.unwrap_or_else(|why| panic!("{why}")));
}

#[test]
fn lines_are_the_same_bytes() {
    let count = campaign(0x6263).against_lines(&mut library::lines);
    assert_wide(&count.unwrap_or_else(|why| panic!("{why}")));
}

/// A comparison that could not fail would be worth nothing: engines that lose a minus
/// sign, the last line feed, or a byte behind the text.
#[test]
fn wrong_lines_are_caught() {
    let wrong: [(&str, Run); 3] = [
        (": line ", |file, output| {
            let outcome = file::lines(file, output);
            let minus = output[..outcome.written].iter().position(|byte| *byte == b'-');
            minus.into_iter().for_each(|at| output[at] = b'0');
            outcome
        }),
        ("expected Outcome", |file, output| {
            let outcome = file::lines(file, output);
            Outcome { written: outcome.written.saturating_sub(1), ..outcome }
        }),
        ("after the lines was touched", |file, output| {
            let outcome = file::lines(file, output);
            output[outcome.written..].iter_mut().take(1).for_each(|byte| *byte ^= 1);
            outcome
        }),
    ];
    for (says, mut engine) in wrong {
        let few = Campaign { sessions: 400, ..campaign(0x6264) };
        let message = few.against_lines(&mut engine).expect_err("passed");
        assert!(message.contains(says), "{message}");
    }
}

/// Both calls into outputs of one length, full of the same old bytes.
fn assert_same(
    what: &str,
    length: usize,
    ours: impl Fn(&mut [u8]) -> Outcome,
    theirs: impl Fn(&mut [u8]) -> Outcome,
) {
    let old: Vec<u8> = (0..length).map(|at| (at * 151 + 90) as u8).collect();
    let (mut expected, mut given) = (old.clone(), old);
    assert_eq!(theirs(&mut given), ours(&mut expected), "{what}, output of {length} bytes");
    assert!(expected == given, "{what}, an output of {length} bytes has other bytes");
}

fn assert_same_page(file: &[u8], every: u32, length: usize) {
    let what = format!("page, N {every}");
    let theirs = |out: &mut [u8]| library::page(file, every, out);
    assert_same(&what, length, |out| page::page(file, every, out), theirs);
}

/// No room at all, a byte short of enough, enough, a byte more, and plenty.
fn assert_same_at_each_length(file: &[u8]) {
    let events = Session::open(file).map_or(2, |session| session.events.len());
    let lengths = |room: usize| {
        let enough = room * events;
        [0, enough.saturating_sub(1), enough, enough + 1, enough + 1_000]
    };
    let functions: [(&str, usize, Run, Run); 3] = [
        ("run", RECORD_BYTES, file::run, library::run),
        ("lines", LINE_ROOM, file::lines, library::lines),
        ("grounds", 1, grounds::grounds, library::grounds),
    ];
    for (name, room, ours, theirs) in functions {
        for length in lengths(room) {
            assert_same(name, length, |out| ours(file, out), |out| theirs(file, out));
        }
    }
    for length in lengths(2 * page::LINE_BYTES) {
        assert_same_page(file, 3, length);
    }
}

#[test]
fn outputs_of_every_length() {
    for number in 0..400 {
        assert_same_at_each_length(&sessions::make(0x6265, number).file);
    }
}

/// Each profile for itself, so that none hides behind the others, and the ends of a file:
/// no bytes, no events, no sheets, all events.
#[test]
fn every_profile_and_the_ends_of_a_file() {
    let mut random = Random::new(0x6266);
    for profile in PROFILES {
        for _ in 0..5 {
            assert_same_at_each_length(&sessions::session(&mut random, &profile).to_bytes());
        }
    }
    assert_same_at_each_length(&[]);
    assert_same_at_each_length(&Session::default().to_bytes());
    let mut lessons = lesson::session();
    lessons.events = lessons.events.repeat(9);
    for events in [2_701, 2_700] {
        lessons.events.truncate(events);
        assert_same_at_each_length(&lessons.to_bytes());
        lessons.sheets.clear();
        assert_same_at_each_length(&lessons.to_bytes());
        lessons.sheets = lesson::session().sheets;
    }
}

/// Each by itself: 11 for an event, 2 for a sheet.
#[test]
fn bits_that_must_be_zero() {
    for spoilt in hostile::bits_that_must_be_zero() {
        let mut output = vec![0; LINE_ROOM * spoilt.owed.len()];
        let written = library::run(&spoilt.file, &mut output).written;
        assert_eq!(spoilt.check_answers(&output[..written]), Ok(()));
        let written = library::lines(&spoilt.file, &mut output).written;
        assert_eq!(spoilt.check_lines(&String::from_utf8_lossy(&output[..written])), Ok(()));
        assert_same_at_each_length(&spoilt.file);
    }
}

#[test]
fn headers_whose_sums_wrap() {
    for file in hostile::wrapping_headers() {
        assert_eq!(library::run(&file, &mut [0; 96]), Outcome { status: 12, written: 0 });
        assert_same_at_each_length(&file);
    }
}

/// No state is kept between calls, so threads may call at once.
#[test]
fn threads_do_not_disturb_each_other() {
    thread::scope(|scope| {
        for thread in 0..4 {
            scope.spawn(move || {
                for number in 0..60 {
                    assert_same_at_each_length(&sessions::make(0x6270 + thread, number).file);
                }
                let plans = Campaign { sessions: 60, ..campaign(0x6280 + thread) };
                let met = plans.against_writer(library::write, &mut library::run);
                assert!(met.is_ok(), "{met:?}");
            });
        }
    });
}

/// Old doubles that no function may touch unless it accepts: NaNs of several kinds, whose
/// bits would not survive arithmetic.
const OLD: [u64; 3] = [0x7FF8_0000_DEAD_BEEF, 0xFFF0_0000_0000_0001, 0x7FF4_1234_5678_9ABC];

/// What `reading` makes of the old doubles: its status and their bits.
fn reading(answer: &[u8]) -> (u8, [u64; 3]) {
    let mut doubles = OLD.map(f64::from_bits);
    let status = library::reading(answer, &mut doubles);
    (status, doubles.map(f64::to_bits))
}

fn area(answer: &[u8]) -> (u8, u64) {
    let mut double = f64::from_bits(OLD[0]);
    let status = library::area(answer, &mut double);
    (status, double.to_bits())
}

fn bits(number: i64) -> u64 {
    (number as f64).to_bits()
}

/// What both functions owe to an answer of the engine: a refusal is handed on whatever the
/// kind, and an accepted event of another kind is 11.
fn assert_doubles(answer: &Answer, bytes: &[u8]) {
    let expected_reading = match (answer.kind, answer.refusal) {
        (6, 0) => (0, [bits(answer.x), bits(answer.y), bits(i64::from(answer.m))]),
        (_, 0) => (11, OLD),
        (_, refusal) => (refusal, OLD),
    };
    assert_eq!(reading(bytes), expected_reading, "{answer:?}");
    let expected_area = match (answer.kind, answer.refusal) {
        (9, 0) => (0, bits(answer.x)),
        (_, 0) => (11, OLD[0]),
        (_, refusal) => (refusal, OLD[0]),
    };
    assert_eq!(area(bytes), expected_area, "{answer:?}");
}

/// Every answer of invented sessions, the bytes of the later answers lent along with it.
#[test]
fn doubles_are_the_whole_numbers() {
    let (mut samples, mut areas) = (0, 0);
    for number in 0..1_500 {
        let made = sessions::make(0x6267, number).file;
        let Some(session) = Session::open(&made) else {
            continue;
        };
        let mut output = vec![0; RECORD_BYTES * session.events.len()];
        assert_eq!(library::run(&made, &mut output).status, 0);
        for (i, answer) in session.answers().iter().enumerate() {
            assert_doubles(answer, &output[RECORD_BYTES * i..]);
            samples += u32::from(answer.kind == 6 && answer.refusal == 0);
            areas += u32::from(answer.kind == 9 && answer.refusal == 0);
        }
    }
    assert!(samples > 10_000 && areas > 1_000, "{samples} samples, {areas} areas");
}

fn answer(kind: u8, refusal: u8, m: u32, x: i64, y: i64) -> [u8; RECORD_BYTES] {
    file::answer_to_bytes(&Answer { kind, refusal, m, x, y })
}

/// Every whole number below this in size is a double.
const DOUBLES_END: i64 = 1 << 53;

const HELD: [i64; 7] =
    [0, 1, -1, 1_388_160_000, -4_080_000_000_000_000, DOUBLES_END - 1, 1 - DOUBLES_END];

const NOT_HELD: [i64; 6] =
    [DOUBLES_END, -DOUBLES_END, DOUBLES_END + 1, -DOUBLES_END - 1, i64::MAX, i64::MIN];

#[test]
fn values_that_a_double_holds() {
    for x in HELD {
        assert_eq!(area(&answer(9, 0, 3, x, 0)), (0, bits(x)));
        for (y, m) in HELD.into_iter().zip([0, 1, 40_000_000, 150_000_000, 1 << 31, 7, u32::MAX]) {
            let expected = [bits(x), bits(y), bits(i64::from(m))];
            assert_eq!(reading(&answer(6, 0, m, x, y)), (0, expected));
        }
        // The double is the number: taken back it is the same one.
        assert_eq!(f64::from_bits(area(&answer(9, 0, 3, x, 0)).1) as i64, x);
    }
}

#[test]
fn values_that_a_double_might_not_hold() {
    for large in NOT_HELD {
        assert_eq!(reading(&answer(6, 0, 5, large, 0)), (11, OLD));
        assert_eq!(reading(&answer(6, 0, 5, 0, large)), (11, OLD));
        assert_eq!(reading(&answer(6, 0, 5, large, large)), (11, OLD));
        assert_eq!(area(&answer(9, 0, 5, large, 0)), (11, OLD[0]));
    }
}

#[test]
fn other_kinds_and_refused_answers() {
    for kind in 0..=255 {
        let doubles = reading(&answer(kind, 0, 1, 2, 3));
        let expected = if kind == 6 { (0, [bits(2), bits(3), bits(1)]) } else { (11, OLD) };
        assert_eq!(doubles, expected, "kind {kind}");
        let expected = if kind == 9 { (0, bits(2)) } else { (11, OLD[0]) };
        assert_eq!(area(&answer(kind, 0, 1, 2, 0)), expected, "kind {kind}");
        for refusal in 1..=255 {
            let refused = Answer { kind, refusal, m: 0, x: 0, y: 0 };
            assert_doubles(&refused, &file::answer_to_bytes(&refused));
        }
    }
}

#[test]
fn fewer_bytes_than_an_answer_has() {
    let (sample, whole_area) = (answer(6, 0, 1, 2, 3), answer(9, 0, 1, 2, 0));
    let refused = answer(6, 8, 0, 0, 0);
    for length in 0..RECORD_BYTES {
        assert_eq!(reading(&sample[..length]), (11, OLD), "{length} bytes");
        assert_eq!(reading(&refused[..length]), (11, OLD), "{length} bytes");
        assert_eq!(area(&whole_area[..length]), (11, OLD[0]), "{length} bytes");
    }
    assert_eq!(reading(&sample).0, 0);
    assert_eq!(area(&whole_area).0, 0);
}

/// Plans, records with faults, and session files taken apart and written again.
#[test]
fn plans_are_the_same_files() {
    let campaign = campaign(0x6272);
    let met = campaign.against_writer(library::write, &mut library::run);
    let met = met.unwrap_or_else(|why| panic!("{why}"));
    println!("{met}");
    let rare = met.rarer_than(campaign.sessions / 1_000);
    assert!(rare.is_empty(), "{rare:?}");
}

/// Each bit that must be zero, every length that matters, every order.
#[test]
fn plans_that_are_owed_a_status() {
    for plan in hostile::plans() {
        assert_eq!(plan.check(library::write), Ok(()));
    }
}

/// As many sheets and events as a file may have, most of them accepted, there and back.
#[test]
fn the_longest_plan() {
    let mut lesson = lesson::longest();
    let (file, mut out) = (lesson.to_bytes(), vec![0xA5; 65_200]);
    assert_eq!(library::write(&lesson.records(), &mut out), Outcome { status: 0, written: 65_200 });
    assert!(out == file && Session::open(&out) == Some(lesson.clone()));
    assert_same_at_each_length(&out);
    for (room, status) in [(65_199, 15), (0, 15), (65_200, 0)] {
        let plan = OwedPlan { records: lesson.records(), room, status };
        assert_eq!(plan.check(library::write), Ok(()));
    }
    lesson.sheets.push(lesson.sheets[0]);
    let plan = OwedPlan { records: lesson.records(), room: 100, status: 14 };
    assert_eq!(plan.check(library::write), Ok(()));
}

/// Invented sessions, and such whose figures are hard to round, under every N that matters: a page
/// takes 17 calls, so that a quarter of the sessions is enough.
#[test]
fn pages_are_the_same_bytes() {
    let all = campaign(0x6276);
    let campaign = Campaign { sessions: all.sessions / 4, ..all };
    let met = campaign.against_page(&library::page).unwrap_or_else(|why| panic!("{why}"));
    println!("{met}");
    let rare = met.rarer_than(campaign.sessions / 1_000);
    assert!(rare.is_empty(), "{rare:?}");
}

#[test]
fn pages_worked_out_by_hand() {
    for owed in by_hand::pages() {
        assert_eq!(check_page(&owed, &library::page), Ok(()));
    }
}

/// More samples than lines under any header, every number of these, and outputs far too long.
#[test]
fn every_number_of_lines_under_a_header() {
    let mut session = by_hand::longest();
    session.events.truncate(1_004);
    let file = session.to_bytes();
    for every in 0..=1_002 {
        assert_same_page(&file, every, 2 * page::LINE_BYTES * 1_003);
    }
    for every in [1, 999, 1_000] {
        assert_same_page(&file, every, 5_000_000);
    }
}

/// The greatest length that include/irga.h has, a byte less and a byte more.
#[test]
fn the_longest_page() {
    let file = by_hand::longest().to_bytes();
    for (length, status, written) in
        [(394_053, 17, 0), (394_054, 0, 394_054), (394_055, 0, 394_054)]
    {
        let outcome = library::page(&file, 1, &mut vec![0; length]);
        assert_eq!(outcome, Outcome { status, written });
        assert_same_page(&file, 1, length);
        assert_same_page(&file, 999, length);
    }
}

/// Files that are wrong in one thing, and files of no header at all, under N of every kind.
#[test]
fn pages_of_hostile_files() {
    let spoilt = hostile::bits_that_must_be_zero().into_iter().map(|spoilt| spoilt.file);
    let lesson = lesson::session().to_bytes();
    let cut = [0, 1, 15, 16, 17, lesson.len() - 1].map(|length| lesson[..length].to_vec());
    for file in spoilt.chain(hostile::wrapping_headers()).chain(cut) {
        for every in [0, 1, 2, 40, 999, 1_000, u32::MAX] {
            for length in [0, 72, 73, 145, 146, 100_000] {
                assert_same_page(&file, every, length);
            }
        }
    }
}

/// Invented sessions, and such that aim at the limits of refusal 8, each in two buffers.
#[test]
fn grounds_are_the_same_bytes() {
    let campaign = campaign(0x6278);
    let met = campaign.against_grounds(&mut library::grounds);
    let met = met.unwrap_or_else(|why| panic!("{why}"));
    println!("{met}");
    let rare = met.rarer_than(campaign.sessions / 100);
    assert!(rare.is_empty(), "{rare:?}");
}

#[test]
fn grounds_worked_out_by_hand() {
    for owed in grounds::by_hand::owed_grounds() {
        assert_eq!(check_grounds(&owed, &mut library::grounds), Ok(()));
    }
}

/// As many events as a file may have: the length that include/irga.h has for it, a byte less and a
/// byte more.
#[test]
fn the_most_grounds() {
    let file = grounds::by_hand::longest().session.to_bytes();
    for (length, status, written) in [(2_699, 13, 0), (2_700, 0, 2_700), (2_701, 0, 2_700)] {
        let outcome = library::grounds(&file, &mut vec![0xA5; length]);
        assert_eq!(outcome, Outcome { status, written });
        let theirs = |out: &mut [u8]| library::grounds(&file, out);
        assert_same("grounds", length, |out| grounds::grounds(&file, out), theirs);
    }
}

/// Fifty invented values for each session: a million words.
#[test]
fn a_recorder_gets_the_same_words() {
    let campaign = campaign(0x6277);
    let met = campaign.against_recorder(&library::Proved).unwrap_or_else(|why| panic!("{why}"));
    println!("{met}");
    let rare = met.rarer_than(campaign.sessions / 100);
    assert!(rare.is_empty(), "{rare:?}");
}

#[test]
fn words_worked_out_by_hand() {
    for owed in recorder::by_hand::owed() {
        assert_eq!(owed.check(&library::Proved), Ok(()));
    }
}

#[test]
fn every_word_of_a_recorder_both_ways() {
    assert_eq!(every_word(&library::Proved), Ok(()));
}

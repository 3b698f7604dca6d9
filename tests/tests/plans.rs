//! What the invented plans reach, and writers that are wrong: a comparison that could not
//! fail would be worth nothing.

use std::ops::Range;
use std::path::Path;

use irga_tests::file::{self, Outcome, Records, RECORD_BYTES};
use irga_tests::harness::Campaign;
use irga_tests::hostile;
use irga_tests::plan::{write_records, Writer};
use irga_tests::sessions::{faults, plans};

fn campaign(sessions: u64) -> Campaign {
    let folder = Path::new(env!("CARGO_TARGET_TMPDIR")).to_path_buf();
    Campaign { seed: 0x6273, sessions, folder }
}

/// A seed and a number make the same plan and the same lent buffer at any time.
#[test]
fn plans_are_made_again() {
    assert_eq!(plans::planned(3, 7), plans::planned(3, 7));
    assert_eq!(faults::spoilt(3, 7), faults::spoilt(3, 7));
    assert_ne!(plans::planned(3, 7).0, plans::planned(3, 8).0);
    assert_ne!(faults::spoilt(3, 7).0, faults::spoilt(3, 8).0);
}

/// Every count, end, buffer, fault and order, by our own writers.
#[test]
fn what_invented_plans_reach() {
    let met = campaign(5_000).against_writer(write_records, &mut file::run);
    let met = met.unwrap_or_else(|why| panic!("{why}"));
    println!("{met}");
    let rare = met.rarer_than(5);
    assert!(rare.is_empty(), "{rare:?}");
}

/// What a plan's writer does once it has written a file.
fn afterwards(records: &Records, out: &mut [u8], change: fn(&Records, &mut [u8])) -> Outcome {
    let outcome = write_records(records, out);
    if outcome.status == 0 {
        change(records, out);
    }
    outcome
}

/// A writer that looks at the room before anything that `sooner` does not hold of.
fn room_first(records: &Records, out: &mut [u8], sooner: fn(&Records) -> bool) -> Outcome {
    if !sooner(records) && out.len() < records.file_bytes() {
        return Outcome { status: 15, written: 0 };
    }
    write_records(records, out)
}

fn too_many(records: &Records) -> bool {
    records.sheets.len() > 384 || records.events.len() > 64_800
}

/// Writes as given what is sound once `forgive` has made some of its bytes zero.
fn written_blindly(records: &Records, out: &mut [u8], forgive: fn(&mut Records)) -> Outcome {
    let mut blanked = records.clone();
    forgive(&mut blanked);
    let outcome = write_records(&blanked, out);
    if outcome.status == 0 {
        let file = [&out[..16], &records.sheets, &records.events].concat();
        out[..file.len()].copy_from_slice(&file);
    }
    outcome
}

/// Makes some bytes of every record zero.
fn blank(records: &mut [u8], bytes: Range<usize>) {
    records.chunks_exact_mut(RECORD_BYTES).for_each(|record| record[bytes.clone()].fill(0));
}

/// Makes the fields zero that an event's kind lacks, wherever its kind is known.
fn blank_fields(records: &mut Records) {
    for event in records.events.chunks_exact_mut(RECORD_BYTES) {
        let Some((_, fields)) = hostile::KINDS.get(usize::from(event[0]).wrapping_sub(1)) else {
            continue;
        };
        for at in (4..RECORD_BYTES).filter(|at| !fields.contains(&(at - at % 4))) {
            event[at] = 0;
        }
    }
}

/// The same for the fields of kind 10 alone.
fn blank_short_starts(records: &mut Records) {
    let short = records.events.chunks_exact_mut(RECORD_BYTES).filter(|event| event[0] == 10);
    short.for_each(|event| event[4..].fill(0));
}

/// Cuts off what is behind the last whole record.
fn whole(records: &Records) -> Records {
    let whole = |list: &[u8]| list[..list.len() - list.len() % RECORD_BYTES].to_vec();
    Records { sheets: whole(&records.sheets), events: whole(&records.events) }
}

/// What is wrong with a writer, what is said of it, and the writer.
type Wrong = (&'static str, &'static str, Writer);

const OWED_11: &str = "expected Outcome { status: 11";
const OWED_14: &str = "expected Outcome { status: 14";
const TOUCHED: &str = "after the file was touched";

/// Writers that put other bytes.
const WRONG_BYTES: [Wrong; 6] = [
    ("the events begin where the sheets do", "byte 12 of the file", |records, out| {
        afterwards(records, out, |_, out| out[12..16].copy_from_slice(&[16, 0, 0, 0]))
    }),
    ("two words of a sheet are exchanged", "byte 28 of the file", |records, out| {
        afterwards(records, out, |records, out| {
            if !records.sheets.is_empty() {
                out[28..36].rotate_left(4);
            }
        })
    }),
    ("the counts are exchanged", "byte 0 of the file", |records, out| {
        afterwards(records, out, |_, out| {
            let (sheets, events) = out.split_at_mut(8);
            sheets[..4].swap_with_slice(&mut events[..4]);
        })
    }),
    ("a short start is written as a start", "expected 10, was given 7", |records, out| {
        afterwards(records, out, |records, out| {
            let events = &mut out[16 + records.sheets.len()..records.file_bytes()];
            let short = events.chunks_exact_mut(RECORD_BYTES).filter(|event| event[0] == 10);
            short.for_each(|event| event[0] = 7);
        })
    }),
    ("the rest of the buffer is cleared", TOUCHED, |records, out| {
        afterwards(records, out, |records, out| out[records.file_bytes()..].fill(0))
    }),
    ("the header is put before the room is looked at", TOUCHED, |records, out| {
        let outcome = write_records(records, out);
        if outcome.status == 15 && out.len() >= 16 {
            out[..16].fill(0);
        }
        outcome
    }),
];

/// Writers that give another status, or another length.
const WRONG_OUTCOMES: [Wrong; 10] = [
    ("a field that the kind lacks is written", OWED_11, |records, out| {
        written_blindly(records, out, blank_fields)
    }),
    ("a field is written that a short start lacks", OWED_11, |records, out| {
        written_blindly(records, out, blank_short_starts)
    }),
    ("kind 10 is unknown", "was given Outcome { status: 11", |records, out| {
        let short = records.events.chunks(RECORD_BYTES).any(|event| event[0] == 10);
        if short && !too_many(records) {
            return Outcome { status: 11, written: 0 };
        }
        write_records(records, out)
    }),
    ("a sheet's last bytes are not looked at", OWED_11, |records, out| {
        written_blindly(records, out, |records| blank(&mut records.sheets, 20..24))
    }),
    ("the bytes behind a kind are not looked at", OWED_11, |records, out| {
        written_blindly(records, out, |records| blank(&mut records.events, 1..4))
    }),
    ("15 before 14", OWED_14, |records, out| {
        room_first(records, out, |records| !too_many(records))
    }),
    ("11 after 15", OWED_11, |records, out| room_first(records, out, too_many)),
    ("14 after 11", OWED_14, |records, out| {
        if whole(records) != *records {
            return Outcome { status: 11, written: 0 };
        }
        write_records(records, out)
    }),
    ("a part of a record is left out", "expected Outcome { status: 1", |records, out| {
        write_records(&whole(records), out)
    }),
    ("a length is told where nothing is written", "written: 0 }, was given", |records, out| {
        let outcome = write_records(records, out);
        Outcome { written: records.file_bytes(), ..outcome }
    }),
];

fn wrong() -> impl Iterator<Item = Wrong> {
    WRONG_BYTES.into_iter().chain(WRONG_OUTCOMES)
}

#[test]
fn wrong_writers_are_caught() {
    for (what, says, writer) in wrong() {
        let caught = campaign(2_000).against_writer(writer, &mut file::run);
        let message = caught.expect_err(what);
        assert!(message.contains(says), "{what}: {message}");
    }
}

/// The same writers over the plans whose statuses are written down; those that are right about
/// a status and wrong about bytes are seen too.
#[test]
fn wrong_writers_are_caught_by_single_plans() {
    for (what, _, writer) in wrong() {
        let caught = hostile::plans().any(|plan| plan.check(writer).is_err());
        assert!(caught, "{what}");
    }
}

/// A plan's answers are compared too: an engine that loses one is caught.
#[test]
fn a_wrong_run_of_a_plan_is_caught() {
    let mut forgets = |file: &[u8], output: &mut [u8]| {
        let outcome = file::run(file, output);
        output.iter_mut().take(1).for_each(|kind| *kind = 0);
        outcome
    };
    let caught = campaign(50).against_writer(write_records, &mut forgets);
    let message = caught.expect_err("an answer was lost");
    assert!(message.contains(": answer 1: "), "{message}");
}

//! A writer of session files beside this implementation's, over invented plans and over session
//! files that are taken apart and written again.

use std::collections::BTreeSet;

use crate::file::{self, Outcome, Records, Session, RECORD_BYTES};
use crate::plan::{self, Plan, Writer};
use crate::rules::Refusal;
use crate::sessions::faults::{self, Fault};
use crate::sessions::{self, plans};

use super::{Campaign, Engine, Filled, Tally};

impl Campaign {
    /// Compares a writer with this implementation, byte by byte, and what an engine makes of
    /// the files that it writes.
    pub fn against_writer(&self, write: Writer, run: &mut dyn Engine) -> Result<Tally, String> {
        let mut met = Tally::of_plans();
        for number in 0..self.sessions {
            let planned = plans::planned(self.seed, number);
            let spoilt = faults::spoilt(!self.seed, number);
            let made = sessions::make(self.seed, number);
            compare_plan(write, run, planned, &mut met)
                .and_then(|()| compare_records(write, spoilt, &mut met))
                .and_then(|()| write_again(write, &made.file, &mut met))
                .map_err(|why| format!("plan {number} of seed {}: {why}", self.seed))?;
        }
        Ok(met)
    }
}

fn differing_byte(ours: &[u8], theirs: &[u8], at: usize) -> String {
    format!("byte {at} of the file: expected {}, was given {}", ours[at], theirs[at])
}

/// A plan through both of our writers and the one under test.
fn compare_plan(
    write: Writer,
    run: &mut dyn Engine,
    (plan, lent): (Plan, Vec<u8>),
    met: &mut Tally,
) -> Result<(), String> {
    let records = plan.session().records();
    let ours = Filled::by(&lent, |out| plan.write(out));
    for write in [plan::write_records, write] {
        let theirs = Filled::by(&lent, |out| write(&records, out));
        ours.compare(&theirs, "file", differing_byte)?;
    }
    met.add_plan(&plan, &records, lent.len(), ours.outcome.status);
    if ours.outcome.status == 0 {
        let answers = read_back(&plan, &ours.bytes[..ours.outcome.written], run)?;
        met.add_answers(&answers);
    }
    Ok(())
}

/// What was written is the file that the other encoder makes, the reader gives back the plan,
/// and the engine under test answers it as ours does. Gives back the answers.
fn read_back(plan: &Plan, written: &[u8], run: &mut dyn Engine) -> Result<Vec<u8>, String> {
    let file = plan.session().to_bytes();
    if written != file {
        return Err("the session's own bytes are others".to_string());
    }
    if Session::open(written).and_then(|session| Plan::of(&session)).as_ref() != Some(plan) {
        return Err("the reader does not give back the plan".to_string());
    }
    let lent = vec![0; RECORD_BYTES * plan.events.len()];
    let ours = Filled::by(&lent, |output| file::run(&file, output));
    let theirs = Filled::by(&lent, |output| run.run(written, output));
    ours.compare(&theirs, "answers", super::differing_answer)?;
    Ok(ours.bytes)
}

/// The first refusal in document 02's order, 11 before 15 as include/irga.h has it.
fn owed(faults: &BTreeSet<Fault>) -> u8 {
    let order = [Refusal::TooMany, Refusal::MalformedEvent, Refusal::NoRoom];
    let first =
        order.into_iter().find(|refusal| faults.iter().any(|fault| fault.refusal() == *refusal));
    first.map_or(0, Refusal::number)
}

/// Records with faults through our writer and the one under test.
fn compare_records(
    write: Writer,
    (records, lent): (Records, Vec<u8>),
    met: &mut Tally,
) -> Result<(), String> {
    let faults = faults::faults(&records, lent.len());
    let ours = Filled::by(&lent, |out| plan::write_records(&records, out));
    if ours.outcome.status != owed(&faults) {
        return Err(format!("{faults:?}, and our writer said {}", ours.outcome.status));
    }
    met.add_faults(&records, &faults, ours.outcome.status);
    let theirs = Filled::by(&lent, |out| write(&records, out));
    ours.compare(&theirs, "file", differing_byte).map_err(|why| format!("{faults:?}: {why}"))
}

/// An accepted file with known kinds only, and zero bytes wherever they must be, is what a
/// writer makes of its records; any other accepted one is turned away with 11.
fn write_again(write: Writer, file: &[u8], met: &mut Tally) -> Result<(), String> {
    let (Some(session), Some(records)) = (Session::open(file), Records::of_file(file)) else {
        return Ok(());
    };
    let lent = vec![0xA5; file.len() + 3];
    let theirs = Filled::by(&lent, |out| write(&records, out));
    let Some(plan) = Plan::of(&session) else {
        let status = Refusal::MalformedEvent.number();
        met.add_again(status);
        return same_again(&Filled::by(&lent, |_| Outcome { status, written: 0 }), &theirs);
    };
    met.add_again(0);
    let again = Filled::by(&lent, |out| {
        out[..file.len()].copy_from_slice(file);
        Outcome { status: 0, written: file.len() }
    });
    same_again(&again, &Filled::by(&lent, |out| plan.write(out)))?;
    same_again(&again, &theirs)
}

fn same_again(again: &Filled, given: &Filled) -> Result<(), String> {
    let compared = again.compare(given, "file", differing_byte);
    compared.map_err(|why| format!("a session file written again: {why}"))
}

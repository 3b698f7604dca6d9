//! Invented plans of records with one thing wrong or several, and what is wrong with any:
//! found by document 01's table of fields, and not by way of an event.

use std::collections::BTreeSet;

use crate::file::{Records, EVENTS_LIMIT, RECORD_BYTES, SHEETS_LIMIT};
use crate::hostile;
use crate::plan::Plan;
use crate::random::Random;
use crate::rules::Refusal;

use super::old_bytes;
use super::plans::{enough_room, event, plan, short_room};

/// One thing for which a plan of records is turned away, in the order in which a plan is given
/// them: a list is made longer once its records are spoilt, and cut once it has its length.
#[derive(Clone, Copy, Debug, PartialEq, Eq, PartialOrd, Ord)]
pub enum Fault {
    /// An event's kind is unknown.
    Kind,
    /// A byte behind an event's kind is not zero.
    Padding(usize),
    /// A field that the kind lacks is not zero; the offset of the field.
    Lacked(u8, usize),
    /// A byte at the end of a sheet is not zero.
    Rest(usize),
    ManySheets,
    ManyEvents,
    /// The sheets' length is no multiple of a record's.
    SheetsCut,
    EventsCut,
    NoRoom,
}

/// Offsets of an event's fields: raw, C, P, T, e.
fn fields() -> impl Iterator<Item = usize> {
    (4..RECORD_BYTES).step_by(4)
}

/// Whether document 01 gives this kind a field at this offset.
fn has_field(kind: u8, at: usize) -> bool {
    hostile::KINDS[usize::from(kind) - 1].1.contains(&at)
}

impl Fault {
    /// Every fault that there is.
    pub fn all() -> Vec<Fault> {
        use Fault::*;
        let mut all = vec![Kind, ManySheets, ManyEvents, SheetsCut, EventsCut, NoRoom];
        all.extend((1..4).map(Padding));
        all.extend((20..RECORD_BYTES).map(Rest));
        let kinds = hostile::KINDS.iter().map(|(event, _)| event.kind());
        let pairs = kinds.flat_map(|kind| fields().map(move |at| (kind, at)));
        let lacked = pairs.filter(|(kind, at)| !has_field(*kind, *at));
        all.extend(lacked.map(|(kind, at)| Lacked(kind, at)));
        all
    }

    pub fn refusal(self) -> Refusal {
        match self {
            Fault::ManySheets | Fault::ManyEvents => Refusal::TooMany,
            Fault::NoRoom => Refusal::NoRoom,
            _ => Refusal::MalformedEvent,
        }
    }

    /// Gives the fault to a plan that has a sheet and an event. That there is no room is not
    /// the records' fault.
    fn put(self, random: &mut Random, Records { sheets, events }: &mut Records) {
        let spoilt = 1 << random.below(8);
        match self {
            Fault::Kind => any_record(random, events)[0] = unknown_kind(random),
            Fault::Padding(at) => any_record(random, events)[at] = spoilt,
            Fault::Lacked(kind, at) => {
                let one = Plan { sheets: Vec::new(), events: vec![event(random, kind, 1)] };
                let record = any_record(random, events);
                record.copy_from_slice(&one.session().records().events);
                record[at + random.below(4) as usize] = spoilt;
            }
            Fault::Rest(at) => any_record(random, sheets)[at] = spoilt,
            Fault::ManySheets => lengthen(sheets, random.pick(&[385, 17 * 24, 18 * 24, 257 * 24])),
            Fault::ManyEvents => lengthen(events, random.pick(&[64_801, 2_701 * 24, 2_702 * 24])),
            Fault::SheetsCut => cut(random, sheets),
            Fault::EventsCut => cut(random, events),
            Fault::NoRoom => {}
        }
    }
}

fn any_record<'a>(random: &mut Random, records: &'a mut [u8]) -> &'a mut [u8] {
    let at = RECORD_BYTES * random.below((records.len() / RECORD_BYTES) as u64) as usize;
    &mut records[at..at + RECORD_BYTES]
}

fn unknown_kind(random: &mut Random) -> u8 {
    let first = hostile::KINDS.len() as u8 + 1;
    let any = random.between(first.into(), 255) as u8;
    random.pick(&[0, first, first + 1, any, any])
}

/// Goes on with the same records until the list has so many bytes.
fn lengthen(records: &mut Vec<u8>, length: usize) {
    *records = records.iter().copied().cycle().take(length).collect();
}

fn cut(random: &mut Random, records: &mut Vec<u8>) {
    let off = random.between(1, RECORD_BYTES as i64 - 1) as usize;
    records.truncate(records.len() - off);
}

/// The plan of records of a number under a seed, and a lent buffer: always the same. Each fault
/// comes in its turn, more often by itself than with others, and now and then there is none.
pub fn spoilt(seed: u64, number: u64) -> (Records, Vec<u8>) {
    let mut random = Random::of_session(seed, number);
    let all = Fault::all();
    let turn = all.get(number as usize % (all.len() + 1));
    let mut faults: BTreeSet<Fault> = turn.copied().into_iter().collect();
    for _ in 0..random.pick(&[0, 0, 0, 1, 2]) {
        faults.insert(further(&mut random, &all));
    }
    let mut records = small_records(&mut random);
    faults.iter().for_each(|fault| fault.put(&mut random, &mut records));
    let file = records.file_bytes();
    let short = faults.contains(&Fault::NoRoom);
    let room = if short { short_room(&mut random, file) } else { enough_room(&mut random, file) };
    (records, old_bytes(&mut random, room))
}

/// A fault beside another, of any refusal, so that their order shows.
fn further(random: &mut Random, all: &[Fault]) -> Fault {
    match random.below(4) {
        0 => Fault::NoRoom,
        1 => random.pick(&[Fault::ManySheets, Fault::ManyEvents]),
        _ => random.pick(all),
    }
}

/// A plan without a fault, with a sheet and an event at least, and now and then with all that a
/// plan may have.
fn small_records(random: &mut Random) -> Records {
    let full = random.percent(1);
    let sheets = if full { SHEETS_LIMIT } else { random.between(1, 4) as usize };
    let events = if full { EVENTS_LIMIT } else { random.between(1, 12) as usize };
    plan(random, sheets, events).session().records()
}

/// What is wrong with a plan of records and the room for its file. Bytes behind the last whole
/// record are looked at no further.
pub fn faults(records: &Records, room: usize) -> BTreeSet<Fault> {
    let Records { sheets, events } = records;
    let whole = [
        (Fault::ManySheets, sheets.len() > RECORD_BYTES * SHEETS_LIMIT),
        (Fault::ManyEvents, events.len() > RECORD_BYTES * EVENTS_LIMIT),
        (Fault::SheetsCut, sheets.len() % RECORD_BYTES != 0),
        (Fault::EventsCut, events.len() % RECORD_BYTES != 0),
        (Fault::NoRoom, room < records.file_bytes()),
    ];
    let mut faults: BTreeSet<Fault> =
        whole.into_iter().filter_map(|(fault, is)| is.then_some(fault)).collect();
    for sheet in sheets.chunks_exact(RECORD_BYTES) {
        faults.extend((20..RECORD_BYTES).filter(|at| sheet[*at] != 0).map(Fault::Rest));
    }
    events.chunks_exact(RECORD_BYTES).for_each(|event| faults.extend(event_faults(event)));
    faults
}

fn event_faults(event: &[u8]) -> Vec<Fault> {
    let kind = event[0];
    let mut faults: Vec<Fault> = (1..4).filter(|at| event[*at] != 0).map(Fault::Padding).collect();
    if !hostile::is_known(kind) {
        faults.push(Fault::Kind);
        return faults;
    }
    let lacked = fields().filter(|at| !has_field(kind, *at) && event[*at..*at + 4] != [0; 4]);
    faults.extend(lacked.map(|at| Fault::Lacked(kind, at)));
    faults
}

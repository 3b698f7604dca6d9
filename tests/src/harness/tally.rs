//! What a campaign has met, and what it has to meet; here the one over plans.

use std::collections::{BTreeMap, BTreeSet};
use std::fmt;

use crate::file::{Records, EVENTS_LIMIT, RECORD_BYTES, SHEETS_LIMIT};
use crate::hostile;
use crate::plan::Plan;
use crate::sessions::faults::Fault;

/// How often a campaign met each thing, by its name.
#[derive(Clone, Debug)]
pub struct Tally {
    met: BTreeMap<String, u64>,
    /// Names of all that it has to meet.
    owed: Vec<String>,
}

impl fmt::Display for Tally {
    fn fmt(&self, formatter: &mut fmt::Formatter) -> fmt::Result {
        self.met.iter().try_for_each(|(name, count)| writeln!(formatter, "{name}: {count}"))
    }
}

impl Tally {
    pub(super) fn owing(owed: Vec<String>) -> Tally {
        Tally { met: BTreeMap::new(), owed }
    }

    pub(super) fn of_plans() -> Tally {
        Tally::owing(owed_names())
    }

    pub(super) fn meet(&mut self, name: String) {
        *self.met.entry(name).or_default() += 1;
    }

    /// What a campaign has to meet and has met less often than this: agreement over plans or
    /// pages says little about anything that does not occur in them.
    pub fn rarer_than(&self, least: u64) -> Vec<String> {
        let counts = self.owed.iter().map(|name| (self.met.get(name).copied(), name));
        let rare = counts.filter(|(count, _)| count.unwrap_or(0) < least.max(1));
        rare.map(|(count, name)| format!("{name}: {}", count.unwrap_or(0))).collect()
    }

    pub(super) fn add_plan(&mut self, plan: &Plan, records: &Records, room: usize, status: u8) {
        let (sheets, events, file) = (plan.sheets.len(), plan.events.len(), records.file_bytes());
        self.meet(format!("plan, status {status}"));
        self.meet(sheets_name(sheets));
        self.meet(format!("plan, {}", room_name(room, file)));
        if EVENT_ENDS.contains(&events) {
            self.meet(events_name(events));
        }
        let too_many = [sheets > SHEETS_LIMIT, events > EVENTS_LIMIT];
        if status == 14 {
            self.meet(too_many_name(too_many, room < file));
        }
        if status == 0 {
            self.add_ends(records);
        }
    }

    /// Numbers that stand at the ends of what their fields can hold.
    fn add_ends(&mut self, records: &Records) {
        for sheet in records.sheets.chunks(RECORD_BYTES) {
            SHEET_FIELDS.iter().for_each(|at| self.add_end("sheet", sheet, *at, *at < 12));
        }
        for event in records.events.chunks(RECORD_BYTES) {
            let kind = event[0];
            let fields = hostile::KINDS[usize::from(kind) - 1].1;
            let name = format!("kind {kind}");
            fields.iter().for_each(|at| self.add_end(&name, event, *at, *at == RAW_FIELD));
        }
    }

    fn add_end(&mut self, record_name: &str, record: &[u8], at: usize, signed: bool) {
        let word = u32::from_le_bytes([record[at], record[at + 1], record[at + 2], record[at + 3]]);
        let lowest = if signed { 1 << 31 } else { 0u32 };
        for (end, number) in ["lowest", "highest"].into_iter().zip([lowest, lowest.wrapping_sub(1)])
        {
            if word == number {
                self.meet(end_name(record_name, at, end));
            }
        }
    }

    /// What a plan's events were answered: a plan of nothing but refusals would say little.
    pub(super) fn add_answers(&mut self, answers: &[u8]) {
        let accepted = answers.chunks(RECORD_BYTES).filter(|answer| answer[1] == 0);
        accepted.for_each(|answer| self.meet(accepted_name(answer[0])));
    }

    /// A session file whose records were written again, or turned away.
    pub(super) fn add_again(&mut self, status: u8) {
        self.meet(again_name(status));
    }

    pub(super) fn add_faults(&mut self, records: &Records, faults: &BTreeSet<Fault>, status: u8) {
        self.meet(format!("records, status {status}"));
        let lengths = [records.sheets.len(), records.events.len()];
        for (list, length) in LISTS.into_iter().zip(lengths) {
            if length == list.1 {
                self.meet(byte_over_name(list));
            }
        }
        let numbers: BTreeSet<u8> = faults.iter().map(|fault| fault.refusal().number()).collect();
        if numbers.len() > 1 {
            self.meet(at_once_name(&numbers));
        }
        if let (1, Some(fault)) = (faults.len(), faults.first()) {
            self.meet(alone_name(*fault));
        }
    }
}

/// The lists of records, and a length one byte over their limit.
const LISTS: [(&str, usize); 2] =
    [("sheets", RECORD_BYTES * SHEETS_LIMIT + 1), ("events", RECORD_BYTES * EVENTS_LIMIT + 1)];

const SHEET_FIELDS: [usize; 5] = [0, 4, 8, 12, 16];
const RAW_FIELD: usize = 4;
const EVENT_ENDS: [usize; 4] = [0, EVENTS_LIMIT - 1, EVENTS_LIMIT, EVENTS_LIMIT + 1];

pub(super) const ROOMS: [&str; 6] = [
    "no buffer",
    "buffer shorter by more than a byte",
    "buffer a byte too short",
    "buffer just long enough",
    "buffer a byte longer",
    "buffer longer by more than a byte",
];

/// A buffer of so much room beside what is to be put there.
pub(super) fn room_name(room: usize, bytes: usize) -> &'static str {
    match room {
        0 => ROOMS[0],
        _ if room + 1 < bytes => ROOMS[1],
        _ if room < bytes => ROOMS[2],
        _ if room == bytes => ROOMS[3],
        _ if room == bytes + 1 => ROOMS[4],
        _ => ROOMS[5],
    }
}

fn sheets_name(sheets: usize) -> String {
    format!("plan, {sheets:2} sheets")
}

fn events_name(events: usize) -> String {
    format!("plan, {events:4} events")
}

fn too_many_name([sheets, events]: [bool; 2], no_room: bool) -> String {
    let why = match (sheets, events) {
        (true, true) => "sheets and events",
        (true, false) => "sheets",
        _ => "events",
    };
    format!("plan, too many {why}, buffer {}", if no_room { "too short" } else { "long enough" })
}

fn end_name(record: &str, at: usize, end: &str) -> String {
    format!("{record}, number at {at:2}: {end}")
}

fn accepted_name(kind: u8) -> String {
    format!("plan, accepted events of kind {kind}")
}

fn at_once_name(numbers: &BTreeSet<u8>) -> String {
    format!("records, {numbers:?} at once")
}

fn byte_over_name((name, length): (&str, usize)) -> String {
    format!("records, {length} bytes of {name}")
}

fn alone_name(fault: Fault) -> String {
    format!("records, {fault:?} alone")
}

/// Names of all that a campaign over plans has to meet.
fn owed_names() -> Vec<String> {
    let mut names: Vec<String> =
        [0, 14, 15].map(|status| format!("plan, status {status}")).to_vec();
    names.extend((0..=SHEETS_LIMIT + 2).map(sheets_name));
    names.extend(EVENT_ENDS.map(events_name));
    names.extend(ROOMS.map(|room| format!("plan, {room}")));
    for too_many in [[true, false], [false, true]] {
        names.extend([true, false].map(|no_room| too_many_name(too_many, no_room)));
    }
    let sheet = SHEET_FIELDS.iter().map(|at| ("sheet".to_string(), *at));
    let events = hostile::KINDS
        .iter()
        .zip(1..)
        .flat_map(|((_, fields), kind)| fields.iter().map(move |at| (format!("kind {kind}"), *at)));
    for (record, at) in sheet.chain(events) {
        names.extend(["lowest", "highest"].map(|end| end_name(&record, at, end)));
    }
    names.extend(hostile::KINDS.map(|(event, _)| accepted_name(event.kind())));
    names.extend([0, 11, 14, 15].map(|status| format!("records, status {status}")));
    for numbers in [&[11, 14][..], &[11, 15], &[14, 15], &[11, 14, 15]] {
        names.push(at_once_name(&numbers.iter().copied().collect()));
    }
    names.extend(LISTS.map(byte_over_name));
    names.extend(Fault::all().into_iter().map(alone_name));
    names.extend([0, 11].map(again_name));
    names
}

fn again_name(status: u8) -> String {
    format!("session file written again, status {status}")
}

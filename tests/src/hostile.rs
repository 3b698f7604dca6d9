//! Files that are wrong in one thing: each bit that must be zero, set by itself, and headers
//! whose sums come out right only if they wrap in 32 bits. Plans likewise, and plans of
//! every length that matters.

use crate::bench;
use crate::engine::{Event, SheetRecord};
use crate::file::{EventRecord, Outcome, Records, Session};
use crate::file::{EVENTS_LIMIT, HEADER_BYTES, RECORD_BYTES, SHEETS_LIMIT};
use crate::plan::Writer;

/// An event that goes well with the bench sheet, and the offsets of the fields that document
/// 01 gives to its kind. Every other byte after the first must be zero.
pub const KINDS: [(Event, &[usize]); 10] = [
    (Event::Load { index: 0 }, &[8]),
    (Event::Zero { raw: 1_000 }, &[4]),
    (
        Event::Span { raw: 50_000_000, cylinder: 1_000_000_000, p: 101_300, t: 29_815, e: 0 },
        &[4, 8, 12, 16, 20],
    ),
    (Event::Reference { cylinder: 1_000_000_000, e: 0 }, &[8, 20]),
    (Event::Absolute, &[]),
    (Event::Sample { raw: 10_000_000, p: 101_300, t: 29_815, e: 0 }, &[4, 12, 16, 20]),
    (Event::Start, &[]),
    (Event::Stop, &[]),
    (Event::Area, &[]),
    (Event::StartShort, &[]),
];

/// Whether there is such a kind.
pub fn is_known(kind: u8) -> bool {
    (1..=KINDS.len()).contains(&usize::from(kind))
}

/// A session file and what is owed to each of its events: the refusal number, or nothing in
/// particular but not 11.
pub struct Spoilt {
    pub file: Vec<u8>,
    pub owed: Vec<Option<u8>>,
}

impl Spoilt {
    /// Checks the refusal numbers that a run gave.
    pub fn check(&self, refusals: &[u8]) -> Result<(), String> {
        if refusals.len() != self.owed.len() {
            return Err(format!("{} answers to {} events", refusals.len(), self.owed.len()));
        }
        let right = |(owed, given): (&Option<u8>, &u8)| match owed {
            Some(number) => given == number,
            None => *given != 11,
        };
        match self.owed.iter().zip(refusals).position(|pair| !right(pair)) {
            None => Ok(()),
            Some(at) => Err(format!(
                "event {}: {:?} was owed, {} was given",
                at + 1,
                self.owed[at],
                refusals[at]
            )),
        }
    }

    /// The same for answers as bytes.
    pub fn check_answers(&self, answers: &[u8]) -> Result<(), String> {
        let refusals: Vec<u8> = answers.chunks(RECORD_BYTES).map(|answer| answer[1]).collect();
        self.check(&refusals)
    }

    /// The same for answers as lines.
    pub fn check_lines(&self, lines: &str) -> Result<(), String> {
        let refusal = |line: &str| line.split(' ').nth(2).and_then(|word| word.parse().ok());
        let refusals: Option<Vec<u8>> = lines.lines().map(refusal).collect();
        self.check(&refusals.ok_or("a line without a refusal number")?)
    }
}

/// Every kind's event, as it is and with each bit after its first byte turned over, one at a time,
/// behind an event that loads the sheet; and every kind that is none.
fn spoilt_events() -> Spoilt {
    let mut events = vec![EventRecord::of(&KINDS[0].0)];
    let mut owed = vec![Some(0)];
    for (event, fields) in KINDS {
        events.push(EventRecord::of(&event));
        owed.push(None);
        for (at, bit) in (1..RECORD_BYTES).flat_map(|at| (0..8).map(move |bit| (at, bit))) {
            let mut bytes = EventRecord::of(&event).to_bytes();
            bytes[at] ^= 1 << bit;
            events.push(EventRecord::from_bytes(&bytes));
            let has_field = at >= 4 && fields.contains(&(at - at % 4));
            owed.push(if has_field { None } else { Some(11) });
        }
    }
    for kind in (0..=255).filter(|kind| !is_known(*kind)) {
        events.push(EventRecord { kind, ..EventRecord::default() });
        owed.push(Some(11));
    }
    Spoilt { file: Session { sheets: vec![bench::sheet()], events }.to_bytes(), owed }
}

/// Loads of sheets with one bit set among the four bytes that must be zero, some of the 32.
fn spoilt_sheets(bits: impl Iterator<Item = u32>) -> Spoilt {
    let sheets = bits.map(|bit| SheetRecord { rest: 1 << bit, ..bench::sheet() });
    let sheets: Vec<SheetRecord> = sheets.collect();
    let indices = 0..sheets.len() as u32;
    let events = indices.map(|index| EventRecord::of(&Event::Load { index })).collect();
    let owed = vec![Some(2); sheets.len()];
    Spoilt { file: Session { sheets, events }.to_bytes(), owed }
}

/// Each bit of a record that must be zero, set by itself.
pub fn bits_that_must_be_zero() -> Vec<Spoilt> {
    let half = SHEETS_LIMIT as u32;
    vec![spoilt_events(), spoilt_sheets(0..half), spoilt_sheets(half..2 * half)]
}

/// 24 times this is 0 in 32 bits.
const ROUND: u32 = 1 << 29;

/// The file with 2^29 sheets or events more than it has, or some times as many, up to 7.
pub fn more_records(file: &[u8], sheets: u32, events: u32) -> Vec<u8> {
    let mut file = file.to_vec();
    let has = header(&file).unwrap_or_default();
    for (at, count, rounds) in [(0, has[0], sheets), (8, has[2], events)] {
        let count = count as u32 + ROUND * rounds;
        file[at..at + 4].copy_from_slice(&count.to_le_bytes());
    }
    file
}

/// So many records have so many bytes in 32 bits, a multiple of 8: (2^29 + 1) / 3 times 3 is
/// 1 in the 29 bits that count the eights.
fn records_of(bytes: u32) -> u32 {
    (bytes / 8).wrapping_mul((ROUND + 1) / 3) % ROUND
}

/// A file of zero events whose sheets wrap to an offset of the events, a multiple of 8.
pub fn early_events(events_at: u32, events: u32) -> Vec<u8> {
    let header = HEADER_BYTES as u32;
    let sheets = records_of(events_at.wrapping_sub(header));
    let mut file: Vec<u8> =
        [sheets, header, events, events_at].iter().flat_map(|word| word.to_le_bytes()).collect();
    file.resize(events_at as usize + RECORD_BYTES * events as usize, 0);
    file
}

/// The header's four words, if there are so many bytes.
pub fn header(file: &[u8]) -> Option<[u64; 4]> {
    let bytes = file.get(..HEADER_BYTES)?;
    let word =
        |at: usize| u32::from_le_bytes([bytes[at], bytes[at + 1], bytes[at + 2], bytes[at + 3]]);
    Some([0, 4, 8, 12].map(|at| u64::from(word(at))))
}

/// Whether offset and length are right if they are added up in 32 bits, and only then.
pub fn sums_wrap(file: &[u8]) -> bool {
    let Some([sheets, sheets_at, events, events_at]) = header(file) else {
        return false;
    };
    let sheets_end = HEADER_BYTES as u64 + RECORD_BYTES as u64 * sheets;
    let (end, length) = (events_at + RECORD_BYTES as u64 * events, file.len() as u64);
    let same = |sum: u64, given: u64| sum % (1 << 32) == given;
    let wraps = sheets_end != events_at || end != length;
    sheets_at == HEADER_BYTES as u64 && same(sheets_end, events_at) && same(end, length) && wraps
}

/// Headers whose sums wrap, in every way that `sessions` has; each is refused with 12.
pub fn wrapping_headers() -> Vec<Vec<u8>> {
    let events = [Event::Load { index: 1 }, Event::Start, Event::Stop];
    let events = events.iter().map(EventRecord::of).collect();
    let sound = Session { sheets: vec![bench::sheet(); 2], events }.to_bytes();
    let mut files = Vec::new();
    for rounds in 1..=7 {
        files.push(more_records(&sound, rounds, 0));
        files.push(more_records(&sound, 0, rounds));
        files.push(more_records(&sound, rounds, 8 - rounds));
    }
    files.extend([0, 8, 24, 32, 48].map(|events_at| early_events(events_at, 2)));
    files
}

/// A plan as records, the room for its file, and the status that is owed to it.
pub struct OwedPlan {
    pub records: Records,
    pub room: usize,
    pub status: u8,
}

impl OwedPlan {
    /// Checks status, length and every byte of the lent buffer.
    pub fn check(&self, write: Writer) -> Result<(), String> {
        let old: Vec<u8> = (0..self.room).map(|at| (at * 151 + 90) as u8).collect();
        let mut out = old.clone();
        let outcome = write(&self.records, &mut out);
        let written = if self.status == 0 { self.records.file_bytes() } else { 0 };
        let expected = Outcome { status: self.status, written };
        let (file, rest) = out.split_at(written);
        let fault = if outcome != expected {
            format!("expected {expected:?}, was given {outcome:?}")
        } else if rest != &old[written..] {
            "bytes that were to stay are others".to_string()
        } else if written > 0 && Records::of_file(file).as_ref() != Some(&self.records) {
            "the file has other records".to_string()
        } else {
            return Ok(());
        };
        let Records { sheets, events } = &self.records;
        let lengths = [sheets.len(), events.len(), self.room];
        Err(format!("sheets, events and room of {lengths:?} bytes: {fault}"))
    }
}

/// One sheet or one event with a bit set that must be zero, and the sound ones that stand beside
/// such in their file.
fn plans_of_one_record() -> Vec<OwedPlan> {
    let mut plans = Vec::new();
    let mut push = |records: Records, status: u8| {
        plans.push(OwedPlan { room: records.file_bytes(), records, status });
    };
    for Spoilt { file, owed } in bits_that_must_be_zero() {
        let Session { sheets, events } = Session::open(&file).expect("a sound header");
        for (event, owed) in events.into_iter().zip(owed) {
            let one = Session { sheets: Vec::new(), events: vec![event] };
            push(one.records(), if owed == Some(11) { 11 } else { 0 });
        }
        for sheet in sheets {
            let one = Session { sheets: vec![sheet], events: Vec::new() };
            push(one.records(), if sheet.rest == 0 { 0 } else { 11 });
        }
    }
    plans
}

/// Lists of sound records, at the ends of their lengths and beside them, and so long that a
/// count in 8 or 16 bits wraps; each with room to spare, just enough and too little.
fn plans_by_length() -> impl Iterator<Item = OwedPlan> {
    let limits = [SHEETS_LIMIT, EVENTS_LIMIT].map(|limit| RECORD_BYTES * limit);
    let [sheets, events] = limits.map(|limit| {
        let record = RECORD_BYTES;
        let beside = [limit - record, limit - 1, limit, limit + 1, limit + record];
        let wraps = [257 * record, 65_537 * record];
        [&[0, 1, record - 1, record, record + 1, 2 * record], &beside[..], &wraps].concat()
    });
    let pairs = sheets
        .into_iter()
        .flat_map(move |sheets| events.clone().into_iter().map(move |events| [sheets, events]));
    pairs.flat_map(move |lengths| plans_of_lengths(lengths, limits))
}

fn plans_of_lengths(lengths: [usize; 2], limits: [usize; 2]) -> [OwedPlan; 4] {
    let start = EventRecord::of(&Event::Start).to_bytes();
    let records = Records {
        sheets: vec![0; lengths[0]],
        events: start.into_iter().cycle().take(lengths[1]).collect(),
    };
    let file = records.file_bytes();
    let many = (0..2).any(|list| lengths[list] > limits[list]);
    let cut = lengths.iter().any(|length| length % RECORD_BYTES != 0);
    let status = |room: usize| match (many, cut, room < file) {
        (true, _, _) => 14,
        (_, true, _) => 11,
        (_, _, true) => 15,
        _ => 0,
    };
    let plan = |room| OwedPlan { records: records.clone(), room, status: status(room) };
    [0, file - 1, file, file + 1].map(plan)
}

/// Plans with what is owed to them, made one after the other: some are long.
pub fn plans() -> impl Iterator<Item = OwedPlan> {
    plans_of_one_record().into_iter().chain(plans_by_length())
}

#[cfg(test)]
mod tests {
    use super::*;

    #[test]
    fn records_wrap_to_their_bytes() {
        for bytes in (0..4_000).map(|eights| 8 * eights) {
            assert_eq!(records_of(bytes).wrapping_mul(24), bytes);
            assert_eq!(
                records_of(0u32.wrapping_sub(bytes)).wrapping_mul(24),
                0u32.wrapping_sub(bytes)
            );
        }
        // 16 + 24 × 178,956,970 is 2^32.
        assert_eq!(records_of(0u32.wrapping_sub(16)), 178_956_970);
    }

    #[test]
    fn headers_wrap() {
        assert!(wrapping_headers().iter().all(|file| sums_wrap(file)));
        assert!(!sums_wrap(&Session::default().to_bytes()) && !sums_wrap(&[1, 0, 0, 0]));
    }

    /// An engine that overlooks one bit is seen, and one that says 11 too often.
    #[test]
    fn a_wrong_refusal_is_seen() {
        for spoilt in bits_that_must_be_zero() {
            let right: Vec<u8> = spoilt.owed.iter().map(|owed| owed.unwrap_or(0)).collect();
            assert!(spoilt.check(&right).is_ok() && spoilt.check(&right[1..]).is_err());
            for (at, number) in [(0, 1), (right.len() - 1, 0)] {
                let mut wrong = right.clone();
                wrong[at] = number;
                assert!(spoilt.check(&wrong).is_err());
            }
        }
    }
}

//! A page for the lab book beside this implementation's, over invented sessions: each at
//! every number of lines under a header that matters, and in buffers of every kind.

use std::collections::BTreeSet;

use crate::file::Outcome;
use crate::page::by_hand::OwedPage;
use crate::page::{self, Page, Sample};
use crate::random::Random;
use crate::rules::Refusal;
use crate::sessions;

use super::tally::{room_name, ROOMS};
use super::{differing_line, Campaign, Filled, Tally};

impl Campaign {
    /// Compares pages with this implementation's, byte by byte.
    pub fn against_page(&self, page: &Page) -> Result<Tally, String> {
        let mut met = Tally::owing(owed_names());
        for number in 0..self.sessions {
            let mut random = Random::of_session(!self.seed, number);
            let aimed = sessions::pages::aimed(self.seed, number).to_bytes();
            for file in [sessions::make(self.seed, number).file, aimed] {
                compare_pages(page, &file, &mut random, &mut met)
                    .map_err(|why| self.report(number, &file, &why))?;
            }
        }
        Ok(met)
    }
}

/// Numbers of lines under a header line, for a page of m sample lines. In eight bits 257 is 1,
/// and 65537 in sixteen.
fn everys(m: usize) -> [(&'static str, u32); 12] {
    let m = m as u32;
    [
        ("0", 0),
        ("1", 1),
        ("2", 2),
        ("m - 1", m.saturating_sub(1)),
        ("m", m),
        ("m + 1", m + 1),
        ("40", 40),
        ("257", 257),
        ("999", 999),
        ("1000", 1_000),
        ("65537", 65_537),
        ("the highest", u32::MAX),
    ]
}

/// No room, a byte less than the page has, as many, one more, and many more. For an N outside 1 to
/// 999 it is the page under 1.
fn rooms(samples: usize, every: u32) -> [usize; 5] {
    let every = if page::EVERY.contains(&every) { every as usize } else { 1 };
    let bytes = page::LINE_BYTES * (samples + samples.div_ceil(every));
    [0, bytes.saturating_sub(1), bytes, bytes + 1, bytes + SPARE]
}

const SPARE: usize = 200;

/// Each N in one of the buffers, and one N in each of them.
fn compare_pages(
    page: &Page,
    file: &[u8],
    random: &mut Random,
    met: &mut Tally,
) -> Result<(), String> {
    let samples = page::samples_of(file);
    if let Some(samples) = &samples {
        met.add_samples(samples);
    }
    let count = samples.as_ref().map_or(1, Vec::len);
    let old = sessions::old_bytes(random, rooms(count, 1)[4]);
    let all = everys(count);
    let one = random.pick(&all);
    let each = all.map(|every| (every, random.below(5) as usize));
    for ((name, every), room) in each.into_iter().chain([0, 1, 2, 3, 4].map(|room| (one, room))) {
        let rooms = rooms(count, every);
        let lent = &old[..rooms[room]];
        let ours = Filled::by(lent, |out| page::put(samples.as_deref(), every, out));
        let theirs = Filled::by(lent, |out| page(file, every, out));
        ours.compare(&theirs, "page", differing_line)
            .map_err(|why| format!("N {every}, {} bytes lent: {why}", lent.len()))?;
        met.add_page((name, every), lent.len(), rooms[2], ours.outcome);
    }
    Ok(())
}

/// Holds a page to one that was worked out by hand, in buffers of every kind.
pub fn check_page(owed: &OwedPage, page: &Page) -> Result<(), String> {
    let (file, bytes) = (owed.session.to_bytes(), owed.bytes());
    let lengths = [0, bytes.len().saturating_sub(1), bytes.len(), bytes.len() + 1, 4_000];
    for room in lengths {
        let lent: Vec<u8> = sessions::old_bytes(&mut Random::new(room as u64), room);
        let right = Filled::by(&lent, |out| Outcome::filling(out, &bytes, Refusal::PageTooLong));
        let given = Filled::by(&lent, |out| page(&file, owed.every, out));
        right
            .compare(&given, "page", differing_line)
            .map_err(|why| format!("{}, {room} bytes lent: {why}", owed.name))?;
    }
    Ok(())
}

const COLUMNS: [&str; 3] = ["wet", "dry", "difference"];

/// Values whose figures are easily wrong.
const VALUES: [i64; 6] = [-10_000, -5_000, -4_999, -4_000, 4_999, 5_000];

impl Tally {
    /// One call: N and its name, a buffer, and how many bytes there are to put.
    fn add_page(
        &mut self,
        (name, every): (&str, u32),
        room: usize,
        bytes: usize,
        outcome: Outcome,
    ) {
        let status = outcome.status;
        self.meet(status_name(status));
        self.meet(every_name(name));
        match status {
            12 if !page::EVERY.contains(&every) => self.meet(FILE_AND_N.to_string()),
            16 if room < bytes => self.meet(N_AND_ROOM.to_string()),
            0 | 17 if bytes > 0 => self.meet(buffer_name(room_name(room, bytes))),
            _ => {}
        }
    }

    fn add_samples(&mut self, samples: &[Sample]) {
        let cylinders: BTreeSet<Option<i64>> =
            samples.iter().map(|sample| sample.cylinder).collect();
        let references = cylinders.iter().flatten().count();
        let modes = [cylinders.contains(&None), references > 0];
        let ordinals = samples.windows(2).any(|pair| pair[0].ordinal + 1 < pair[1].ordinal);
        let things = [samples.is_empty(), modes == [true; 2], references > 1, ordinals];
        for (name, _) in PAGES.iter().zip(things).filter(|(_, met)| *met) {
            self.meet(name.to_string());
        }
        for sample in samples {
            for (column, value) in COLUMNS.into_iter().zip(sample.values()) {
                if let Some(value) = value {
                    self.add_value(column, value);
                }
            }
            if is_rounded_by_itself(sample) {
                self.meet(BY_ITSELF.to_string());
            }
        }
    }

    fn add_value(&mut self, column: &str, value: i64) {
        let figure = page::figure(value);
        let half = value.rem_euclid(page::HUNDREDTH) == page::HUNDREDTH / 2;
        let things = [
            figure.starts_with('-'),
            value < 0 && figure == "0.00",
            figure == "-0.01",
            half && value > 0,
            half && value < 0,
        ];
        for (thing, _) in FIGURES.iter().zip(things).filter(|(_, met)| *met) {
            self.meet(figure_name(column, thing));
        }
        if VALUES.contains(&value) {
            self.meet(value_name(column, value));
        }
    }
}

/// Whether the figure of the difference is not the difference of the figures.
fn is_rounded_by_itself(sample: &Sample) -> bool {
    let [wet, _, difference] = sample.values().map(|value| value.map(page::hundredths));
    let cylinder = sample.cylinder.map(page::hundredths);
    difference.is_some() && difference != wet.zip(cylinder).map(|(wet, cylinder)| wet - cylinder)
}

const PAGES: [&str; 4] = [
    "page without a sample",
    "page with both modes",
    "page with several references",
    "page with events between its samples",
];

const FIGURES: [&str; 5] =
    ["below zero", "below zero, 0.00", "-0.01", "half above zero", "half below zero"];

const BY_ITSELF: &str = "difference that is not that of the figures";

/// Two refusals at once, of which the first is told.
const FILE_AND_N: &str = "page, malformed file and N outside 1 to 999";
const N_AND_ROOM: &str = "page, N outside 1 to 999 and buffer too short";

fn status_name(status: u8) -> String {
    format!("page, status {status}")
}

fn every_name(every: &str) -> String {
    format!("page, N {every}")
}

fn buffer_name(room: &str) -> String {
    format!("page, {room}")
}

fn figure_name(column: &str, thing: &str) -> String {
    format!("{column} {thing}")
}

fn value_name(column: &str, value: i64) -> String {
    format!("{column} of {value} pmol/mol")
}

/// Names of all that a campaign over pages has to meet. A buffer that is too short has no room
/// at all or lacks a byte.
fn owed_names() -> Vec<String> {
    let mut names: Vec<String> = [0, 12, 16, 17].map(status_name).to_vec();
    names.extend(everys(0).map(|(every, _)| every_name(every)));
    names.extend([0, 2, 3, 4, 5].map(|room| buffer_name(ROOMS[room])));
    let others = [FILE_AND_N, N_AND_ROOM, BY_ITSELF];
    names.extend(others.iter().chain(&PAGES).map(|name| name.to_string()));
    for column in COLUMNS {
        names.extend(FIGURES.map(|thing| figure_name(column, thing)));
        names.extend(VALUES.map(|value| value_name(column, value)));
    }
    names
}

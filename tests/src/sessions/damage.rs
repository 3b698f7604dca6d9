//! Spoilt files and spoilt events.

use crate::file::{EventRecord, HEADER_BYTES, INPUT_LIMIT, RECORD_BYTES};
use crate::hostile;
use crate::random::Random;

use super::numbers;

/// Spoils a file's header or length. Now and then the file comes out sound.
pub fn damage(random: &mut Random, file: &mut Vec<u8>) {
    match random.below(9) {
        0 => file.truncate(random.below(HEADER_BYTES as u64 + 1) as usize),
        1 => {
            let cut = random.between(1, 2 * RECORD_BYTES as i64) as usize;
            file.truncate(file.len().saturating_sub(cut));
        }
        2 => {
            let longer = file.len() + random.between(1, 2 * RECORD_BYTES as i64) as usize;
            file.resize(longer, 0);
        }
        3 | 4 => spoil_header(random, file),
        5 => over_the_counts(random, file),
        6 => wrap_the_sums(random, file),
        7 => {
            let length = INPUT_LIMIT + random.pick(&[0, 1, 2, RECORD_BYTES, 5_000]);
            file.resize(length, 0);
        }
        _ => file.clear(),
    }
}

fn word_at(file: &[u8], at: usize) -> u32 {
    u32::from_le_bytes([file[at], file[at + 1], file[at + 2], file[at + 3]])
}

fn put_word(file: &mut [u8], at: usize, word: u32) {
    file[at..at + 4].copy_from_slice(&word.to_le_bytes());
}

fn spoil_header(random: &mut Random, file: &mut [u8]) {
    let at = 4 * random.below(4) as usize;
    let old = word_at(file, at);
    let word = match random.below(5) {
        0 => old.wrapping_add(1),
        1 => old.wrapping_sub(1),
        2 => 0,
        3 => old.wrapping_add(RECORD_BYTES as u32),
        _ => numbers::wild(random),
    };
    put_word(file, at, word);
}

/// One sheet or one event more than a file may have, with everything else right.
fn over_the_counts(random: &mut Random, file: &mut Vec<u8>) {
    let (sheets, events) = if random.percent(50) { (17, 3) } else { (1, 2_701) };
    let events_at = HEADER_BYTES + RECORD_BYTES * sheets;
    file.resize(events_at + RECORD_BYTES * events, 0);
    put_word(file, 0, sheets as u32);
    put_word(file, 4, HEADER_BYTES as u32);
    put_word(file, 8, events as u32);
    put_word(file, 12, events_at as u32);
}

/// A count so large that offset and length come out right if they are added up in 32 bits:
/// the file's own counts and 2^29 or more, or sheets that end before they begin.
fn wrap_the_sums(random: &mut Random, file: &mut Vec<u8>) {
    let rounds = |random: &mut Random| random.between(1, 7) as u32;
    let (sheets, events) = (word_at(file, 0), word_at(file, 8));
    *file = match random.below(4) {
        0 => hostile::more_records(file, rounds(random), 0),
        1 => hostile::more_records(file, 0, rounds(random)),
        2 => hostile::more_records(file, rounds(random), rounds(random)),
        _ => {
            let eights = 3 * random.between(0, sheets.into()) + random.between(0, 1);
            hostile::early_events(8 * eights as u32, events.max(1))
        }
    }
}

/// Spoils one event: its kind, its padding, or a field, whether its kind has it or not.
pub fn spoil(random: &mut Random, record: &mut EventRecord) {
    // The sign of raw, and the highest bit of the others, more often than a bit below.
    let bit = 1 << if random.percent(25) { 31 } else { random.below(32) };
    match random.below(7) {
        0 => record.kind = random.pick(&[0, 10, 11, 12, 22, 128, 255, 6]),
        1 => record.padding[random.below(3) as usize] = 1 << random.below(8),
        2 => record.raw ^= bit as i32,
        3 => record.c ^= bit,
        4 => record.p ^= bit,
        5 => record.t ^= bit,
        _ => record.e ^= bit,
    }
}

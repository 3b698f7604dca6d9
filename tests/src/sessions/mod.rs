//! Invented sessions: lessons as a class would give them, the limits and one beside
//! them, signals over range by every ground, noise around zero, flat lines, rooms that
//! are hardly apart, halves at every rounding, hostile kinds, padding and fields, damaged
//! headers and lengths, long integrations, and lists with hardly an accepted event. `plans`
//! and `faults` invent what a writer of session files is given, `pages` has sessions
//! whose figures are hard to round, and `grounds` such that aim at the limits of refusal 8.

mod author;
mod damage;
pub mod faults;
pub mod grounds;
mod numbers;
pub mod pages;
pub mod plans;

use crate::file::{Session, EVENTS_LIMIT};
use crate::random::Random;
use author::Author;

/// How a session's author behaves; the numbers are chances in a hundred.
#[derive(Clone, Copy, Debug)]
pub struct Profile {
    pub name: &'static str,
    /// How often this profile is taken, out of the sum over all profiles.
    weight: u64,
    shortest: i64,
    longest: i64,
    /// A number is at its limit or one beside it.
    edge: u64,
    /// A sample's signal is over range.
    over: u64,
    /// A sample's signal is around zero or below it; a reference gas has next to nothing, and a
    /// span is the lowest, under which one raw unit is half a unit of signal.
    below: u64,
    /// A sample is the same as the last one.
    steady: u64,
    /// A room is the first one but for its pressure, its temperature or its damp; and between two
    /// events against a reference stands one that leaves what a search found.
    twin: u64,
    /// Sheets, rooms, spans and reference gases have round numbers, whose ratios leave a half
    /// at one rounding or another.
    round: u64,
    /// An event of any kind stands where a lesson would have another.
    stray: u64,
    /// A number is any that its field can hold.
    wild: u64,
    /// The event's bytes are spoilt.
    spoilt: u64,
    /// The file's header or length is spoilt.
    damaged: u64,
}

const LESSON: Profile = Profile {
    name: "lesson",
    weight: 34,
    shortest: 8,
    longest: 60,
    edge: 2,
    over: 1,
    below: 6,
    steady: 0,
    twin: 0,
    round: 0,
    stray: 3,
    wild: 0,
    spoilt: 0,
    damaged: 0,
};

pub const PROFILES: [Profile; 11] = [
    LESSON,
    Profile { name: "limits", weight: 24, edge: 30, over: 12, stray: 8, wild: 1, ..LESSON },
    Profile { name: "zero gas", weight: 14, edge: 20, over: 0, below: 80, ..LESSON },
    Profile { name: "flat line", weight: 9, below: 20, steady: 90, ..LESSON },
    Profile { name: "rooms alike", weight: 15, edge: 10, over: 8, below: 30, twin: 60, ..LESSON },
    Profile { name: "halves", weight: 12, below: 50, round: 100, ..LESSON },
    Profile {
        name: "hostile",
        weight: 12,
        edge: 8,
        over: 4,
        stray: 10,
        wild: 6,
        spoilt: 25,
        ..LESSON
    },
    Profile {
        name: "refusals",
        weight: 12,
        edge: 15,
        over: 20,
        stray: 45,
        wild: 25,
        spoilt: 5,
        ..LESSON
    },
    Profile { name: "noise", weight: 7, shortest: 0, wild: 100, stray: 100, spoilt: 60, ..LESSON },
    Profile { name: "damaged file", weight: 10, shortest: 0, longest: 12, damaged: 90, ..LESSON },
    Profile {
        name: "long",
        weight: 1,
        shortest: 600,
        longest: 2_700,
        edge: 0,
        over: 0,
        stray: 0,
        ..LESSON
    },
];

/// A made session file with the name of its profile.
pub struct Made {
    pub profile: &'static str,
    pub file: Vec<u8>,
}

fn any_profile(random: &mut Random) -> Profile {
    let all: u64 = PROFILES.iter().map(|profile| profile.weight).sum();
    let mut left = random.below(all);
    for profile in PROFILES {
        if left < profile.weight {
            return profile;
        }
        left -= profile.weight;
    }
    LESSON
}

/// A session's contents by one profile, before any damage to the file.
pub fn session(random: &mut Random, profile: &Profile) -> Session {
    let length = random.between(profile.shortest, profile.longest) as usize;
    Author::new(random, profile).write(length.min(EVENTS_LIMIT))
}

/// The session of a number under a seed: always the same one.
pub fn make(seed: u64, number: u64) -> Made {
    let mut random = Random::of_session(seed, number);
    let profile = any_profile(&mut random);
    let mut file = session(&mut random, &profile).to_bytes();
    if random.percent(profile.damaged) {
        damage::damage(&mut random, &mut file);
    }
    Made { profile: profile.name, file }
}

/// A lent output for a session of so many events: too short, just enough or with
/// bytes to spare, and full of old bytes that nobody may touch.
pub fn lent_output(random: &mut Random, answers_bytes: usize) -> Vec<u8> {
    let length = match random.below(10) {
        0 => random.below(answers_bytes as u64 + 1) as usize,
        1 => answers_bytes.saturating_sub(1),
        2 | 3 => answers_bytes,
        _ => answers_bytes + random.below(60) as usize,
    };
    old_bytes(random, length)
}

/// What a lent output holds before a call.
pub fn old_bytes(random: &mut Random, length: usize) -> Vec<u8> {
    (0..length).map(|_| random.bits() as u8).collect()
}

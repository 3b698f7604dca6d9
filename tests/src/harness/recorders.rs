//! A chart recorder beside this implementation's: over invented values, and over every word
//! both ways.

use crate::random::Random;
use crate::recorder::{Drawn, Kind, Paper, Recorder, CHANNELS, VALUES};

use super::{Campaign, Tally};

/// So many values for each session's number.
pub const VALUES_EACH: u64 = 50;

impl Campaign {
    /// Compares the words of invented values with this implementation's, and what they hold.
    pub fn against_recorder(&self, recorder: &impl Recorder) -> Result<Tally, String> {
        let mut met = Tally::owing(owed_names());
        for number in 0..self.sessions {
            let mut random = Random::of_session(self.seed, number);
            for _ in 0..VALUES_EACH {
                let (kind, drawn) = invent(&mut random);
                compare(recorder, kind, &drawn, random.bits() as u16)
                    .map_err(|why| format!("seed {}, number {number}: {why}", self.seed))?;
                met.add_drawn(kind, &drawn);
            }
        }
        Ok(met)
    }
}

/// Packs a value into a place that holds an old word, and takes the word apart.
pub fn compare(recorder: &impl Recorder, kind: u8, drawn: &Drawn, old: u16) -> Result<(), String> {
    let packed = |recorder: &dyn Recorder| {
        let mut word = old;
        (recorder.pack(kind, drawn, &mut word), word)
    };
    let (ours, theirs) = (packed(&Paper), packed(recorder));
    if ours != theirs {
        return Err(format!("kind {kind}, {drawn:?}: expected {ours:?}, got {theirs:?}"));
    }
    compare_held(recorder, kind, ours.1)
}

/// Takes a word apart, into places that hold something else.
fn compare_held(recorder: &impl Recorder, kind: u8, word: u16) -> Result<(), String> {
    let unpacked = |recorder: &dyn Recorder| {
        let (mut code, mut channel) = (!(word as i16), 0xA5);
        let status = recorder.unpack(kind, word, &mut code, &mut channel);
        (status, code, channel)
    };
    let (ours, theirs) = (unpacked(&Paper), unpacked(recorder));
    if ours != theirs {
        return Err(format!("kind {kind}, word {word:#06x}: expected {ours:?}, got {theirs:?}"));
    }
    Ok(())
}

/// Every word of both kinds taken apart, and made again from what it holds, on a scale whose steps
/// are 1 pmol/mol; every word of every other kind is turned away.
pub fn every_word(recorder: &impl Recorder) -> Result<(), String> {
    for word in 0..=u16::MAX {
        for kind in [0, 1] {
            compare_held(recorder, kind, word)?;
            let (mut code, mut channel, mut again) = (0, 0, !word);
            recorder.unpack(kind, word, &mut code, &mut channel);
            let steps = Kind::of(kind).map_or(0, Kind::steps);
            let (x, channel) = (i64::from(code), u32::from(channel));
            let status = recorder.pack(kind, &Drawn { x, x0: 0, xf: steps, channel }, &mut again);
            if (status, again) != (0, word) {
                return Err(format!("kind {kind}, word {word:#06x} is {status}, {again:#06x}"));
            }
        }
        (2..=255).try_for_each(|kind| compare_held(recorder, kind, word))?;
    }
    Ok(())
}

/// A kind byte and a value: mostly such that are taken, around the codes where something changes.
fn invent(random: &mut Random) -> (u8, Drawn) {
    let kind = if random.percent(3) { random.between(2, 255) as u8 } else { random.pick(&[0, 1]) };
    let (x0, xf) = scale(random);
    let x = value(random, Kind::of(kind).unwrap_or(Kind::Voltage), x0, xf);
    let channel = match random.below(100) {
        0..=95 => random.between(0, 15) as u32,
        // In sixteen bits 65,536 is 0, and in a byte 256.
        96 => random.pick(&[256, 65_536, 65_539, 1 << 28]),
        97 => random.pick(&[1 << 31, u32::MAX]),
        _ => 16,
    };
    let mut drawn = Drawn { x, x0, xf, channel };
    if random.percent(1) {
        // Ends in their order, and both of them outside.
        let far = LIMIT + random.between(1, 1 << 33);
        (drawn.x0, drawn.xf) = random.pick(&[(LIMIT + 1, far + 1), (-far - 1, -LIMIT - 1)]);
    } else if random.percent(6) {
        let place = random.pick(&[0, 1, 2]);
        let place = [&mut drawn.x, &mut drawn.x0, &mut drawn.xf].into_iter().nth(place);
        place.into_iter().for_each(|value| *value = beyond(random));
    }
    (kind, drawn)
}

const LIMIT: i64 = *VALUES.end();

/// Outside the range: by one, far outside, and where 32 bits would bring it back.
fn beyond(random: &mut Random) -> i64 {
    let over =
        [LIMIT + 1, i64::MAX, i64::MAX - 1, LIMIT + (1 << 32), random.between(LIMIT + 1, 1 << 62)];
    let size = random.pick(&over);
    random.pick(&[size, -size, i64::MIN, -LIMIT - 1])
}

fn anywhere(random: &mut Random) -> i64 {
    random.between(-LIMIT, LIMIT)
}

/// Ends of a scale, in a few cases not in their order.
fn scale(random: &mut Random) -> (i64, i64) {
    let (one, other) = (anywhere(random), anywhere(random));
    match random.below(100) {
        0..=2 => (one, one),
        3..=5 => (one.max(other), one.min(other)),
        6..=9 => (-LIMIT, LIMIT),
        10..=12 => (-LIMIT, -LIMIT + random.between(1, 9_000)),
        13..=15 => (LIMIT - random.between(1, 9_000), LIMIT),
        16..=30 => (one, (one + random.between(1, 20)).min(LIMIT)),
        // Of such a width every half step is a whole number of pmol/mol.
        31..=60 => {
            let low = one.clamp(-LIMIT, LIMIT - 8_192_000);
            (low, low + 8_192 * random.between(1, 1_000))
        }
        _ => (one.min(other), one.max(other)),
    }
}

/// A value on a scale: anywhere, or where the ratio is at a half between two codes, or next to it.
fn value(random: &mut Random, kind: Kind, x0: i64, xf: i64) -> i64 {
    let (width, steps) = (i128::from(xf) - i128::from(x0), i128::from(kind.steps()));
    let codes = kind.codes();
    let (lowest, highest) = (i128::from(*codes.start()), i128::from(*codes.end()));
    let code = match random.below(10) {
        0 => return anywhere(random),
        1 => return random.pick(&[-LIMIT, LIMIT, x0, xf]),
        2 => lowest - 1,
        3 => random.pick(&[lowest, highest]),
        4 => highest - 1,
        5 => random.pick(&[-1, 0]),
        _ => i128::from(random.between(*codes.start(), *codes.end())),
    };
    let half = i128::from(x0) + (2 * code + 1) * width / (2 * steps);
    let near = half + i128::from(random.pick(&[-1, 0, 0, 1]));
    near.clamp(i128::from(-LIMIT), i128::from(LIMIT)) as i64
}

/// Why a value is turned away.
const GROUNDS: [&str; 9] = [
    "X too low",
    "X too high",
    "X0 too low",
    "X0 too high",
    "XF too low",
    "XF too high",
    "XF at X0",
    "XF below X0",
    "channel too high",
];

fn grounds(drawn: &Drawn) -> Vec<&'static str> {
    let Drawn { x, x0, xf, channel } = *drawn;
    let ends = [x, x0, xf].map(|value| [value < *VALUES.start(), value > *VALUES.end()]);
    let others = [xf == x0, xf < x0, channel > *CHANNELS.end()];
    let holds = ends.into_iter().flatten().chain(others);
    GROUNDS.into_iter().zip(holds).filter(|(_, holds)| *holds).map(|(name, _)| name).collect()
}

/// What becomes of a value that is taken.
const FATES: [&str; 7] = [
    "held low",
    "held high",
    "not held",
    "a half above zero",
    "a half below zero",
    "a half held low",
    "a half held high",
];

fn fates(kind: Kind, drawn: &Drawn) -> Vec<&'static str> {
    let (rounded, code) = (drawn.rounded(kind), i128::from(drawn.code(kind)));
    let (upper, lower) = drawn.exact(kind);
    let half = upper % lower != 0 && (2 * upper) % lower == 0;
    // Beyond an end by the half alone.
    let (low, high) = (rounded == code - 1, rounded == code + 1);
    let free = rounded == code;
    let holds = [
        rounded < code,
        rounded > code,
        free,
        half && free && upper > 0,
        half && free && upper < 0,
        half && low,
        half && high,
    ];
    FATES.into_iter().zip(holds).filter(|(_, holds)| *holds).map(|(name, _)| name).collect()
}

/// At an end of its range, and taken.
fn ends(drawn: &Drawn) -> Vec<String> {
    let values = [("X", drawn.x), ("X0", drawn.x0), ("XF", drawn.xf)];
    let values = values.into_iter().filter(|(_, value)| value.abs() == LIMIT);
    let named = values.map(|(name, value)| format!("{name} {value}"));
    let channel = [0, 15].contains(&drawn.channel).then(|| format!("channel {}", drawn.channel));
    named.chain(channel).collect()
}

fn owed_names() -> Vec<String> {
    let kinds = [Kind::Voltage, Kind::Current];
    let fates = kinds.iter().flat_map(|kind| FATES.map(|fate| format!("{kind:?}, {fate}")));
    // A current channel has no code below zero.
    let fates = fates.filter(|name| name != "Current, a half below zero");
    // In their order, a lower end above the range has an upper one above it, too.
    let alone = GROUNDS.iter().filter(|name| !["X0 too high", "XF too low"].contains(name));
    let both = ["X0 too low and XF too low", "X0 too high and XF too high", "no such kind"];
    let grounds = alone.chain(&both).map(|name| format!("18: {name}"));
    let values = ["X -4000000000", "X 4000000000", "X0 -4000000000", "XF 4000000000"];
    let ends = values.iter().chain(&["channel 0", "channel 15"]).map(|name| name.to_string());
    fates.chain(grounds).chain(ends).collect()
}

impl Tally {
    fn add_drawn(&mut self, kind: u8, drawn: &Drawn) {
        let grounds = grounds(drawn);
        match (Kind::of(kind), &grounds[..]) {
            (Some(kind), []) => {
                let fates = fates(kind, drawn);
                fates.iter().for_each(|fate| self.meet(format!("{kind:?}, {fate}")));
                ends(drawn).into_iter().for_each(|name| self.meet(name));
            }
            (Some(_), some) => self.meet(format!("18: {}", some.join(" and "))),
            (None, []) => self.meet("18: no such kind".to_string()),
            (None, _) => self.meet("18: no such kind, and more".to_string()),
        }
    }
}

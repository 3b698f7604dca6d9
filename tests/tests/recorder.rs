//! R-8's chart recorder: values worked out by hand, what document 02 says of every code, what the
//! invented values reach, and recorders that are wrong: a comparison that could not fail would be
//! worth nothing.

use std::path::Path;

use irga_tests::harness::recorders::{compare, every_word};
use irga_tests::harness::Campaign;
use irga_tests::random::Random;
use irga_tests::recorder::by_hand;
use irga_tests::recorder::{pack, unpack, word, Drawn, Kind, Paper, Recorder};

fn campaign(sessions: u64) -> Campaign {
    let folder = Path::new(env!("CARGO_TARGET_TMPDIR")).to_path_buf();
    Campaign { seed: 0x6280, sessions, folder }
}

#[test]
fn values_worked_out_by_hand() {
    for owed in by_hand::owed() {
        assert_eq!(owed.check(&Paper), Ok(()));
    }
}

#[test]
fn every_word_both_ways() {
    assert_eq!(every_word(&Paper), Ok(()));
}

/// How often, with `-- --nocapture`.
#[test]
fn what_invented_values_reach() {
    let met = campaign(2_000).against_recorder(&Paper).unwrap_or_else(|why| panic!("{why}"));
    println!("{met}");
    let rare = met.rarer_than(20);
    assert!(rare.is_empty(), "{rare:?}");
}

/// A code that is not held is within half a step of the exact ratio, and at a half further from
/// zero; a held one is at the end that the exact ratio is beyond by half a step or more; and none
/// falls as X rises. Half of the scales have a whole number of pmol/mol for a half step.
#[test]
fn what_document_02_says_of_every_code() {
    let mut random = Random::new(0x6281);
    let mut met = [0; 5];
    for _ in 0..200_000 {
        let kind = random.pick(&[Kind::Voltage, Kind::Current]);
        let x0 = random.between(-4_000_000_000, 3_990_000_000);
        let drawn = if random.percent(50) {
            let (half, odd) = (random.between(1, 300), 2 * random.between(-3_000, 5_000) + 1);
            let xf = x0 + 2 * half * kind.steps();
            let x = (x0 + odd * half).clamp(-4_000_000_000, 4_000_000_000);
            Drawn { x, x0, xf, channel: 7 }
        } else {
            let width = random.pick(&[9, 9_000, 8_000_000_000]);
            let xf = random.between(x0 + 1, (x0 + width).min(4_000_000_000));
            Drawn { x: random.between(-4_000_000_000, 4_000_000_000), x0, xf, channel: 7 }
        };
        met[assert_code(kind, &drawn) as usize] += 1;
        let higher = Drawn { x: random.between(drawn.x, 4_000_000_000), ..drawn };
        assert!(drawn.code(kind) <= higher.code(kind), "{drawn:?} {higher:?}");
    }
    println!("held low, held high, free, halves above zero and below it: {met:?}");
    assert!(met.iter().all(|count| *count > 5_000), "{met:?}");
}

/// Where a code lies.
#[derive(Clone, Copy)]
enum Place {
    HeldLow,
    HeldHigh,
    Free,
    HalfAbove,
    HalfBelow,
}

/// Without a word of how a ratio is rounded: by the exact one alone.
fn assert_code(kind: Kind, drawn: &Drawn) -> Place {
    let (upper, lower) = drawn.exact(kind);
    let (code, codes) = (drawn.code(kind), kind.codes());
    let (lowest, highest) = (*codes.start(), *codes.end());
    let packed = pack(kind as u8, drawn).expect("a word");
    assert_eq!(unpack(kind as u8, packed), Ok((code as i16, 7)), "{drawn:?}");
    // Twice the distance from the exact ratio, times its denominator.
    let off = |code: i64| 2 * (i128::from(code) * lower - upper);
    if off(lowest) >= lower {
        assert_eq!(code, lowest, "{drawn:?}");
        return Place::HeldLow;
    }
    if -off(highest) >= lower {
        assert_eq!(code, highest, "{drawn:?}");
        return Place::HeldHigh;
    }
    assert!(off(code).abs() <= lower, "{drawn:?}");
    if off(code).abs() < lower {
        return Place::Free;
    }
    assert_eq!(off(code) > 0, upper > 0, "{drawn:?}");
    if upper > 0 {
        Place::HalfAbove
    } else {
        Place::HalfBelow
    }
}

/// A recorder that does as this one, but for what is made of a value or of a word.
struct Faulty {
    pack: fn(u8, &Drawn, &mut u16) -> u8,
    unpack: fn(u8, u16, &mut i16, &mut u8) -> u8,
}

impl Recorder for Faulty {
    fn pack(&self, kind: u8, drawn: &Drawn, word: &mut u16) -> u8 {
        (self.pack)(kind, drawn, word)
    }

    fn unpack(&self, kind: u8, word: u16, code: &mut i16, channel: &mut u8) -> u8 {
        (self.unpack)(kind, word, code, channel)
    }
}

/// Of what is taken, the word from a code that is made otherwise.
fn recoded(kind: u8, drawn: &Drawn, word: &mut u16, code: fn(Kind, &Drawn) -> i64) -> u8 {
    let status = Paper.pack(kind, drawn, word);
    if let (0, Some(kind)) = (status, Kind::of(kind)) {
        *word = irga_tests::recorder::word(code(kind, drawn), drawn.channel);
    }
    status
}

fn floor(drawn: &Drawn, kind: Kind, halves: i128) -> i64 {
    let (upper, lower) = drawn.exact(kind);
    let held = (2 * upper + halves * lower).div_euclid(2 * lower);
    let codes = kind.codes();
    held.clamp(i128::from(*codes.start()), i128::from(*codes.end())) as i64
}

const WRONG_PACKS: [(&str, fn(u8, &Drawn, &mut u16) -> u8); 12] = [
    ("2047 steps for 2048", |kind, drawn, word| {
        recoded(kind, drawn, word, |kind, drawn| match kind {
            Kind::Voltage => {
                let (upper, lower) = drawn.exact(kind);
                let ratio = irga_tests::rules::near(upper / 2_048 * 2_047, lower);
                ratio.clamp(-2_048, 2_047) as i64
            }
            Kind::Current => drawn.code(kind),
        })
    }),
    ("a current held at 4096", |kind, drawn, word| {
        recoded(kind, drawn, word, |kind, drawn| match kind {
            Kind::Voltage => drawn.code(kind),
            Kind::Current => drawn.rounded(kind).clamp(0, 4_096) as i64,
        })
    }),
    ("a voltage held at 2048", |kind, drawn, word| {
        recoded(kind, drawn, word, |kind, drawn| match kind {
            Kind::Voltage => drawn.rounded(kind).clamp(-2_048, 2_048) as i64,
            Kind::Current => drawn.code(kind),
        })
    }),
    ("halves up", |kind, drawn, word| recoded(kind, drawn, word, |k, drawn| floor(drawn, k, 1))),
    ("rounded down", |kind, drawn, word| recoded(kind, drawn, word, |k, drawn| floor(drawn, k, 0))),
    ("a sign and a size", |kind, drawn, word| {
        recoded(kind, drawn, word, |kind, drawn| {
            let code = drawn.code(kind);
            if code < 0 {
                2_048 | (-code & 2_047)
            } else {
                code
            }
        })
    }),
    ("the channel shifted by 8", |kind, drawn, place| {
        let status = Paper.pack(kind, drawn, place);
        if status == 0 {
            *place = (*place & 4_095) | (drawn.channel << 8) as u16;
        }
        status
    }),
    ("the word kept at 18", |kind, drawn, place| {
        let old = *place;
        let status = Paper.pack(kind, drawn, place);
        if status != 0 {
            *place = old;
        }
        status
    }),
    ("a channel of sixteen bits", |kind, drawn, place| {
        let channel = u32::from(drawn.channel as u16);
        Paper.pack(kind, &Drawn { channel, ..*drawn }, place)
    }),
    ("a value of 4,000,000,000 turned away", |kind, drawn, place| {
        let taken = drawn.x.unsigned_abs() < 4_000_000_000;
        Paper.pack(if taken { kind } else { 2 }, drawn, place)
    }),
    ("a value beyond the range held", |kind, drawn, place| {
        let x = drawn.x.clamp(-4_000_000_000, 4_000_000_000);
        Paper.pack(kind, &Drawn { x, ..*drawn }, place)
    }),
    ("ends in any order", |kind, drawn, place| {
        let (x0, xf) = (drawn.x0.min(drawn.xf), drawn.x0.max(drawn.xf));
        Paper.pack(kind, &Drawn { x0, xf, ..*drawn }, place)
    }),
];

const WRONG_UNPACKS: [(&str, fn(u8, u16, &mut i16, &mut u8) -> u8); 5] = [
    ("two's complement lost", |kind, word, code, channel| {
        let status = Paper.unpack(kind, word, code, channel);
        if status == 0 {
            *code = (word & 4_095) as i16;
        }
        status
    }),
    ("one's complement", |kind, word, code, channel| {
        let status = Paper.unpack(kind, word, code, channel);
        if status == 0 && *code < 0 {
            *code += 1;
        }
        status
    }),
    ("a current with a sign", |kind, word, code, channel| {
        Paper.unpack(if kind == 1 { 0 } else { kind }, word, code, channel)
    }),
    ("code and channel exchanged", |kind, word, code, channel| {
        let status = Paper.unpack(kind, word, code, channel);
        if status == 0 {
            (*code, *channel) = (i16::from(*channel), *code as u8);
        }
        status
    }),
    ("places cleared at 18", |kind, word, code, channel| {
        (*code, *channel) = (0, 0);
        Paper.unpack(kind, word, code, channel)
    }),
];

fn caught(recorder: &Faulty) -> [bool; 2] {
    [campaign(200).against_recorder(recorder).is_err(), every_word(recorder).is_err()]
}

#[test]
fn wrong_recorders_are_caught() {
    for (name, pack) in WRONG_PACKS {
        let recorder = Faulty { pack, unpack: |kind, word, c, n| Paper.unpack(kind, word, c, n) };
        assert!(caught(&recorder)[0], "{name}");
    }
    for (name, unpack) in WRONG_UNPACKS {
        let recorder = Faulty { pack: |kind, drawn, word| Paper.pack(kind, drawn, word), unpack };
        assert_eq!(caught(&recorder), [true, true], "{name}");
    }
}

/// The comparison itself: one that is right passes at every place that a wrong one is caught at.
#[test]
fn a_right_recorder_passes() {
    let right = Faulty {
        pack: |kind, drawn, word| Paper.pack(kind, drawn, word),
        unpack: |kind, word, code, channel| Paper.unpack(kind, word, code, channel),
    };
    assert_eq!(caught(&right), [false, false]);
    let drawn = Drawn { x: 1, x0: 0, xf: 2, channel: 3 };
    assert_eq!(compare(&right, 0, &drawn, 0xFFFF), Ok(()));
    assert_eq!(word(drawn.code(Kind::Voltage), 3), 0x3400);
}

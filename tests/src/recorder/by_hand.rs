//! Values whose words were worked out by hand: the examples of source document 001, each limit of
//! document 02's R-8 and one beyond it, and the ends of the numbers' own widths.

use super::{Drawn, Recorder};

/// What is owed to a value: a status and a word.
#[derive(Clone, Copy, Debug, PartialEq, Eq)]
pub struct Owed {
    pub kind: u8,
    pub drawn: Drawn,
    pub status: u8,
    pub word: u16,
}

impl Owed {
    /// The place holds another word before, so that a word that stays is seen.
    pub fn check(&self, recorder: &impl Recorder) -> Result<(), String> {
        let mut word = !self.word;
        let status = recorder.pack(self.kind, &self.drawn, &mut word);
        if (status, word) == (self.status, self.word) {
            return Ok(());
        }
        Err(format!("{self:x?}: got {status}, {word:#06x}"))
    }
}

const UMOL: i64 = 1_000_000;
const LIMIT: i64 = 4_000_000_000;
const VOLTAGE: u8 = 0;
const CURRENT: u8 = 1;

/// Kind, X, X0, XF, channel, and the word.
type Row = (u8, i64, i64, i64, u32, u16);

/// "To allow a range of −100 to +100 µmol/mol": −40 is 8.8 mA, 0.3 of 4 to 20 mA, 1,228.8 of 4,096
/// steps. "Zero volts corresponds to 0 µmol/mol", "full scale corresponds to 100": 0 V, 2.5 V, and
/// 5 V, which the highest code is a step short of, and −5 V. "If XF = 1000 and X0 = 0, the
/// resolution will be about 0.5 µmol/mol on either voltage channel, and 0.25 µmol/mol on the current
/// channel": 1000/2048 is 0.48828125, and half of it 0.244140625, which is 1000/4096, too.
const MAKERS: [Row; 10] = [
    (CURRENT, -40 * UMOL, -100 * UMOL, 100 * UMOL, 0, 1_229),
    (VOLTAGE, 0, 0, 100 * UMOL, 0, 0),
    (VOLTAGE, 50 * UMOL, 0, 100 * UMOL, 0, 1_024),
    (VOLTAGE, 100 * UMOL, 0, 100 * UMOL, 0, 2_047),
    (VOLTAGE, -100 * UMOL, 0, 100 * UMOL, 0, 0x800),
    (VOLTAGE, 244_140, 0, 1_000 * UMOL, 0, 0),
    (VOLTAGE, 244_141, 0, 1_000 * UMOL, 0, 1),
    (VOLTAGE, -244_141, 0, 1_000 * UMOL, 0, 0xFFF),
    (CURRENT, 122_070, 0, 1_000 * UMOL, 0, 0),
    (CURRENT, 122_071, 0, 1_000 * UMOL, 0, 1),
];

/// On scales whose steps are 1 µmol/mol, or 1 or 2 pmol/mol for a current: halves and 1 pmol/mol less,
/// codes at both ends of each kind and beyond them; channel numbers in the top bits.
const CODES: [Row; 24] = [
    (VOLTAGE, -3 * UMOL, 0, 2_048 * UMOL, 15, 0xFFFD),
    (VOLTAGE, 499_999, 0, 2_048 * UMOL, 1, 0x1000),
    (VOLTAGE, 500_000, 0, 2_048 * UMOL, 1, 0x1001),
    (VOLTAGE, -499_999, 0, 2_048 * UMOL, 1, 0x1000),
    (VOLTAGE, -500_000, 0, 2_048 * UMOL, 1, 0x1FFF),
    (VOLTAGE, 2_046_499_999, 0, 2_048 * UMOL, 2, 0x27FE),
    (VOLTAGE, 2_046_500_000, 0, 2_048 * UMOL, 2, 0x27FF),
    (VOLTAGE, 2_047_500_000, 0, 2_048 * UMOL, 2, 0x27FF),
    (VOLTAGE, LIMIT, 0, 2_048 * UMOL, 2, 0x27FF),
    (VOLTAGE, -2_047_499_999, 0, 2_048 * UMOL, 2, 0x2801),
    (VOLTAGE, -2_047_500_000, 0, 2_048 * UMOL, 2, 0x2800),
    (VOLTAGE, -2_048_500_000, 0, 2_048 * UMOL, 2, 0x2800),
    (VOLTAGE, -LIMIT, 0, 2_048 * UMOL, 2, 0x2800),
    (CURRENT, 1, 0, 8_192, 8, 0x8001),
    (CURRENT, -1, 0, 8_192, 8, 0x8000),
    (CURRENT, 8_188, 0, 8_192, 8, 0x8FFE),
    (CURRENT, 8_189, 0, 8_192, 8, 0x8FFF),
    (CURRENT, 8_191, 0, 8_192, 8, 0x8FFF),
    (CURRENT, -1, 0, 4_096, 8, 0x8000),
    (CURRENT, -LIMIT, 0, 4_096, 8, 0x8000),
    (CURRENT, 4_094, 0, 4_096, 8, 0x8FFE),
    (CURRENT, 4_095, 0, 4_096, 15, 0xFFFF),
    (CURRENT, 4_096, 0, 4_096, 0, 0x0FFF),
    (CURRENT, LIMIT, 0, 4_096, 0, 0x0FFF),
];

/// At a limit: X and both ends, the widest scale and the narrowest, and the last channel.
const AT_A_LIMIT: [Row; 7] = [
    (VOLTAGE, LIMIT, -LIMIT, LIMIT, 15, 0xF7FF),
    (VOLTAGE, 0, -LIMIT, LIMIT, 15, 0xF400),
    (CURRENT, 0, -LIMIT, LIMIT, 15, 0xF800),
    (CURRENT, -LIMIT, -LIMIT, LIMIT, 15, 0xF000),
    (VOLTAGE, LIMIT, LIMIT - 1, LIMIT, 0, 0x07FF),
    (VOLTAGE, LIMIT - 1, LIMIT - 1, LIMIT, 0, 0),
    (CURRENT, -LIMIT, -LIMIT, 1 - LIMIT, 0, 0),
];

/// One beyond a limit, and the ends of the widths: 18, and the word 0.
const BEYOND: [(u8, i64, i64, i64, u32); 25] = [
    (VOLTAGE, LIMIT + 1, -LIMIT, LIMIT, 15),
    (VOLTAGE, -LIMIT - 1, -LIMIT, LIMIT, 15),
    (VOLTAGE, 0, -LIMIT - 1, LIMIT, 15),
    (VOLTAGE, 0, -LIMIT, LIMIT + 1, 15),
    (CURRENT, LIMIT + 1, -LIMIT, LIMIT, 15),
    (CURRENT, -LIMIT - 1, -LIMIT, LIMIT, 15),
    (CURRENT, 0, -LIMIT - 1, LIMIT, 15),
    (CURRENT, 0, -LIMIT, LIMIT + 1, 15),
    (VOLTAGE, 0, LIMIT + 1, LIMIT + 2, 0),
    (VOLTAGE, 0, -LIMIT - 2, -LIMIT - 1, 0),
    (VOLTAGE, i64::MAX, -LIMIT, LIMIT, 0),
    (VOLTAGE, i64::MIN, -LIMIT, LIMIT, 0),
    (VOLTAGE, 0, i64::MIN, LIMIT, 0),
    (VOLTAGE, 0, -LIMIT, i64::MAX, 0),
    (CURRENT, i64::MIN, i64::MIN, i64::MAX, 0),
    (CURRENT, i64::MAX, i64::MIN, i64::MAX, u32::MAX),
    (VOLTAGE, 0, 0, 0, 0),
    (CURRENT, 5, 5, 5, 0),
    (CURRENT, 0, LIMIT, LIMIT, 0),
    (CURRENT, 0, 1, 0, 0),
    (VOLTAGE, 0, LIMIT, -LIMIT, 0),
    (VOLTAGE, 0, 0, 1, 16),
    (CURRENT, 0, 0, 1, 65_536),
    (CURRENT, 0, 0, 1, u32::MAX),
    (2, 0, 0, 1, 0),
];

pub fn owed() -> Vec<Owed> {
    let taken = MAKERS.into_iter().chain(CODES).chain(AT_A_LIMIT);
    let taken = taken.map(|(kind, x, x0, xf, channel, word)| Owed {
        kind,
        drawn: Drawn { x, x0, xf, channel },
        status: 0,
        word,
    });
    let refused = BEYOND.into_iter().map(|(kind, x, x0, xf, channel)| Owed {
        kind,
        drawn: Drawn { x, x0, xf, channel },
        status: 18,
        word: 0,
    });
    let other_kinds = (2..=255).map(|kind| Owed {
        kind,
        drawn: Drawn { x: 1, x0: 0, xf: 1, channel: 1 },
        status: 18,
        word: 0,
    });
    taken.chain(refused).chain(other_kinds).collect()
}

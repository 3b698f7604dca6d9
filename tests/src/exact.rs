//! Exact values as pairs of whole numbers, the lower one above 0, and equation
//! (11) in them. Nothing here rounds and nothing here refuses.

use crate::big::Big;
use crate::rules::{Air, Sheet, P0, SPAN_UNIT};

/// Upper over lower number; the lower one is above 0. Pairs are not reduced:
/// comparisons multiply across, which does not mind a common factor.
#[derive(Clone, Debug)]
pub struct Fraction {
    pub upper: Big,
    pub lower: Big,
}

impl Fraction {
    pub fn new(upper: Big, lower: Big) -> Fraction {
        assert!(!lower.is_negative() && !lower.is_zero(), "the lower number is above 0");
        Fraction { upper, lower }
    }

    pub fn of(upper: i128, lower: i128) -> Fraction {
        Fraction::new(Big::from(upper), Big::from(lower))
    }

    pub fn whole(number: i128) -> Fraction {
        Fraction::of(number, 1)
    }

    pub fn plus(&self, other: &Fraction) -> Fraction {
        let upper = &(&self.upper * &other.lower) + &(&other.upper * &self.lower);
        Fraction::new(upper, &self.lower * &other.lower)
    }

    pub fn times(&self, other: &Fraction) -> Fraction {
        Fraction::new(&self.upper * &other.upper, &self.lower * &other.lower)
    }

    pub fn minus(&self, other: &Fraction) -> Fraction {
        self.plus(&other.times(&Fraction::whole(-1)))
    }

    pub fn equals(&self, other: &Fraction) -> bool {
        &self.upper * &other.lower == &other.upper * &self.lower
    }

    pub fn is_negative(&self) -> bool {
        self.upper.is_negative()
    }

    /// Whether this value is farther from 0 than another.
    pub fn is_farther_than(&self, other: &Fraction) -> bool {
        &self.upper.magnitude() * &other.lower > &other.upper.magnitude() * &self.lower
    }

    /// The whole number less this value, times the lower number.
    fn gap(&self, whole: i128) -> Big {
        &(&Big::from(whole) * &self.lower) - &self.upper
    }

    /// Whether a whole number lies within the allowed distance of this value.
    pub fn within(&self, whole: i128, allowed: i128) -> bool {
        self.gap(whole).magnitude() <= &Big::from(allowed) * &self.lower
    }

    pub fn at_least(&self, whole: i128) -> bool {
        let gap = self.gap(whole);
        gap.is_negative() || gap.is_zero()
    }

    pub fn less_than(&self, whole: i128) -> bool {
        !self.at_least(whole)
    }

    /// The whole number less this value, as a double to look at.
    pub fn error_of(&self, whole: i128) -> f64 {
        self.gap(whole).ratio(&self.lower)
    }

    /// The value in decimals, cut after some digits, with its sign.
    pub fn decimal(&self, digits: u32) -> String {
        let scale = 10i128.pow(digits);
        let scaled = &self.upper.magnitude() * &Big::from(scale);
        let (cut, _) = scaled.divide(&self.lower);
        let (units, rest) = cut.divide(&Big::from(scale));
        let sign = if self.upper.is_negative() { "-" } else { "" };
        let (units, rest) = (small(&units), small(&rest));
        format!("{sign}{units}.{rest:0width$}", width = digits as usize)
    }
}

/// A number of the size of a wet value, which a double holds exactly.
fn small(number: &Big) -> u64 {
    number.ratio(&Big::from(1)) as u64
}

/// A sum of fractions with one part for each different lower number. Readings in
/// one room share theirs, so a long series stays a few numbers of moderate size.
#[derive(Clone, Debug, Default)]
pub struct Sum {
    parts: Vec<Fraction>,
}

impl Sum {
    /// Adds a fraction so many times.
    pub fn add(&mut self, fraction: &Fraction, times: i128) {
        let upper = &fraction.upper * &Big::from(times);
        let found = self.parts.iter_mut().find(|part| part.lower == fraction.lower);
        match found {
            Some(part) => part.upper = &part.upper + &upper,
            None => self.parts.push(Fraction::new(upper, fraction.lower.clone())),
        }
    }

    /// The sum times a whole number.
    pub fn scaled(&self, times: i128) -> Sum {
        let by = Big::from(times);
        let scale = |part: &Fraction| Fraction::new(&part.upper * &by, part.lower.clone());
        Sum { parts: self.parts.iter().map(scale).collect() }
    }

    pub fn total(&self) -> Fraction {
        let mut parts = self.parts.iter();
        let first = parts.next().cloned().unwrap_or_else(|| Fraction::whole(0));
        parts.fold(first, |total, part| total.plus(part))
    }
}

/// (raw − Q) S / 10^6.
pub fn signal_from_raw(raw: i64, q: i64, s: i64) -> Fraction {
    Fraction::of(i128::from(raw - q) * i128::from(s), i128::from(SPAN_UNIT))
}

/// R + V − V R / K, over the lower number of V times K.
pub fn signal_against(v: &Fraction, r: i64, k: i64) -> Fraction {
    let reference = &(&Big::from(i128::from(r)) * &Big::from(i128::from(k))) * &v.lower;
    let sample = &v.upper * &Big::from(i128::from(k - r));
    Fraction::new(&reference + &sample, &v.lower * &Big::from(i128::from(k)))
}

const TEN_TO_7: i128 = 10_000_000;

/// Equation (11) at a signal: C = χ F(V P0/(P χ)) T/T0 with χ = D/(100 P), in
/// pmol/mol. With z = n/d the cubic is n (A1 d² 10^14 + A2 n d 10^7 + A3 n²) over
/// d³ 10^21: one pair, without the lower numbers that a sum of terms would pile up. Below
/// a signal of zero F is the straight line a1 Z.
pub fn equation_11(sheet: &Sheet, air: &Air, signal: &Fraction) -> Fraction {
    let whole = |number: i64| Big::from(i128::from(number));
    let broadened = whole(air.broadened());
    let n = &signal.upper * &whole(100 * P0);
    let d = &signal.lower * &broadened;
    let a1 = Big::from(i128::from(sheet.a1) * TEN_TO_7 * TEN_TO_7);
    // Below zero the straight line a1 Z: the square and the cube have no part in it.
    let (square, cube) = if signal.is_negative() { (0, 0) } else { (sheet.a2, sheet.a3) };
    let a2 = Big::from(i128::from(square) * TEN_TO_7);
    let a3 = whole(cube);
    let linear_and_square = &(&(&a1 * &d) + &(&a2 * &n)) * &d;
    let cubic = &(&a3 * &n) * &n;
    let upper = &n * &(&linear_and_square + &cubic);
    let lower = &(&d * &d) * &(&d * &Big::from(TEN_TO_7 * TEN_TO_7 * TEN_TO_7));
    Fraction::new(&upper * &(&broadened * &whole(air.t)), &lower * &whole(100 * air.p * sheet.t0))
}

/// An exact wet value times P / (P − e).
pub fn dry_value(wet: &Fraction, air: &Air) -> Fraction {
    wet.times(&Fraction::of(i128::from(air.p), i128::from(air.p - air.e)))
}

#[cfg(test)]
mod tests {
    use super::*;
    use crate::random::Random;

    fn some_sheet(random: &mut Random) -> Sheet {
        Sheet {
            a1: random.between(1, 1_000_000_000),
            a2: random.between(0, 100_000_000),
            a3: random.between(0, 10_000_000),
            t0: random.between(27_315, 32_315),
            k: random.between(10_000_000, 400_000_000),
        }
    }

    fn some_air(random: &mut Random) -> Air {
        let p = random.between(60_000, 115_000);
        Air { p, t: random.between(27_315, 32_315), e: random.between(0, p / 10) }
    }

    /// Document 004's equation term by term, in µmol/mol and mV, times 10^6; below zero with
    /// document 02's a1 Z for its polynomial.
    fn as_printed(sheet: &Sheet, air: &Air, signal: &Fraction) -> Fraction {
        let p = i128::from(air.p);
        let chi = Fraction::whole(1).plus(&Fraction::of(57 * i128::from(air.e), 100 * p));
        let inverse = Fraction::new(chi.lower.clone(), chi.upper.clone());
        let millivolts = signal.times(&Fraction::of(1, 10_000));
        let z = millivolts.times(&Fraction::of(101_300, p)).times(&inverse);
        let a1 = Fraction::of(i128::from(sheet.a1), 10i128.pow(9));
        let a2 = Fraction::of(i128::from(sheet.a2), 10i128.pow(12));
        let a3 = Fraction::of(i128::from(sheet.a3), 10i128.pow(15));
        let square = z.times(&z);
        let line = a1.times(&z);
        let cubic = line.plus(&a2.times(&square)).plus(&a3.times(&square).times(&z));
        let curve = if signal.upper.is_negative() { line } else { cubic };
        let warmth = Fraction::of(i128::from(air.t), i128::from(sheet.t0));
        curve.times(&chi).times(&warmth).times(&Fraction::whole(1_000_000))
    }

    #[test]
    fn equation_11_is_the_paper_s() {
        let mut random = Random::new(11);
        for _ in 0..500 {
            let (sheet, air) = (some_sheet(&mut random), some_air(&mut random));
            let upper = i128::from(random.between(-150_000_000, 150_000_000)) * 7;
            let signal = Fraction::of(upper, i128::from(random.between(1, 50)));
            let ours = equation_11(&sheet, &air, &signal);
            assert!(ours.equals(&as_printed(&sheet, &air, &signal)));
        }
    }

    #[test]
    fn signal_against_is_the_formula() {
        let mut random = Random::new(12);
        for _ in 0..500 {
            let v = signal_from_raw(
                random.between(-150_000_000, 150_000_000),
                random.between(-20_000_000, 20_000_000),
                random.between(500_000, 2_000_000),
            );
            let r = random.between(0, 150_000_000);
            let k = random.between(10_000_000, 400_000_000);
            let reference = Fraction::whole(i128::from(r));
            let share = v.times(&Fraction::of(i128::from(r), i128::from(k)));
            let formula = reference.plus(&v).minus(&share);
            assert!(signal_against(&v, r, k).equals(&formula));
        }
    }

    #[test]
    fn distances_and_decimals() {
        let third = Fraction::of(-7, 3);
        assert!(third.within(-2, 1) && third.within(-3, 1) && !third.within(-1, 1));
        assert!(third.at_least(-3) && third.less_than(-2) && !third.less_than(-3));
        assert!(Fraction::of(4, 2).at_least(2) && Fraction::of(4, 2).within(3, 1));
        assert!(third.is_farther_than(&Fraction::whole(2)));
        assert!(
            !third.is_farther_than(&Fraction::of(7, 3))
                && !third.is_farther_than(&Fraction::of(-5, 2))
        );
        assert_eq!(third.decimal(4), "-2.3333");
        assert_eq!(Fraction::of(1, 16).decimal(3), "0.062");
    }

    #[test]
    fn sum_groups_and_adds() {
        let mut random = Random::new(13);
        let mut sum = Sum::default();
        let mut plain = Fraction::whole(0);
        for _ in 0..40 {
            let upper = i128::from(random.between(-900, 900));
            let part = Fraction::of(upper, i128::from(random.between(1, 5)));
            sum.add(&part, 3);
            plain = plain.plus(&part.times(&Fraction::whole(3)));
        }
        assert!(sum.total().equals(&plain));
        assert!(sum.scaled(-2).total().equals(&plain.times(&Fraction::whole(-2))));
        assert!(sum.parts.len() <= 5);
    }
}

//! A signed whole number of any size. The lower number of an exact value has
//! some 325 bits, and a sum over several rooms has more, so no machine type holds it.

use std::cmp::Ordering;
use std::ops::{Add, Mul, Neg, Sub};

/// Sign and magnitude, lowest limb first. There is no zero limb on top and zero
/// is not negative, so equal numbers are equal records.
#[derive(Clone, Debug, PartialEq, Eq, Hash)]
pub struct Big {
    negative: bool,
    limbs: Vec<u64>,
}

fn trim(limbs: &mut Vec<u64>) {
    while limbs.last() == Some(&0) {
        limbs.pop();
    }
}

fn compare_magnitudes(a: &[u64], b: &[u64]) -> Ordering {
    let by_length = a.len().cmp(&b.len());
    by_length.then_with(|| a.iter().rev().cmp(b.iter().rev()))
}

fn add_magnitudes(a: &[u64], b: &[u64]) -> Vec<u64> {
    let (long, short) = if a.len() >= b.len() { (a, b) } else { (b, a) };
    let mut sum = Vec::with_capacity(long.len() + 1);
    let mut carry = 0u128;
    for (i, limb) in long.iter().enumerate() {
        let other = short.get(i).copied().unwrap_or(0);
        let total = u128::from(*limb) + u128::from(other) + carry;
        sum.push(total as u64);
        carry = total >> 64;
    }
    if carry > 0 {
        sum.push(carry as u64);
    }
    sum
}

/// `a` less `b`, for `a` at least `b`.
fn subtract_magnitudes(a: &[u64], b: &[u64]) -> Vec<u64> {
    let mut rest = Vec::with_capacity(a.len());
    let mut borrow = false;
    for (i, limb) in a.iter().enumerate() {
        let other = b.get(i).copied().unwrap_or(0);
        let (once, under) = limb.overflowing_sub(other);
        let (twice, under_again) = once.overflowing_sub(u64::from(borrow));
        rest.push(twice);
        borrow = under || under_again;
    }
    trim(&mut rest);
    rest
}

fn multiply_magnitudes(a: &[u64], b: &[u64]) -> Vec<u64> {
    let mut product = vec![0u64; a.len() + b.len()];
    for (i, x) in a.iter().enumerate() {
        let mut carry = 0u128;
        for (j, y) in b.iter().enumerate() {
            let total = u128::from(*x) * u128::from(*y) + u128::from(product[i + j]) + carry;
            product[i + j] = total as u64;
            carry = total >> 64;
        }
        product[i + b.len()] = carry as u64;
    }
    trim(&mut product);
    product
}

fn double_plus(limbs: &mut Vec<u64>, bit: u64) {
    let mut carry = bit;
    for limb in limbs.iter_mut() {
        let out = *limb >> 63;
        *limb = (*limb << 1) | carry;
        carry = out;
    }
    if carry > 0 {
        limbs.push(carry);
    }
}

impl Big {
    fn signed(negative: bool, limbs: Vec<u64>) -> Big {
        let negative = negative && !limbs.is_empty();
        Big { negative, limbs }
    }

    pub fn zero() -> Big {
        Big::signed(false, Vec::new())
    }

    pub fn is_negative(&self) -> bool {
        self.negative
    }

    pub fn is_zero(&self) -> bool {
        self.limbs.is_empty()
    }

    pub fn magnitude(&self) -> Big {
        Big::signed(false, self.limbs.clone())
    }

    /// Quotient and remainder of two numbers that are not below zero, by long
    /// division in base two. It serves only to print decimals, so it may be slow.
    pub fn divide(&self, by: &Big) -> (Big, Big) {
        assert!(!self.negative && !by.negative && !by.is_zero());
        let mut quotient = Vec::new();
        let mut rest = Vec::new();
        for limb in self.limbs.iter().rev() {
            for place in (0..64).rev() {
                double_plus(&mut rest, (limb >> place) & 1);
                let fits = compare_magnitudes(&rest, &by.limbs) != Ordering::Less;
                if fits {
                    rest = subtract_magnitudes(&rest, &by.limbs);
                }
                double_plus(&mut quotient, u64::from(fits));
            }
        }
        (Big::signed(false, quotient), Big::signed(false, rest))
    }

    /// A mantissa and a power of 2^64 whose product is nearly this number. The
    /// top three limbs carry more bits than a double keeps.
    fn scaled(&self) -> (f64, i32) {
        let skipped = self.limbs.len().saturating_sub(3);
        let base = 2f64.powi(64);
        let top = self.limbs[skipped..].iter().rev();
        let size = top.fold(0.0, |sum, limb| sum * base + *limb as f64);
        (if self.negative { -size } else { size }, skipped as i32)
    }

    /// The quotient of two numbers as a double, to look at and never to decide by.
    pub fn ratio(&self, by: &Big) -> f64 {
        let (upper, upper_scale) = self.scaled();
        let (lower, lower_scale) = by.scaled();
        upper / lower * 2f64.powi(64 * (upper_scale - lower_scale))
    }
}

impl From<i128> for Big {
    fn from(value: i128) -> Big {
        let size = value.unsigned_abs();
        let mut limbs = vec![size as u64, (size >> 64) as u64];
        trim(&mut limbs);
        Big::signed(value < 0, limbs)
    }
}

impl Add for &Big {
    type Output = Big;
    fn add(self, other: &Big) -> Big {
        if self.negative == other.negative {
            return Big::signed(self.negative, add_magnitudes(&self.limbs, &other.limbs));
        }
        match compare_magnitudes(&self.limbs, &other.limbs) {
            Ordering::Less => {
                Big::signed(other.negative, subtract_magnitudes(&other.limbs, &self.limbs))
            }
            _ => Big::signed(self.negative, subtract_magnitudes(&self.limbs, &other.limbs)),
        }
    }
}

impl Neg for &Big {
    type Output = Big;
    fn neg(self) -> Big {
        Big::signed(!self.negative, self.limbs.clone())
    }
}

impl Sub for &Big {
    type Output = Big;
    fn sub(self, other: &Big) -> Big {
        self + &-other
    }
}

impl Mul for &Big {
    type Output = Big;
    fn mul(self, other: &Big) -> Big {
        let product = multiply_magnitudes(&self.limbs, &other.limbs);
        Big::signed(self.negative != other.negative, product)
    }
}

impl Ord for Big {
    fn cmp(&self, other: &Big) -> Ordering {
        match (self.negative, other.negative) {
            (false, true) => Ordering::Greater,
            (true, false) => Ordering::Less,
            (false, false) => compare_magnitudes(&self.limbs, &other.limbs),
            (true, true) => compare_magnitudes(&other.limbs, &self.limbs),
        }
    }
}

impl PartialOrd for Big {
    fn partial_cmp(&self, other: &Big) -> Option<Ordering> {
        Some(self.cmp(other))
    }
}

#[cfg(test)]
mod tests {
    use super::*;
    use crate::random::Random;

    /// Numbers of every length, so that carries cross limbs and signs mix.
    fn number(random: &mut Random, limbs: u64) -> Big {
        let count = random.below(limbs + 1);
        let mut all: Vec<u64> = (0..count).map(|_| random.bits()).collect();
        if random.percent(30) {
            all.iter_mut().for_each(|limb| *limb = u64::MAX);
        }
        trim(&mut all);
        Big::signed(random.percent(50), all)
    }

    fn machine(random: &mut Random) -> i128 {
        let shift = random.below(64);
        i128::from(random.bits() as i64) >> shift
    }

    #[test]
    fn agrees_with_machine_numbers() {
        let mut random = Random::new(1);
        for _ in 0..50_000 {
            let (a, b) = (machine(&mut random), machine(&mut random));
            let (x, y) = (Big::from(a), Big::from(b));
            assert_eq!(&x + &y, Big::from(a + b));
            assert_eq!(&x - &y, Big::from(a - b));
            assert_eq!(&x * &y, Big::from(a * b));
            assert_eq!(x.cmp(&y), a.cmp(&b));
            assert_eq!(x.is_negative(), a < 0);
            assert_eq!(x.is_zero(), a == 0);
        }
    }

    #[test]
    fn obeys_the_laws_of_a_ring() {
        let mut random = Random::new(2);
        for _ in 0..5_000 {
            let a = number(&mut random, 12);
            let b = number(&mut random, 12);
            let c = number(&mut random, 12);
            assert_eq!(&a + &b, &b + &a);
            assert_eq!(&(&a + &b) + &c, &a + &(&b + &c));
            assert_eq!(&a * &b, &b * &a);
            assert_eq!(&(&a * &b) * &c, &a * &(&b * &c));
            assert_eq!(&a * &(&b + &c), &(&a * &b) + &(&a * &c));
            assert_eq!(&(&a - &b) + &b, a);
            let difference_of_squares = &(&a * &a) - &(&b * &b);
            assert_eq!(&(&a + &b) * &(&a - &b), difference_of_squares);
            assert_eq!(a.cmp(&b), (&a - &b).cmp(&Big::zero()));
            assert_eq!(&a * &Big::from(1), a);
            assert!((&a - &a).is_zero());
        }
    }

    #[test]
    fn division_gives_the_number_back() {
        let mut random = Random::new(3);
        for _ in 0..500 {
            let a = number(&mut random, 8).magnitude();
            let b = &number(&mut random, 4).magnitude() + &Big::from(1);
            let (quotient, rest) = a.divide(&b);
            assert_eq!(&(&quotient * &b) + &rest, a);
            assert!(rest < b);
        }
    }

    #[test]
    fn ratio_is_close() {
        let lower = &Big::from(3 << 70) * &Big::from(1 << 100);
        let upper = &lower * &Big::from(-7);
        assert_eq!(upper.ratio(&lower), -7.0);
        assert_eq!(Big::from(1).ratio(&Big::from(4)), 0.25);
    }
}

//! Big integers: a sign and a magnitude.

use std::cmp::Ordering;
use std::fmt;
use std::ops::{Add, Mul, Neg, Sub};

/// An integer of any size. Its digits are to the base 2^32, the lowest first, with no zero at the
/// high end; zero has no digit and is not negative.
#[derive(Clone, Debug, Default, PartialEq, Eq)]
pub struct Integer {
    negative: bool,
    digits: Vec<u32>,
}

impl Integer {
    fn new(negative: bool, mut digits: Vec<u32>) -> Integer {
        while digits.last() == Some(&0) {
            digits.pop();
        }
        Integer { negative: negative && !digits.is_empty(), digits }
    }

    pub fn is_zero(&self) -> bool {
        self.digits.is_empty()
    }

    pub fn is_negative(&self) -> bool {
        self.negative
    }

    pub fn abs(&self) -> Integer {
        Integer::new(false, self.digits.clone())
    }

    /// The quotient rounded towards minus infinity, and the remainder from 0 to `divisor` − 1.
    pub fn div_floor(&self, divisor: u32) -> (Integer, u32) {
        let (quotient, remainder) = div_digits(&self.digits, divisor);
        if self.negative && remainder > 0 {
            let next = add_digits(&quotient, &[1]);
            (Integer::new(true, next), divisor - remainder)
        } else {
            (Integer::new(self.negative, quotient), remainder)
        }
    }

    /// The number in 32 bits, where it has room there.
    pub fn to_i32(&self) -> Option<i32> {
        let magnitude = match self.digits[..] {
            [] => 0,
            [digit] => i64::from(digit),
            _ => return None,
        };
        i32::try_from(if self.negative { -magnitude } else { magnitude }).ok()
    }
}

impl From<i64> for Integer {
    fn from(number: i64) -> Integer {
        let magnitude = number.unsigned_abs();
        Integer::new(number < 0, vec![magnitude as u32, (magnitude >> 32) as u32])
    }
}

impl From<i32> for Integer {
    fn from(number: i32) -> Integer {
        Integer::from(i64::from(number))
    }
}

impl From<u32> for Integer {
    fn from(number: u32) -> Integer {
        Integer::from(i64::from(number))
    }
}

impl Neg for &Integer {
    type Output = Integer;

    fn neg(self) -> Integer {
        Integer::new(!self.negative, self.digits.clone())
    }
}

impl Add for &Integer {
    type Output = Integer;

    fn add(self, other: &Integer) -> Integer {
        if self.negative == other.negative {
            return Integer::new(self.negative, add_digits(&self.digits, &other.digits));
        }
        match compare_digits(&self.digits, &other.digits) {
            Ordering::Less => Integer::new(other.negative, sub_digits(&other.digits, &self.digits)),
            _ => Integer::new(self.negative, sub_digits(&self.digits, &other.digits)),
        }
    }
}

impl Sub for &Integer {
    type Output = Integer;

    fn sub(self, other: &Integer) -> Integer {
        self + &-other
    }
}

impl Mul for &Integer {
    type Output = Integer;

    fn mul(self, other: &Integer) -> Integer {
        Integer::new(self.negative != other.negative, mul_digits(&self.digits, &other.digits))
    }
}

impl Ord for Integer {
    fn cmp(&self, other: &Integer) -> Ordering {
        match (self.negative, other.negative) {
            (true, false) => Ordering::Less,
            (false, true) => Ordering::Greater,
            (false, false) => compare_digits(&self.digits, &other.digits),
            (true, true) => compare_digits(&other.digits, &self.digits),
        }
    }
}

impl PartialOrd for Integer {
    fn partial_cmp(&self, other: &Integer) -> Option<Ordering> {
        Some(self.cmp(other))
    }
}

impl fmt::Display for Integer {
    fn fmt(&self, f: &mut fmt::Formatter) -> fmt::Result {
        let mut decimals = Vec::new();
        let mut rest = self.abs();
        while decimals.is_empty() || !rest.is_zero() {
            let (quotient, decimal) = rest.div_floor(10);
            decimals.push(char::from(b'0' + decimal as u8));
            rest = quotient;
        }
        let sign = if self.negative { "-" } else { "" };
        write!(f, "{sign}{}", decimals.iter().rev().collect::<String>())
    }
}

/// The order of two magnitudes, neither with a zero at the high end.
fn compare_digits(a: &[u32], b: &[u32]) -> Ordering {
    a.len().cmp(&b.len()).then_with(|| a.iter().rev().cmp(b.iter().rev()))
}

fn add_digits(a: &[u32], b: &[u32]) -> Vec<u32> {
    let mut sum = Vec::new();
    let mut carry = 0;
    for place in 0..a.len().max(b.len()) {
        let digit = carry + digit_at(a, place) + digit_at(b, place);
        sum.push(digit as u32);
        carry = digit >> 32;
    }
    sum.push(carry as u32);
    sum
}

/// The difference of two magnitudes, the first at least as large as the second.
fn sub_digits(a: &[u32], b: &[u32]) -> Vec<u32> {
    let mut difference = Vec::new();
    let mut borrow = 0;
    for place in 0..a.len() {
        let digit = (1 << 32) + digit_at(a, place) - digit_at(b, place) - borrow;
        difference.push(digit as u32);
        borrow = 1 - (digit >> 32);
    }
    difference
}

fn mul_digits(a: &[u32], b: &[u32]) -> Vec<u32> {
    let mut product = vec![0u32; a.len() + b.len()];
    for (place, &factor) in a.iter().enumerate() {
        let mut carry = 0;
        for (digit, &other) in product[place..].iter_mut().zip(b) {
            carry += u64::from(*digit) + u64::from(factor) * u64::from(other);
            *digit = carry as u32;
            carry >>= 32;
        }
        product[place + b.len()] = carry as u32;
    }
    product
}

fn div_digits(a: &[u32], divisor: u32) -> (Vec<u32>, u32) {
    let mut quotient = vec![0; a.len()];
    let mut remainder = 0;
    for place in (0..a.len()).rev() {
        let part = (remainder << 32) + u64::from(a[place]);
        quotient[place] = (part / u64::from(divisor)) as u32;
        remainder = part % u64::from(divisor);
    }
    (quotient, remainder as u32)
}

/// A digit, which is zero past the high end.
fn digit_at(digits: &[u32], place: usize) -> u64 {
    u64::from(digits.get(place).copied().unwrap_or(0))
}

#[cfg(test)]
mod tests {
    use super::*;

    /// Numbers at and around the ends of one and two digits, of either sign.
    fn samples() -> Vec<i64> {
        let around = |end: i64| [end - 1, end, end + 1];
        let ends = [0, 10, 1 << 16, 1 << 31, 1 << 32, 1 << 33, 1 << 56, 1 << 62, i64::MAX - 1];
        let positive: Vec<i64> = ends.into_iter().flat_map(around).collect();
        let negative = positive.iter().map(|number| -number);
        positive.iter().copied().chain(negative).chain([i64::MIN]).collect()
    }

    /// Every pair of samples, as big integers and as numbers of 128 bits.
    fn pairs() -> Vec<(Integer, Integer, i128, i128)> {
        let pair = |a: i64, b: i64| (a.into(), b.into(), i128::from(a), i128::from(b));
        let samples = samples();
        samples.iter().flat_map(|&a| samples.iter().map(move |&b| pair(a, b))).collect()
    }

    /// The integer is the number: in decimals, digit by digit, and by its sign.
    fn assert_same(integer: &Integer, number: i128) {
        let magnitude = number.unsigned_abs();
        let count = (u128::BITS - magnitude.leading_zeros()).div_ceil(32);
        let digits = (0..count).map(|place| (magnitude >> (32 * place)) as u32).collect();
        assert_eq!(integer.to_string(), number.to_string());
        assert_eq!(*integer, Integer { negative: number < 0, digits });
        assert_eq!((integer.is_zero(), integer.is_negative()), (number == 0, number < 0));
    }

    #[test]
    fn sums_differences_and_products_are_exact() {
        for (a, b, x, y) in pairs() {
            assert_same(&(&a + &b), x + y);
            assert_same(&(&a - &b), x - y);
            assert_same(&(&a * &b), x * y);
        }
    }

    #[test]
    fn order_is_that_of_the_numbers() {
        for (a, b, x, y) in pairs() {
            assert_eq!(a.cmp(&b), x.cmp(&y), "{x} and {y}");
            assert_eq!(a == b, x == y, "{x} and {y}");
        }
    }

    #[test]
    fn signs_and_room_in_32_bits() {
        for number in samples() {
            let integer = Integer::from(number);
            assert_same(&-&integer, -i128::from(number));
            assert_same(&integer.abs(), i128::from(number).abs());
            assert_eq!(integer.to_i32(), i32::try_from(number).ok());
        }
    }

    #[test]
    fn division_rounds_towards_minus_infinity() {
        for number in samples() {
            for divisor in [1, 2, 3, 7, 768, u32::MAX] {
                let (quotient, remainder) = Integer::from(number).div_floor(divisor);
                let (number, divisor) = (i128::from(number), i128::from(divisor));
                assert_same(&quotient, number.div_euclid(divisor));
                assert_eq!(i128::from(remainder), number.rem_euclid(divisor));
            }
        }
    }

    #[test]
    fn long_numbers_in_decimals() {
        let power = |base: i32, exponent: u32| {
            (0..exponent).fold(Integer::from(1), |power, _| &power * &Integer::from(base))
        };
        let factorial = (1..=25).fold(Integer::from(1), |product, n: i32| &product * &n.into());
        assert_eq!(factorial.to_string(), "15511210043330985984000000");
        assert_eq!(power(3, 80).to_string(), "147808829414345923316083210206383297601");
        assert_eq!(power(-2, 101).to_string(), "-2535301200456458802993406410752");
        assert_eq!((-&power(10, 300)).to_string(), format!("-1{}", "0".repeat(300)));
        assert_eq!(&power(2, 300) * &power(5, 300), power(10, 300));
    }
}

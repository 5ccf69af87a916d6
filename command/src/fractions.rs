//! Weights with a decimal point, an exponent or a slash, rounded exactly.

use crate::natural::Natural;

/// A fraction, as it was written.
pub struct Fraction {
    negative: bool,
    numerator: Natural,
    denominator: Natural,
}

/// A decimal whose first digit stands so many places before the point is too large for a weight
/// under every scale, and one whose first digit stands so many behind it is 0 under every scale.
const MOST_PLACES: i64 = 20;
const LEAST_PLACES: i64 = -10;

impl Fraction {
    /// The fraction in a text like 0.25, 1.5e-3 or 1/3; none where it is no number, or has the
    /// denominator 0.
    pub fn parse(text: &str) -> Option<Fraction> {
        let negative = text.starts_with('-');
        let text = text.strip_prefix(['-', '+']).unwrap_or(text);
        let (numerator, denominator) = match text.split_once('/') {
            Some((above, below)) => (digits(above)?, digits(below)?),
            None => decimal(text)?,
        };
        (!denominator.is_zero()).then_some(Fraction { negative, numerator, denominator })
    }

    /// The fraction times a scale, rounded to the nearest whole number, halves away from zero; none
    /// where that takes more than 32 bits.
    ///
    /// With the fraction a / b and the scale S it is the greatest q with q − 1/2 ≤ S × a / b, so
    /// with (2q − 1) × b ≤ 2 × S × a, and is found by halving.
    pub fn rounded(&self, scale: u32) -> Option<i32> {
        let twice = self.numerator.times(2 * u64::from(scale));
        let (mut low, mut above): (u64, u64) = (0, 1 << 32);
        while above - low > 1 {
            let middle = low.midpoint(above);
            if self.denominator.times(2 * middle - 1) <= twice {
                low = middle;
            } else {
                above = middle;
            }
        }
        let magnitude = low as i64;
        i32::try_from(if self.negative { -magnitude } else { magnitude }).ok()
    }
}

fn digits(text: &str) -> Option<Natural> {
    let are_digits = !text.is_empty() && text.bytes().all(|digit| digit.is_ascii_digit());
    are_digits.then(|| Natural::of_digits(text.as_bytes()))
}

/// A decimal without its sign, as numerator and denominator.
fn decimal(text: &str) -> Option<(Natural, Natural)> {
    let (mantissa, exponent) = match text.split_once(['e', 'E']) {
        Some((mantissa, exponent)) => (mantissa, whole(exponent)?),
        None => (text, 0),
    };
    let (before, behind) = mantissa.split_once('.').unwrap_or((mantissa, ""));
    let all = [before, behind].concat();
    digits(&all)?;
    Some(shifted(all.trim_start_matches('0'), exponent.saturating_sub(behind.len() as i64)))
}

/// The exponent of a decimal; one past 64 bits is as good as the greatest.
fn whole(text: &str) -> Option<i64> {
    let number = text.parse().unwrap_or(if text.starts_with('-') { i64::MIN } else { i64::MAX });
    crate::words::is_whole(text).then_some(number)
}

/// Digits that do not begin with 0, times a power of ten.
fn shifted(digits: &str, exponent: i64) -> (Natural, Natural) {
    let power = |zeros: i64| format!("1{}", "0".repeat(zeros as usize));
    let places = exponent.saturating_add(digits.len() as i64);
    let (above, below) = if digits.is_empty() || places < LEAST_PLACES {
        (String::new(), power(0))
    } else if places > MOST_PLACES {
        (power(MOST_PLACES), power(0))
    } else if exponent < 0 {
        (digits.to_string(), power(-exponent))
    } else {
        (digits.to_string() + &power(exponent)[1..], power(0))
    };
    (Natural::of_digits(above.as_bytes()), Natural::of_digits(below.as_bytes()))
}

#[cfg(test)]
mod tests {
    use super::*;

    fn rounded(text: &str, scale: u32) -> Option<i32> {
        Fraction::parse(text).expect("a number").rounded(scale)
    }

    #[test]
    fn decimals_are_rounded_to_the_nearest() {
        assert_eq!(rounded("0.333", 1000), Some(333));
        assert_eq!(rounded("0.3335", 1000), Some(334));
        assert_eq!(rounded("0.33349999", 1000), Some(333));
        assert_eq!(rounded("1.5e-3", 1000), Some(2));
        assert_eq!(rounded("-1.5E-3", 1000), Some(-2));
        assert_eq!(rounded(".5", 1), Some(1));
        assert_eq!(rounded("-2.", 3), Some(-6));
        assert_eq!(rounded("1e3", 2), Some(2000));
    }

    #[test]
    fn fractions_are_rounded_exactly() {
        assert_eq!(rounded("1/3", 1000), Some(333));
        assert_eq!(rounded("-1/2", 1), Some(-1));
        assert_eq!(rounded("1/2", 1 << 20), Some(1 << 19));
        let (threes, nines) = ("3".repeat(400), "9".repeat(400));
        assert_eq!(rounded(&format!("{threes}/{nines}"), 3), Some(1));
        assert_eq!(rounded(&format!("0.4{nines}"), 1), Some(0));
        assert_eq!(rounded(&format!("0.5{}", "0".repeat(400)), 1), Some(1));
    }

    #[test]
    fn the_ends_of_32_bits() {
        assert_eq!(rounded("2147483647.4", 1), Some(i32::MAX));
        assert_eq!(rounded("2147483647.5", 1), None);
        assert_eq!(rounded("-2147483648.4", 1), Some(i32::MIN));
        assert_eq!(rounded("4294967296.0", 1), None);
        assert_eq!(rounded("1e99999999999999999999", 1), None);
        assert_eq!(rounded("1e-99999999999999999999", u32::MAX), Some(0));
        assert_eq!(rounded("1e-10", u32::MAX), Some(0));
        assert_eq!(rounded("2e-10", u32::MAX), Some(1));
        assert_eq!(rounded("0e99999999999999999999", 1), Some(0));
    }

    #[test]
    fn other_texts_are_no_numbers() {
        for text in
            ["", ".", "-", "e5", "1e", "1e5.", "1/0", "1/", "/3", "1/3/5", "1.5/2", "inf", "1_0.0"]
        {
            assert!(Fraction::parse(text).is_none(), "{text}");
        }
    }
}

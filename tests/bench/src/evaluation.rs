//! The library's evaluation in Rust with i64: powers recurse on the exponent, which is reduced for
//! bases of 0, 1 and -1, and a product knows when it is past 2^56.

use crate::fields::{refuse_at, Refusal, Sheets};

/// A number up to ±2^56, or none where it is past that.
type Bounded = Option<i64>;

/// Answers 0 and stores the value, or answers a refusal.
pub fn evaluate(claim: &[u8], offsets: &[i32], value: &mut i64) -> u64 {
    match exact_value(claim, offsets) {
        Ok(exact) => {
            *value = exact;
            0
        }
        Err(refusal) => refusal,
    }
}

fn exact_value(claim: &[u8], offsets: &[i32]) -> Result<i64, Refusal> {
    let sheets = Sheets::of_claim(claim)?;
    refuse_at(20, (offsets.len() != sheets.n).then_some(0))?;
    let mut sum = 0;
    for term in 0..sheets.t {
        let powers = sheets.point(term).iter().zip(offsets);
        let powers = powers.map(|(&exponent, &offset)| {
            let base = i64::from(offset);
            power(base, reduced(base, exponent))
        });
        let value = powers.fold(Some(sheets.coefficient(term)), product);
        refuse_at(21, value.is_none().then_some(term))?;
        sum += value.unwrap_or(0);
    }
    Ok(sum)
}

/// An exponent of the same power: the powers of 0, 1 and -1 go by parity.
fn reduced(base: i64, exponent: u8) -> u8 {
    if exponent < 3 || base.unsigned_abs() > 1 {
        return exponent;
    }
    2 - exponent % 2
}

fn power(base: i64, exponent: u8) -> Bounded {
    if exponent == 0 {
        return Some(1);
    }
    product(Some(base), power(base, exponent - 1))
}

/// The product, in which zero takes in what is past 2^56.
fn product(a: Bounded, b: Bounded) -> Bounded {
    match (a, b) {
        (Some(0), _) | (_, Some(0)) => Some(0),
        (Some(a), Some(b)) => a.checked_mul(b).filter(|product| product.unsigned_abs() <= 1 << 56),
        _ => None,
    }
}

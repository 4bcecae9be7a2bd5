//! Numbers with uncertainty, written from the specification alone (its section 17).
//!
//! The content is taken apart at its brackets, its exponent and its point, and
//! rounding is done here in whole numbers: no float is computed with.

use tackturnel::Number;

const FLOAT: u32 = 1;
const UNCERTAIN: u32 = 2;
const UNKNOWN: u32 = 3;
const NOT_APPLICABLE: u32 = 4;
const TOO_WIDE: u32 = 5;
const TEXT: u32 = 6;

/// The most that m, and the digits of an uncertainty, may be.
const MOST: &[u8] = b"9007199254740992";

/// The parts of a number as it is written.
struct Parts<'a> {
    minus: bool,
    /// The digits before the point.
    whole: &'a [u8],
    /// The digits after the point.
    fraction: &'a [u8],
    exponent_minus: bool,
    /// The digits of the exponent; `0` where there is none.
    exponent: &'a [u8],
    /// The digits in brackets.
    uncertainty: Option<&'a [u8]>,
}

/// The number that a content of this kind is.
pub fn number_of(kind: u32, content: &[u8]) -> Number {
    let (form, value, uncertainty) = match content {
        _ if kind != 7 => (TEXT, 0, 0),
        b"?" => (UNKNOWN, 0, 0),
        b"." => (NOT_APPLICABLE, 0, 0),
        _ => match parts(content) {
            None => (TEXT, 0, 0),
            Some(parts) => floats(&parts).unwrap_or((TOO_WIDE, 0, 0)),
        },
    };
    Number { form, value: f64::from_bits(value), uncertainty: f64::from_bits(uncertainty) }
}

// ----------------------------------------------------------------- parts

fn is_digits(bytes: &[u8]) -> bool {
    bytes.iter().all(u8::is_ascii_digit)
}

/// Whether there is a minus, and what follows the sign if there is one.
fn signed(bytes: &[u8]) -> (bool, &[u8]) {
    match bytes.first() {
        Some(b'-') => (true, &bytes[1..]),
        Some(b'+') => (false, &bytes[1..]),
        _ => (false, bytes),
    }
}

/// What stands before the last byte that is one of these, and what after it.
fn split_at_last<'a>(bytes: &'a [u8], which: &[u8]) -> Option<(&'a [u8], &'a [u8])> {
    let at = bytes.iter().rposition(|byte| which.contains(byte))?;
    Some((&bytes[..at], &bytes[at + 1..]))
}

/// The parts of a content that has the form of a number.
fn parts(content: &[u8]) -> Option<Parts<'_>> {
    let (content, uncertainty) = match content.strip_suffix(b")") {
        Some(open) => {
            let (before, digits) = split_at_last(open, b"(")?;
            (before, Some(digits))
        }
        None => (content, None),
    };
    let (content, exponent) = match split_at_last(content, b"eE") {
        Some((before, exponent)) => (before, Some(exponent)),
        None => (content, None),
    };
    let (exponent_minus, exponent) = signed(exponent.unwrap_or(b"0"));
    let (minus, content) = signed(content);
    let (whole, fraction) = split_at_last(content, b".").unwrap_or((content, b""));
    // no part but the two beside the point may be empty, and these not both
    let all = is_digits(whole)
        && is_digits(fraction)
        && is_digits(exponent)
        && uncertainty.is_none_or(is_digits);
    let enough = whole.len() + fraction.len() > 0
        && !exponent.is_empty()
        && uncertainty.is_none_or(|digits| !digits.is_empty());
    let parts = Parts { minus, whole, fraction, exponent_minus, exponent, uncertainty };
    (all && enough).then_some(parts)
}

// ---------------------------------------------------------------- values

/// The digits from the first that is not 0.
fn without_zeros(digits: &[u8]) -> &[u8] {
    let zeros = digits.iter().take_while(|&&digit| digit == b'0').count();
    &digits[zeros..]
}

/// The whole number of a few digits.
fn whole_number(digits: &[u8]) -> u128 {
    digits.iter().fold(0, |number, digit| 10 * number + u128::from(digit - b'0'))
}

/// The digits as a whole number, if it is at most 9,007,199,254,740,992.
fn limited(digits: &[u8]) -> Option<u128> {
    let digits = without_zeros(digits);
    // of two numbers of the same length the one with the larger first difference is larger
    let fits = digits.len() < MOST.len() || digits.len() == MOST.len() && digits <= MOST;
    fits.then(|| whole_number(digits))
}

/// The written exponent less the digits after the point, if it is from -22 to 22.
fn power(parts: &Parts<'_>) -> Option<i32> {
    let digits = without_zeros(parts.exponent);
    // from 21 digits on the exponent is larger than the length of any content
    if digits.len() > 20 {
        return None;
    }
    let exponent = whole_number(digits) as i128;
    let exponent = if parts.exponent_minus { -exponent } else { exponent };
    let power = exponent - parts.fraction.len() as i128;
    (-22..=22).contains(&power).then_some(power as i32)
}

/// The form and the bits of both floats, unless the number is too wide.
fn floats(parts: &Parts<'_>) -> Option<(u32, u64, u64)> {
    let power = power(parts)?;
    let digits = match without_zeros(parts.whole) {
        [] => without_zeros(parts.fraction).to_vec(),
        whole => [whole, parts.fraction].concat(),
    };
    let sign = if parts.minus { 1 << 63 } else { 0 };
    let value = sign | rounded(limited(&digits)?, power);
    match parts.uncertainty {
        None => Some((FLOAT, value, 0)),
        Some(digits) => Some((UNCERTAIN, value, rounded(limited(digits)?, power))),
    }
}

/// The bits of the float nearest to `whole` times ten to the `power`; of two
/// that are equally near, the even one.
fn rounded(whole: u128, power: i32) -> u64 {
    if whole == 0 {
        return 0;
    }
    let ten = 10u128.pow(power.unsigned_abs());
    // the number is `bits` and a little more if there is a `rest`, times two to the `scale`
    let (bits, rest, scale) = if power >= 0 {
        // at most 2 to the 53 times less than 2 to the 74
        (whole * ten, false, 0)
    } else {
        // at least 2 to the 127 divided by less than 2 to the 73.1: 54 bits or more
        let shift = whole.leading_zeros();
        let quotient = (whole << shift) / ten;
        (quotient, quotient * ten < whole << shift, -(shift as i32))
    };
    let length = 128 - bits.leading_zeros() as i32;
    if length <= 53 {
        assert!(!rest, "53 bits hold all of it");
        return float(bits << (53 - length), scale - (53 - length));
    }
    let dropped = length - 53;
    let kept = bits >> dropped;
    let half = 1 << (dropped - 1);
    let below = bits - (kept << dropped);
    let up = below > half || below == half && (rest || kept % 2 == 1);
    float(kept + u128::from(up), scale + dropped)
}

/// The bits of the float that is 2 to the 52 or more, up to 2 to the 53, times
/// two to the `scale`.
fn float(bits: u128, scale: i32) -> u64 {
    assert!((1 << 52..=1 << 53).contains(&bits));
    // 2 to the 53 is carried into the exponent
    (((scale + 52 + 1023) as u64) << 52) + (bits as u64 - (1 << 52))
}

#[cfg(test)]
mod tests {
    use super::*;
    use crate::notation::{escaped, number_vectors};

    fn bits(content: &str) -> (u32, u64, u64) {
        let number = number_of(7, content.as_bytes());
        (number.form, number.value.to_bits(), number.uncertainty.to_bits())
    }

    #[test]
    fn vectors_are_answered() {
        let list = number_vectors(include_str!("../../vectors/101.txt"));
        assert_eq!(list.len(), 110);
        for vector in list {
            let number = number_of(vector.kind, &vector.content);
            let answer = (number.form, number.value.to_bits(), number.uncertainty.to_bits());
            assert_eq!(answer, vector.answer, "line {}: {}", vector.line, escaped(&vector.content));
        }
    }

    /// The examples of the specification.
    #[test]
    fn known_numbers_are_answered() {
        let float = |value: f64| (FLOAT, value.to_bits(), 0);
        let both =
            |value: f64, uncertainty: f64| (UNCERTAIN, value.to_bits(), uncertainty.to_bits());
        assert_eq!(bits("8.53(1)"), both(853.0 / 100.0, 1.0 / 100.0));
        assert_eq!(bits("-0"), float(-0.0));
        assert_eq!(bits(".5"), float(0.5));
        assert_eq!(bits("5."), float(5.0));
        assert_eq!(bits("+1e3(2)"), both(1000.0, 2000.0));
        assert_eq!(bits("."), (NOT_APPLICABLE, 0, 0));
        assert_eq!(bits("?"), (UNKNOWN, 0, 0));
        for text in ["", "1(2)e3", "1(2", "1()", "+", "e5", "1e", "1 2", "+.", "1.2.3", "(1)"] {
            assert_eq!(bits(text), (TEXT, 0, 0), "{text}");
        }
        for wide in ["0e30", "1(9007199254740993)", "1e23", "1e-23", "9007199254740993"] {
            assert_eq!(bits(wide), (TOO_WIDE, 0, 0), "{wide}");
        }
        assert_eq!(number_of(9, b"?").form, TEXT);
    }

    #[test]
    fn long_numbers_are_answered() {
        let zeros = "0".repeat(500_000);
        assert_eq!(bits(&format!("0.{zeros}e500000")), (FLOAT, 0, 0));
        assert_eq!(bits(&format!("-0.{zeros}e500000")), (FLOAT, 1 << 63, 0));
        assert_eq!(bits(&format!("0.{zeros}e500023")).0, TOO_WIDE);
        assert_eq!(bits(&format!("0.{zeros}3e500001")), (FLOAT, 3f64.to_bits(), 0));
        assert_eq!(bits(&format!("1e-{zeros}22")), (FLOAT, 1e-22f64.to_bits(), 0));
        assert_eq!(bits(&format!("1e1{zeros}")).0, TOO_WIDE);
        assert_eq!(bits(&format!("1{zeros}e-500000")).0, TOO_WIDE);
    }

    #[test]
    fn rounding_is_that_of_the_hardware() {
        for whole in [1, 3, 7_777_777, 1 << 52, (1 << 52) + 1, (1 << 53) - 1, 1 << 53] {
            for power in 0..=22 {
                let ten = 10f64.powi(power);
                assert_eq!(rounded(whole, power), (whole as f64 * ten).to_bits());
                assert_eq!(rounded(whole, -power), (whole as f64 / ten).to_bits());
            }
        }
    }

    /// Numbers that lie in the middle between two floats.
    #[test]
    fn ties_go_to_the_even_float() {
        // 5 times it is 3 more than 2 to the 53; the even float is the one above
        assert_eq!(rounded(1_801_439_850_948_199, 1), 18_014_398_509_481_992f64.to_bits());
        // 5 times it is 13 more; the even float is the one below
        assert_eq!(rounded(1_801_439_850_948_201, 1), 18_014_398_509_482_008f64.to_bits());
    }
}

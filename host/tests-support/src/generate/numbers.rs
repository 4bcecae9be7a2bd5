//! Numbers with uncertainty, texts that are nearly numbers, and tables of them.

use super::{junk, Handed, Rng};

/// The bytes that numbers are made of, and `?`.
const LETTERS: &[u8] = b"+-0123456789.eE()?";

/// The most that the digits of a number may be: 2 to the 53.
const MOST: u64 = 1 << 53;

/// The digits of a whole number: of each length, and often at the limit.
fn digits(rng: &mut Rng) -> String {
    let any = rng.number();
    match rng.below(10) {
        0 => format!("{}", any % 10),
        1 | 2 => format!("{}", any % 100_000),
        3 | 4 => format!("{}", any % (MOST + 1)),
        5 => format!("{}", any >> rng.between(11, 63)),
        6 => format!("{}", MOST - 2 + any % 5),
        7 => format!("1{}", "0".repeat(rng.below(18))),
        8 => (0..rng.between(1, 18)).map(|_| rng.pick(b"0123456789") as char).collect(),
        _ => (0..rng.between(1, 45)).map(|_| rng.pick(b"0123456789") as char).collect(),
    }
}

/// A power of ten, most often one within the limits.
fn power(rng: &mut Rng) -> i64 {
    match rng.below(10) {
        0..=4 => rng.between(0, 8) as i64 - 6,
        5..=7 => rng.between(0, 44) as i64 - 22,
        8 => rng.pick(&[-24, -23, -22, -21, 21, 22, 23, 24]),
        _ => rng.number() as i64 >> rng.between(1, 62),
    }
}

/// A number with these digits and this power of ten, written in one of many
/// ways: a point anywhere or none, the exponent that is then due, zeros in
/// front, and a sign or none.
fn written(rng: &mut Rng, digits: &str, power: i64) -> String {
    let after = match rng.below(4) {
        0 => 0,
        // no exponent is due
        1 if (-40..=0).contains(&power) => power.unsigned_abs() as usize,
        _ => rng.below(digits.len() + 3),
    };
    let zeros = after.saturating_sub(digits.len()) + rng.pick(&[0, 0, 0, 0, 1, 1, 2, 30]);
    let digits = "0".repeat(zeros) + digits;
    let (whole, fraction) = digits.split_at(digits.len() - after);
    let sign = rng.pick(&["", "", "-", "+"]);
    let point = if after > 0 || rng.once_in(4) { "." } else { "" };
    let exponent = match power.saturating_add(after as i64) {
        0 if !rng.once_in(4) => String::new(),
        due => {
            let plus = rng.pick(&["", "+"]);
            let sign = if due < 0 { "-" } else { plus };
            let zeros = "0".repeat(rng.pick(&[0, 0, 0, 1, 25]));
            format!("{}{sign}{zeros}{}", rng.pick(&["e", "E"]), due.unsigned_abs())
        }
    };
    format!("{sign}{whole}{point}{fraction}{exponent}")
}

/// A text of the form of a number, within the limits or not.
pub fn number(rng: &mut Rng) -> Vec<u8> {
    let (digits_of_value, power) = (digits(rng), power(rng));
    let mut text = written(rng, &digits_of_value, power);
    if rng.once_in(2) {
        text = format!("{text}({}{})", rng.pick(&["", "", "", "0", "000"]), digits(rng));
    }
    text.into_bytes()
}

/// Changes, inserts or takes out one byte.
fn damage(rng: &mut Rng, text: &mut Vec<u8>, byte: u8) {
    let at = rng.below(text.len() + 1);
    match rng.below(3) {
        0 if at < text.len() => text[at] = byte,
        1 if at < text.len() => drop(text.remove(at)),
        _ => text.insert(at, byte),
    }
}

/// A word of kind 7, often a number and else nearly one.
pub fn word(rng: &mut Rng) -> Vec<u8> {
    match rng.below(16) {
        0 => b"?".to_vec(),
        1 => b".".to_vec(),
        2..=12 => number(rng),
        13 | 14 => {
            let mut text = number(rng);
            let byte = rng.pick(LETTERS);
            damage(rng, &mut text, byte);
            // a digit alone may have been taken out
            if text.is_empty() {
                text.push(byte);
            }
            text
        }
        _ => (0..rng.between(1, 9)).map(|_| rng.pick(LETTERS)).collect(),
    }
}

/// A content, often a number, else nearly one or bytes without order.
pub fn content(rng: &mut Rng) -> Vec<u8> {
    match rng.below(8) {
        0..=3 => word(rng),
        4 | 5 => {
            let mut text = word(rng);
            for _ in 0..rng.pick(&[1, 1, 2, 3]) {
                let byte = if rng.once_in(3) { rng.number() as u8 } else { rng.pick(LETTERS) };
                damage(rng, &mut text, byte);
            }
            text
        }
        6 => (0..rng.below(13)).map(|_| rng.pick(LETTERS)).collect(),
        _ => (0..rng.below(9)).map(|_| rng.number() as u8).collect(),
    }
}

/// A file and tables that no reading made, most of whose tokens are words of
/// kind 7.
pub fn junk_of_words(rng: &mut Rng) -> Handed {
    let mut handed = junk(rng);
    handed.file.clear();
    for row in handed.tables[0].chunks_exact_mut(3) {
        let start = handed.file.len() as u32;
        handed.file.extend(word(rng));
        if !rng.once_in(6) {
            row.copy_from_slice(&[7, start, handed.file.len() as u32]);
        }
        if rng.once_in(10) {
            row[0] = rng.pick(&[0, 6, 7, 8, 9, 10, 11, 263, 1 << 31]);
        }
    }
    handed
}

//! The time of a number, beside C's `strtod` on the same texts.

use std::ffi::CStr;
use std::hint::black_box;
use std::time::Duration;

use tackturnel::{raw, star};

use crate::strtod::strtod;
use crate::{best, fail};

/// A name to call a case by, and the making of its texts by number.
pub type Case = (&'static str, fn(usize) -> String);

/// The texts of a case.
const TEXTS: usize = 10_000;

/// All cases: a laboratory's columns, then one sort of text each.
pub const CASES: [Case; 6] = [
    ("numbers-mixed", mixed),
    ("numbers-integers", integer),
    ("numbers-decimals", decimal),
    ("numbers-uncertain", uncertain),
    ("numbers-long", long),
    ("numbers-exponents", exponent),
];

/// A number below a limit that seems to follow no rule.
pub fn scattered(number: usize, limit: usize) -> usize {
    (number as u64 + 1).wrapping_mul(0x9e37_79b9_7f4a_7c15).rotate_left(23) as usize % limit
}

fn sign(number: usize) -> &'static str {
    if scattered(number, 7) < 2 {
        "-"
    } else {
        ""
    }
}

/// A minus or none, digits, a point and so many digits after it.
fn with_point(number: usize, whole: usize, places: usize) -> String {
    let after = scattered(number ^ 0x5555, 10usize.pow(places as u32));
    format!("{}{}.{after:0places$}", sign(number), scattered(number, whole))
}

/// 293, -12
fn integer(number: usize) -> String {
    format!("{}{}", sign(number), scattered(number, 10usize.pow(1 + number as u32 % 5)))
}

/// 12.75, -0.2, 0.00123
fn decimal(number: usize) -> String {
    match number % 4 {
        0 => with_point(number, 1000, 1),
        1 => with_point(number, 100, 2),
        2 => with_point(number, 10, 3),
        _ => format!("0.00{}", 100 + scattered(number, 900)),
    }
}

/// 4.9134(2), -0.20415(13), 113.01(1)
fn uncertain(number: usize) -> String {
    let value = match number % 3 {
        0 => with_point(number, 10, 4),
        1 => with_point(number, 1, 5),
        _ => with_point(number, 180, 2),
    };
    format!("{value}({})", 1 + scattered(number, 19))
}

/// 1.234567890123456: sixteen digits
fn long(number: usize) -> String {
    with_point(number, 9, 15).replace("0.", "1.")
}

/// 1.5e-3, 6.02E+12
fn exponent(number: usize) -> String {
    let value = with_point(number, 10, 1 + number % 3);
    match number % 3 {
        0 => format!("{value}e-{}", 1 + scattered(number, 9)),
        1 => format!("{value}E+{:02}", scattered(number, 15)),
        _ => format!("{value}e{}", 1 + scattered(number, 9)),
    }
}

/// The columns of a table of atoms and of a table of reflections.
fn mixed(number: usize) -> String {
    match number % 10 {
        0..=2 => uncertain(number / 10 * 3 + number % 10),
        3..=5 => integer(number),
        6 | 7 => decimal(number),
        8 => with_point(number, 100, 2),
        _ => exponent(number),
    }
}

/// The texts of a case, each with a byte 0 after it.
struct Texts(Vec<Vec<u8>>);

impl Texts {
    fn new(case: Case) -> Self {
        let text = |number| [case.1(number).into_bytes(), vec![0]].concat();
        Texts((0..TEXTS).map(text).collect())
    }

    fn contents(&self) -> Vec<&[u8]> {
        self.0.iter().map(|text| &text[..text.len() - 1]).collect()
    }

    fn strings(&self) -> Vec<&CStr> {
        let string = |text| CStr::from_bytes_with_nul(text).expect("no other byte is 0");
        self.0.iter().map(|text| string(text)).collect()
    }
}

fn named(name: &str) -> Case {
    let case = CASES.into_iter().find(|case| case.0 == name);
    case.unwrap_or_else(|| fail(&format!("no such case: {name}")))
}

fn by_library(contents: &[&[u8]]) -> f64 {
    contents.iter().map(|text| star::number_of(raw::STAR_TOKEN_WORD, text).value).sum()
}

fn by_c(strings: &[&CStr]) -> f64 {
    strings.iter().map(|text| strtod(text).0).sum()
}

/// Both read each text as the same float, C up to the bracket.
fn agree(contents: &[&[u8]], strings: &[&CStr]) {
    for (content, string) in contents.iter().zip(strings) {
        let number = star::number_of(raw::STAR_TOKEN_WORD, content);
        let (value, bytes) = strtod(string);
        let bracket = content.iter().position(|&byte| byte == b'(');
        let same = number.value.to_bits() == value.to_bits();
        assert!(same && bytes == bracket.unwrap_or(content.len()), "{string:?}: {number:?}");
    }
}

fn time(case: Case) {
    let texts = Texts::new(case);
    let (contents, strings) = (texts.contents(), texts.strings());
    agree(&contents, &strings);
    let library = best(|| {
        black_box(by_library(black_box(&contents)));
    });
    let c = best(|| {
        black_box(by_c(black_box(&strings)));
    });
    let each = |time: Duration| time.as_secs_f64() * 1e9 / TEXTS as f64;
    println!(
        "{:<17} {TEXTS:>9} {:>15.1} {:>17.1} {:>10.2}",
        case.0,
        each(library),
        each(c),
        library.as_secs_f64() / c.as_secs_f64()
    );
}

/// Prints the table of these cases, or of all where none is named.
pub fn times(names: &[&str]) {
    let chosen: Vec<Case> = match names.is_empty() {
        true => CASES.to_vec(),
        false => names.iter().map(|name| named(name)).collect(),
    };
    println!(
        "{:<17} {:>9} {:>15} {:>17} {:>10}",
        "case", "texts", "ns/number", "strtod ns/number", "ratio"
    );
    chosen.into_iter().for_each(time);
}

/// Makes one call for each text of a case; prints how many there are.
pub fn once(name: &str) {
    let texts = Texts::new(named(name));
    black_box(by_library(&texts.contents()));
    println!("{TEXTS}");
}

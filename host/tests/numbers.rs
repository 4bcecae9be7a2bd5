//! Numbers by the library beside those of the reference, bit by bit, and beside
//! those of Rust's own reader of floats.
//!
//! The groups and their settings are as `harness::seeds` has them.

mod harness;

use harness::{bits, check_number, check_numbers, handed, seeds, setting, Forms, Tally};
use tackturnel::{raw, Number, NumberForm};
use tackturnel_tests_support::generate::numbers::{content, junk_of_words, word};
use tackturnel_tests_support::generate::{self, Question, Rng};
use tackturnel_tests_support::notation::escaped;

/// The most that the digits of a number may be.
const MOST: u64 = raw::STAR_MOST_WHOLE;
/// The most that its power of ten may be.
const POWER: i64 = raw::STAR_MOST_POWER as i64;

// --------------------------------------------------------------- checking

/// Requires that each of these forms was answered so often, in a part of a run as
/// much less often, and not at all in a small one.
fn require(group: &str, forms: &Forms, which: &[u32], often: u64) {
    println!("{group}: answers by form {forms:?}");
    let times = setting("STAR_COMPARE_TIMES", 1.0);
    if times < 0.1 {
        return;
    }
    let often = (often as f64 * times.min(1.0)) as u64;
    for &form in which {
        let count = forms[form as usize];
        assert!(count >= often, "{group}: form {form} was answered {count} times");
    }
}

const ALL: [u32; 6] = [
    raw::STAR_NUMBER_FLOAT,
    raw::STAR_NUMBER_UNCERTAIN,
    raw::STAR_NUMBER_UNKNOWN,
    raw::STAR_NUMBER_NOT_APPLICABLE,
    raw::STAR_NUMBER_TOO_WIDE,
    raw::STAR_NUMBER_TEXT,
];

/// The value and the uncertainty of a content that has the form of a number, as
/// Rust's own reader of floats takes it, limits apart.
fn parsed(content: &[u8]) -> Option<(f64, Option<f64>)> {
    let text = std::str::from_utf8(content).ok()?;
    let (number, digits) = match text.strip_suffix(')') {
        Some(text) => text.rsplit_once('(').map(|(number, digits)| (number, Some(digits)))?,
        None => (text, None),
    };
    // Rust also takes `inf` and `nan`
    if !number.bytes().all(|byte| b"+-0123456789.eE".contains(&byte)) {
        return None;
    }
    let value: f64 = number.parse().ok()?;
    let Some(digits) = digits else {
        return Some((value, None));
    };
    if digits.is_empty() || !digits.bytes().all(|byte| byte.is_ascii_digit()) {
        return None;
    }
    let (mantissa, exponent) = number.split_once(['e', 'E']).unwrap_or((number, "0"));
    let after = mantissa.split_once('.').map_or(0, |(_, after)| after.len());
    // an exponent that is no i64 is beyond the limits: any uncertainty will do
    let power = exponent.parse::<i64>().map_or(0, |exponent| exponent.saturating_sub(after as i64));
    Some((value, Some(format!("{digits}e{power}").parse().expect("digits and an exponent"))))
}

/// Compares one content of kind 7 by all three. Both operands of the library's
/// one operation are exact, so its rounding is that of the number written.
fn check(label: &str, rng: &mut Rng, content: &[u8], forms: &mut Forms) -> Number {
    let number = check_number(label, rng, raw::STAR_TOKEN_WORD, content);
    forms[number.form as usize] += 1;
    // beyond this length Rust's reader may cut exponents short
    if content.len() < 60_000 {
        let holds = match (number.told(), parsed(content)) {
            (Some(NumberForm::Float(value)), Some((other, None))) => {
                value.to_bits() == other.to_bits()
            }
            (Some(NumberForm::Uncertain { value, uncertainty }), Some((other, Some(by)))) => {
                (value.to_bits(), uncertainty.to_bits()) == (other.to_bits(), by.to_bits())
            }
            (Some(NumberForm::TooWide), parsed) => parsed.is_some(),
            (Some(NumberForm::Unknown), parsed) => parsed.is_none() && content == b"?",
            (Some(NumberForm::NotApplicable), parsed) => parsed.is_none() && content == b".",
            (Some(NumberForm::Text), parsed) => parsed.is_none(),
            _ => false,
        };
        assert!(holds, "{label}: {}: {number:?}, {:?}", escaped(content), parsed(content));
    }
    number
}

// --------------------------------------------------------------- contents

#[test]
fn generated_contents() {
    let mut forms = Forms::default();
    seeds("generated contents", 200_000, 6, |seed| {
        let rng = &mut Rng::new(seed + 10_000_000);
        for _ in 0..10 {
            let content = if rng.once_in(2) { word(rng) } else { content(rng) };
            check("generated contents", rng, &content, &mut forms);
        }
    });
    require("generated contents", &forms, &ALL, 5_000);
}

/// Digits below, at and above the limit with each power of ten within its limits
/// and a little beyond.
#[test]
fn limits_and_one_beyond() {
    let mut forms = Forms::default();
    let rng = &mut Rng::new(11_000_000);
    let mut wholes: Vec<u128> = vec![0, 1, 2, 9, 10, 853, 1 << 32, MOST.into(), 10 * MOST as u128];
    wholes.extend((1..=3).flat_map(|more| [MOST as u128 - more, MOST as u128 + more]));
    // digits that come round in 64 bits, and far above
    for round in [1 << 63, 1 << 64, 10u128.pow(20), 1 << 80, 1 << 100] {
        wholes.extend(round - 1..round + 4);
    }
    for power in -POWER - 3..=POWER + 3 {
        for whole in &wholes {
            for zeros in ["", "0", "00000", &"0".repeat(100)] {
                let digits = format!("{zeros}{whole}");
                let fits = *whole <= MOST.into() && (-POWER..=POWER).contains(&power);
                let mut one = |text: String, form: u32| {
                    let number = check("limits", rng, text.as_bytes(), &mut forms);
                    let form = if fits { form } else { raw::STAR_NUMBER_TOO_WIDE };
                    assert_eq!(number.form, form, "{text}");
                };
                for sign in ["", "-", "+"] {
                    one(format!("{sign}{digits}e{power}"), 1);
                    one(format!("{sign}{digits}.E{power:+}(1)"), 2);
                    one(format!("{sign}3e{power}({digits})"), 2);
                }
                for places in [1, digits.len() / 2, digits.len()] {
                    let (before, after) = digits.split_at(digits.len() - places);
                    let exponent = power + places as i64;
                    one(format!("{before}.{after}e{exponent}"), 1);
                    one(format!("-{before}.{after}e{exponent}({digits})"), 2);
                }
                // no exponent
                let places = power.unsigned_abs() as usize;
                if power <= 0 && places <= digits.len() {
                    let (before, after) = digits.split_at(digits.len() - places);
                    one(format!("{before}.{after}"), 1);
                    one(format!("-{before}.{after}({digits})"), 2);
                }
            }
        }
    }
    require("limits and one beyond", &forms, &[1, 2, 5], 10_000);
    // exponents that come round in 32 or 64 bits, and far above
    for round in [1i128 << 31, 1 << 32, 1 << 63, 1 << 64, 1 << 80, 10i128.pow(19)] {
        for exponent in round - 30..=round + 30 {
            for text in [format!("1e{exponent}"), format!("-1.5e-{exponent}(2)")] {
                let number = check("limits", rng, text.as_bytes(), &mut forms);
                assert_eq!(number.form, raw::STAR_NUMBER_TOO_WIDE, "{text}");
            }
        }
    }
}

/// Contents that stand at an edge of the form of a number.
const EDGES: &str = "? . -0 -0.0e5 5. .5 0 00 +0 8.53(1) -8.53(12) 1(2)e3 1(2 1() + - e5 1e 1e+ 1e- .e5 +. \
    +.5(3) 5.(3) 1e3(2) 1E-5 1.e5 .1e-21 .1e-22 0e22 0e23 0e-23 0e30 9007199254740992 9007199254740993 \
    -9007199254740992e-22(9007199254740992) 1(9007199254740993) 1.000000000000000 1.0000000000000000 \
    1(0) (1) 1(2)(3) 1((2)) 1(+2) 1(2.0) 1(2)) 1.2.3 -+1 1,2 0x10 inf nan infinity 1_000 1e5.0 1e5e5 \
    4.9134(2) 113.01(1) 44.(1) 293(2) 1e00000000000000000000000005 0.000000000000000000000001 ?? ?1 .? -? -.";

/// Each of these contents, and each with one byte changed, inserted or taken out.
#[test]
fn damaged_by_one_byte() {
    let mut forms = Forms::default();
    let rng = &mut Rng::new(12_000_000);
    let mut one = |text: &[u8]| check("damaged", rng, text, &mut forms).form;
    assert_eq!(one(b""), raw::STAR_NUMBER_TEXT);
    assert_eq!(one(b"1 2"), raw::STAR_NUMBER_TEXT);
    for text in EDGES.split_whitespace() {
        let text = text.as_bytes();
        one(text);
        for at in 0..=text.len() {
            let (before, rest) = text.split_at(at);
            let after = rest.get(1..).unwrap_or(b"");
            one(&[before, after].concat());
            for byte in 0..=255 {
                one(&[before, &[byte], rest].concat());
                one(&[before, &[byte], after].concat());
            }
        }
    }
    require("damaged by one byte", &forms, &ALL, 2);
    // every content of one and of two bytes
    for high in 0..=255 {
        check("two bytes", rng, &[high], &mut forms);
        for low in 0..=255 {
            check("two bytes", rng, &[high, low], &mut forms);
        }
    }
}

fn every_text(rng: &mut Rng, text: &mut Vec<u8>, letters: &[u8], more: usize, forms: &mut Forms) {
    check("every short text", rng, text, forms);
    if more > 0 {
        for &letter in letters {
            text.push(letter);
            every_text(rng, text, letters, more - 1, forms);
            text.pop();
        }
    }
}

#[test]
fn every_short_text() {
    let mut forms = Forms::default();
    let rng = &mut Rng::new(13_000_000);
    every_text(rng, &mut Vec::new(), b"+-01.eE()?", 6, &mut forms);
    every_text(rng, &mut Vec::new(), b"-1.e()", 8, &mut forms);
    // what may follow the beginnings of numbers that are nearly too wide
    for head in ["1e2", "-1e-2", "0.1E2", "900719925474099", "1(900719925474099"] {
        every_text(rng, &mut head.into(), b"-01239.e()", 4, &mut forms);
    }
    require("every short text", &forms, &[1, 2, 5, 6], 400);
}

/// Only kind 7 has numbers, whatever the content.
#[test]
fn every_kind() {
    let mut forms = Forms::default();
    let rng = &mut Rng::new(14_000_000);
    let large = [7 + (1 << 8), 7 + (1 << 16), 7 + (1 << 31), u32::MAX - 7, u32::MAX];
    for text in EDGES.split_whitespace().chain([""]) {
        for kind in (0..300).chain(large) {
            let number = check_number("every kind", rng, kind, text.as_bytes());
            if kind != raw::STAR_TOKEN_WORD {
                assert_eq!(bits(number), (raw::STAR_NUMBER_TEXT, 0, 0), "kind {kind}: {text}");
            }
            forms[number.form as usize] += 1;
        }
    }
    require("every kind", &forms, &ALL, 1);
}

/// Contents of a million bytes and more, with their answers.
#[test]
fn largest_contents() {
    let mut forms = Forms::default();
    let rng = &mut Rng::new(15_000_000);
    let some = |byte: &str| byte.repeat(500_000);
    let many = |byte: &str| byte.repeat(1_000_000);
    let float = NumberForm::Float;
    let both = |value: f64, uncertainty: f64| NumberForm::Uncertain { value, uncertainty };
    let (wide, text) = (NumberForm::TooWide, NumberForm::Text);
    let (zeros, nines, some) = (many("0"), many("9"), some("0"));
    let known = [
        // digits
        (zeros.clone(), float(0.0)),
        (format!("-{zeros}"), float(-0.0)),
        (format!("-{zeros}.{zeros}e1000000"), float(-0.0)),
        (format!("{zeros}{MOST}"), float(MOST as f64)),
        (format!("{zeros}{}", MOST + 1), wide),
        (format!("{zeros}.5({zeros}{MOST})"), both(0.5, MOST as f64 / 10.0)),
        (format!("{zeros}.5({zeros}{})", MOST + 1), wide),
        (format!("1{zeros}"), wide),
        (format!("1{zeros}e-1000000"), wide),
        (nines.clone(), wide),
        (format!("0.{nines}"), wide),
        // digits after the point, and exponents that match them
        (format!("0.{some}e500000"), float(0.0)),
        (format!("-0.{some}e500000"), float(-0.0)),
        (format!("0.{some}"), wide),
        (format!("0.{some}e499977"), wide),
        (format!("0.{some}e499978"), float(0.0)),
        (format!("0.{some}e500022"), float(0.0)),
        (format!("0.{some}e500023"), wide),
        (format!("0.{some}e-500000"), wide),
        (format!(".{some}25E+500002(7)"), both(25.0, 7.0)),
        (format!("-.{some}25E{some}499999(7)"), both(-0.025, 0.007)),
        (format!(".{some}25e500001(7)"), both(2.5, 0.7)),
        (format!("0.{zeros}1e1000001"), float(1.0)),
        (format!("0.{zeros}1e1000023"), float(1e22)),
        (format!("0.{zeros}1e1000024"), wide),
        (format!("0.{zeros}1e999979"), float(1e-22)),
        (format!("0.{zeros}1e999978"), wide),
        (format!("0.{zeros}{zeros}{zeros}1e3000001"), float(1.0)),
        // exponents
        (format!("1e{zeros}5"), float(1e5)),
        (format!("1e-{zeros}22(3)"), both(1e-22, 3e-22)),
        (format!("1e{zeros}23"), wide),
        (format!("1e{zeros}"), float(1.0)),
        (format!("1e{nines}"), wide),
        (format!("-1e-{nines}(2)"), wide),
        (format!("1e5{zeros}"), wide),
        // uncertainties
        (format!("1({zeros}5)"), both(1.0, 5.0)),
        (format!("1({zeros})"), both(1.0, 0.0)),
        (format!("1({nines})"), wide),
        (format!("{nines}({nines})"), wide),
        // no numbers, most of them by their last byte alone
        (format!("1({nines}"), text),
        (format!("{nines})"), text),
        (format!("{nines}("), text),
        (format!("{nines}()"), text),
        (format!("{nines}x"), text),
        (format!("{nines}e"), text),
        (format!("{nines}e-"), text),
        (format!("{zeros}.{zeros}."), text),
        (format!("1e{zeros}."), text),
        (format!("1e{zeros}e"), text),
        (format!("1({zeros})0"), text),
        (format!("-{zeros}-"), text),
        (format!("x{zeros}"), text),
        (format!("({zeros})"), text),
        (format!("e{zeros}"), text),
        (many("+"), text),
        (many("."), text),
        (many("e"), text),
        (many("("), text),
        (many(")"), text),
        (many("?"), text),
        (many("\0"), text),
    ];
    for (content, answer) in known {
        let shown = format!("{}...{}", &content[..9], &content[content.len() - 9..]);
        let number = check("largest contents", rng, content.as_bytes(), &mut forms);
        assert_eq!(number.told(), Some(answer), "{shown}");
        // -0.0 equals 0.0
        assert_eq!(number.value.is_sign_negative(), content.starts_with('-') && number.form < 3);
    }
    require("largest contents", &forms, &[1, 2, 5, 6], 5);
}

// ----------------------------------------------------------------- tables

/// Requires that both refusals were met, and each form so often.
fn require_both(group: &str, tally: &Tally, forms: &Forms, often: u64) {
    println!("{group}: answers by refusal {tally:?}");
    require(group, forms, &ALL, often);
    if setting("STAR_COMPARE_TIMES", 1.0) >= 0.1 {
        assert!(tally[13] > 0 && tally[14] > 0, "{group}: 13 or 14 was never met");
    }
}

#[test]
fn numbers_in_readings() {
    let (mut tally, mut forms) = (Tally::default(), Forms::default());
    seeds("numbers in readings", 20_000, 4, |seed| {
        let rng = &mut Rng::new(seed + 16_000_000);
        let handed = handed(&generate::valid(rng), rng.below(5));
        // every name row and every one of its values, and one more
        let mut questions = Vec::new();
        for row in 0..=handed.counts.names + 1 {
            let values = handed.tables[4].chunks_exact(4).filter(|value| value[0] == row).count();
            for k in 0..=values as u32 + 1 {
                questions.push(Question { set: 1, name_row: row, k, sought: Vec::new() });
            }
        }
        check_numbers("numbers in readings", seed, &handed, &questions, &mut tally, &mut forms);
    });
    require_both("numbers in readings", &tally, &forms, 500);
}

#[test]
fn numbers_in_spoiled_tables() {
    let (mut tally, mut forms) = (Tally::default(), Forms::default());
    seeds("numbers in spoiled tables", 40_000, 4, |seed| {
        let rng = &mut Rng::new(seed + 17_000_000);
        let mut handed = handed(&generate::valid(rng), rng.below(9));
        generate::spoil(rng, &mut handed);
        let questions: Vec<_> = (0..20).map(|_| generate::question(rng, &handed)).collect();
        let label = "numbers in spoiled tables";
        check_numbers(label, seed, &handed, &questions, &mut tally, &mut forms);
    });
    require_both("numbers in spoiled tables", &tally, &forms, 100);
}

#[test]
fn numbers_in_random_tables() {
    let (mut tally, mut forms) = (Tally::default(), Forms::default());
    seeds("numbers in random tables", 100_000, 4, |seed| {
        let rng = &mut Rng::new(seed + 18_000_000);
        let handed = if rng.once_in(8) { generate::junk(rng) } else { junk_of_words(rng) };
        let questions: Vec<_> = (0..12).map(|_| generate::question(rng, &handed)).collect();
        let label = "numbers in random tables";
        check_numbers(label, seed, &handed, &questions, &mut tally, &mut forms);
    });
    require_both("numbers in random tables", &tally, &forms, 100);
}

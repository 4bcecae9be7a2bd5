//! Names and codes compared by the library beside the reference, and beside what
//! its own lookups and readings make of them.
//!
//! The groups and their settings are as `harness::seeds` has them.

mod harness;

use harness::{check_compare, check_parts, room, seeds, setting};
use tackturnel::{raw, star, Compared, Found, Tables, TablesMut};
use tackturnel_tests_support::generate::pairs::pair;
use tackturnel_tests_support::generate::{self, Handed, Question, Rng};
use tackturnel_tests_support::notation::escaped;

/// All bytes.
fn bytes() -> Vec<u8> {
    (0..=255).collect()
}

/// Equal contents of so many bytes.
fn equal(pairs: usize) -> Compared {
    Compared { equal: true, pairs }
}

/// Unlike contents of which so many pairs are compared.
fn unlike(pairs: usize) -> Compared {
    Compared { equal: false, pairs }
}

// --------------------------------------------------------------- contents

#[test]
fn known_pairs() {
    let rng = &mut Rng::new(20_000_000);
    for (one, other, answer) in [
        ("", "", equal(0)),
        ("a", "", unlike(0)),
        ("_a", "_a", equal(2)),
        ("_a", "_b", unlike(2)),
        ("_a", "_ab", unlike(0)),
        ("_cell_a", "_Cell_a", unlike(2)),
        ("_cell_a", "_cell_A", unlike(7)),
        ("_atom_site_aniso_U_11", "_atom_site_aniso_U_12", unlike(21)),
        ("_atom_site_aniso_U_11", "_atom_site_aniso_U_11", equal(21)),
        ("_atom_site_aniso_U_11", "_atom_site_aniso_U_1", unlike(0)),
        ("data_a", "save_a", unlike(1)),
    ] {
        let compared = check_compare("known pairs", rng, one.as_bytes(), other.as_bytes());
        assert_eq!(compared, answer, "{one}, {other}");
    }
}

/// Every row of up to so many of these bytes.
fn every_content(letters: &[u8], most: usize) -> Vec<Vec<u8>> {
    let mut contents = vec![Vec::new()];
    let mut from = 0;
    for _ in 0..most {
        let to = contents.len();
        for at in from..to {
            let longer = |&letter| [contents[at].as_slice(), &[letter]].concat();
            let longer: Vec<_> = letters.iter().map(longer).collect();
            contents.extend(longer);
        }
        from = to;
    }
    contents
}

#[test]
fn pairs_of_short_contents() {
    let rng = &mut Rng::new(21_000_000);
    let contents = every_content(b"\0a\xff", 4);
    assert_eq!(contents.len(), 121);
    for one in &contents {
        for other in &contents {
            check_compare("pairs of short contents", rng, one, other);
        }
    }
}

/// Every two bytes, alone, at the front and at the end.
#[test]
fn pairs_of_bytes() {
    let rng = &mut Rng::new(29_000_000);
    for one in bytes() {
        for other in bytes() {
            let compared = check_compare("pairs of bytes", rng, &[one], &[other]);
            assert_eq!(compared, Compared { equal: one == other, pairs: 1 });
            check_compare("pairs of bytes", rng, &[one, b'_'], &[other, b'_']);
            check_compare("pairs of bytes", rng, &[b'_', one], &[b'_', other]);
        }
    }
}

/// Contents of each length that differ first in each place, and in length alone.
#[test]
fn every_place() {
    let rng = &mut Rng::new(22_000_000);
    let bytes = bytes();
    for length in 0..=80 {
        let one: Vec<u8> = (0..length).map(|_| rng.pick(&bytes)).collect();
        assert_eq!(check_compare("every place", rng, &one, &one), equal(length));
        for place in 0..length {
            for flip in [1, 32, 128, 255] {
                let mut other = one.clone();
                other[place] ^= flip;
                assert_eq!(check_compare("every place", rng, &one, &other), unlike(place + 1));
                // and whatever comes after it
                other[place + 1..].iter_mut().for_each(|byte| *byte ^= rng.pick(&bytes));
                assert_eq!(check_compare("every place", rng, &one, &other), unlike(place + 1));
            }
            assert_eq!(check_compare("every place", rng, &one, &one[..place]), unlike(0));
            assert_eq!(check_compare("every place", rng, &one, &one[place + 1..]), unlike(0));
        }
    }
}

#[test]
fn generated_pairs() {
    // lengths unlike, the first bytes, those in the midst, the last alone, none
    let mut tally = [0u64; 5];
    let bytes = bytes();
    seeds("generated pairs", 100_000, 4, |seed| {
        let rng = &mut Rng::new(seed + 23_000_000);
        for _ in 0..10 {
            let letters = rng.pick(&[bytes.as_slice(), b"_abcxyz0123456789", b"ab", b"\0\xff"]);
            let (one, other) = pair(rng, letters, 80);
            let Compared { equal, pairs } = check_compare("generated pairs", rng, &one, &other);
            let sort = match pairs {
                _ if equal => 4,
                0 => 0,
                1 => 1,
                _ if pairs < one.len() => 2,
                _ => 3,
            };
            tally[sort] += 1;
        }
    });
    println!("generated pairs: {tally:?}");
    if setting("STAR_COMPARE_TIMES", 1.0) >= 0.1 {
        assert!(tally.iter().all(|&count| count > 2_000), "{tally:?}");
    }
}

/// Lengths and places that come round in 8 or 16 bits, and some beyond.
#[test]
fn long_pairs() {
    let rng = &mut Rng::new(24_000_000);
    let bytes = bytes();
    let all: Vec<u8> = (0..140_000).map(|_| rng.pick(&bytes)).collect();
    for length in [254, 255, 256, 257, 511, 512, 65_535, 65_536, 65_537, 70_000] {
        let one = &all[..length];
        assert_eq!(check_compare("long pairs", rng, one, one), equal(length));
        for place in [0, 1, 127, 253, 255, 256, 65_534, 65_535, 65_536, length - 2, length - 1] {
            if place < length {
                let mut other = one.to_vec();
                other[place] ^= rng.pick(&[1, 32, 128, 255]);
                assert_eq!(check_compare("long pairs", rng, one, &other), unlike(place + 1));
            }
        }
        for longer in [length + 1, length + 256, length + 65_536, 2 * length] {
            assert_eq!(check_compare("long pairs", rng, one, &all[..longer]), unlike(0));
        }
        assert_eq!(check_compare("long pairs", rng, one, b""), unlike(0));
    }
    seeds("long pairs", 400, 4, |seed| {
        let rng = &mut Rng::new(seed + 25_000_000);
        let letters = rng.pick(&[bytes.as_slice(), b"a", b"\0\xff"]);
        let (one, other) = pair(rng, letters, 70_000);
        check_compare("long pairs", rng, &one, &other);
    });
}

/// Each two parts of one range, which may be the same or overlap.
#[test]
fn parts_of_one_range() {
    let rng = &mut Rng::new(26_000_000);
    for text in ["aaaaaaaaaaaa", "abababababab", "abcabcabcabc", "_cell_a _cell_b"] {
        check_parts("parts of one range", rng, text.as_bytes());
    }
    let most = if setting("STAR_COMPARE_TIMES", 1.0) < 0.1 { 8 } else { 24 };
    for length in 0..=most {
        let any: Vec<u8> = (0..length).map(|_| rng.pick(b"\0a\xff")).collect();
        check_parts("parts of one range", rng, &any);
    }
}

// --------------------------------------------------- lookups and readings

/// A generated file that is accepted, as the library reads it.
fn accepted(rng: &mut Rng) -> Handed {
    let file = generate::valid(rng);
    let mut tables = room(&file, [0; 5]).map(|words| vec![7; words]);
    let reading = star::read(&file, raw::STAR_LAYOUT_TODAY, TablesMut::of(&mut tables));
    assert_eq!(reading.refusal, raw::STAR_OK, "{}", escaped(&file));
    Handed { file, tables, counts: reading.counts() }
}

/// What a lookup is to answer: the one of these rows, each with its token row,
/// whose content star_compare says to equal what is sought.
fn found(handed: &Handed, rows: impl Iterator<Item = (usize, u32)>, sought: &[u8]) -> Found {
    let mut equal = rows.filter(|&(_, token)| {
        let words = &handed.tables[0][raw::STAR_TOKENS_WIDTH * (token as usize - 1)..];
        star::compare(&handed.file[words[1] as usize..words[2] as usize], sought).equal
    });
    let first = equal.next();
    assert!(equal.next().is_none(), "{} comes again: {}", escaped(sought), escaped(&handed.file));
    match first {
        Some((at, _)) => Found { refusal: raw::STAR_OK, row: at as u32 + 1 },
        None => Found { refusal: raw::STAR_NOT_FOUND, row: 0 },
    }
}

/// The sets in which a name that is asked of a set is sought, in order.
fn searched(sets: &[u32], set: u32) -> Vec<u32> {
    let kind = |row: u32| sets[raw::STAR_SETS_WIDTH * (row as usize - 1)];
    let mut all = vec![set];
    if kind(set) == raw::STAR_SET_BLOCK {
        all.extend((1..set).rev().filter(|&row| kind(row) == raw::STAR_SET_GLOBAL));
    }
    all
}

/// A block, frame or name is found exactly where star_compare says that its code
/// or name equals what is sought.
#[test]
fn lookups_agree() {
    let mut tally = [[0u64; 2]; 3];
    seeds("lookups agree", 20_000, 6, |seed| {
        let rng = &mut Rng::new(seed + 27_000_000);
        let handed = &accepted(rng);
        let file = handed.file.as_slice();
        let (tables, counts) = (Tables::of(&handed.tables), handed.counts);
        let sets = || tables.sets.chunks(raw::STAR_SETS_WIDTH).enumerate();
        let names = || tables.names.chunks(raw::STAR_NAMES_WIDTH).enumerate();
        for _ in 0..20 {
            let Question { set, sought, .. } = generate::question(rng, handed);
            let blocks = sets().filter(|(_, row)| row[0] == raw::STAR_SET_BLOCK);
            let frames = sets().filter(|(_, row)| row[0] == raw::STAR_SET_FRAME && row[2] == set);
            let token = |(at, row): (usize, &[u32])| (at, row[1]);
            let mut answers = vec![(
                star::find_block(file, tables, counts, &sought),
                found(handed, blocks.map(token), &sought),
            )];
            if 1 <= set && set <= counts.sets {
                answers.push((
                    star::find_frame(file, tables, counts, set, &sought),
                    found(handed, frames.map(token), &sought),
                ));
                let of = |set: u32| {
                    let own = names().filter(|(_, row)| row[0] == set);
                    found(handed, own.map(token), &sought)
                };
                let mut all = searched(tables.sets, set).into_iter().map(of);
                let first = all.find(|answer| answer.refusal != raw::STAR_NOT_FOUND);
                let none = Found { refusal: raw::STAR_NOT_FOUND, row: 0 };
                answers.push((
                    star::find_name(file, tables, counts, set, &sought),
                    first.unwrap_or(none),
                ));
            }
            for (at, (answer, by_compare)) in answers.into_iter().enumerate() {
                let call = ["find_block", "find_frame", "find_name"][at];
                let sought = escaped(&sought);
                assert_eq!(answer, by_compare, "{call} {set} {sought}: {}", escaped(file));
                tally[at][usize::from(answer.refusal == raw::STAR_OK)] += 1;
            }
        }
    });
    println!("lookups agree: not found and found {tally:?}");
    if setting("STAR_COMPARE_TIMES", 1.0) >= 0.1 {
        assert!(tally.iter().flatten().all(|&count| count > 500), "{tally:?}");
    }
}

/// A second name or code of one set is refused exactly where star_compare says
/// that it equals the first.
#[test]
fn uniqueness_agrees() {
    let printable: Vec<u8> = (b'!'..=b'~').collect();
    let mut tally = [0u64; 2];
    seeds("uniqueness agrees", 20_000, 4, |seed| {
        let rng = &mut Rng::new(seed + 28_000_000);
        let letters = rng.pick(&[printable.as_slice(), b"ab", b"aA"]);
        // with the letter and the underscore before it as long as may be
        let (one, other) = pair(rng, letters, raw::STAR_MOST_NAME_BYTES - 2);
        let [one, other] = [one, other].map(|code| [b"n".as_slice(), &code].concat());
        let compared = star::compare(&one, &other);
        for [head, lead, between, tail] in [
            ["data_a ", "_", " 1 ", " 2"],
            ["data_a loop_ ", "_", " ", " 1 2"],
            ["data_a loop_ ", "_", " loop_ ", " 1 2 stop_"],
            ["data_a save_f ", "_", " 1 ", " 2 save_"],
            ["", "data_", " ", ""],
            ["data_a ", "save_", " save_ ", " save_"],
            ["global_ ", "_", " 1 ", " 2"],
            ["global_ loop_ ", "_", " 1 ", " 2 global_"],
            ["global_ ", "data_", " global_ ", ""],
            ["data_a global_ ", "save_", " save_ ", " save_"],
        ] {
            let first = [head.as_bytes(), lead.as_bytes(), &one, between.as_bytes()].concat();
            let file = [&first, lead.as_bytes(), &other, tail.as_bytes()].concat();
            let mut tables = star::room(file.len()).map(|words| vec![7; words]);
            let reading = star::read(&file, raw::STAR_LAYOUT_TODAY, TablesMut::of(&mut tables));
            let expected = match compared.equal {
                true => (raw::STAR_TAKEN, first.len() as u32),
                false => (raw::STAR_OK, 0),
            };
            assert_eq!((reading.refusal, reading.place), expected, "{}", escaped(&file));
            tally[usize::from(compared.equal)] += 1;
        }
    });
    println!("uniqueness agrees: unlike and equal {tally:?}");
    if setting("STAR_COMPARE_TIMES", 1.0) >= 0.1 {
        assert!(tally.iter().all(|&count| count > 500), "{tally:?}");
    }
}

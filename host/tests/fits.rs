//! Whether every name and code fits the old limit, by the library beside the
//! reference and beside what a reader with that limit makes of the same files.
//!
//! The groups and their settings are as `harness::seeds` has them.

mod harness;

use harness::{check, fits, fits_into, room, seeds, setting, Tally};
use tackturnel::{raw, star, Checked, Reading, TablesMut};
use tackturnel_tests_support::generate::{self, Rng};
use tackturnel_tests_support::reference::{self, Token};

const OLD: usize = raw::STAR_OLD_NAME_BYTES;
const MOST: usize = raw::STAR_MOST_NAME_BYTES;

/// How often each answer was met.
#[derive(Debug, Default)]
struct Answers {
    yes: u64,
    no: u64,
    refusals: Tally,
    /// Refusal 7, by the number of the table.
    short: [u64; 6],
    /// Beside a reader with the old limit: both accept, the library alone, both
    /// refuse alike, the old reader by 4 and the library otherwise.
    old: [u64; 4],
}

impl Answers {
    fn add(&mut self, checked: Checked) {
        match (checked.refusal, checked.yes) {
            (raw::STAR_OK, 1) => self.yes += 1,
            (raw::STAR_OK, _) => self.no += 1,
            _ => {}
        }
        self.refusals[checked.refusal as usize] += 1;
        if checked.refusal == raw::STAR_TOO_SHORT {
            self.short[checked.place as usize] += 1;
        }
    }

    /// Checks a file by both, in tables of this many words more, or less, than
    /// needed, and beside a reader with the old limit.
    fn check(&mut self, label: &str, seed: u64, file: &[u8], spare: [isize; 5]) -> Checked {
        let checked = check(label, seed, file, |file| fits(seed, file, spare));
        let beside = check(label, seed, file, |file| old_reader(file, room(file, spare)));
        self.add(checked);
        self.old[beside] += 1;
        checked
    }

    /// Requires that yes, no, each of these refusals and 7 for each of these tables
    /// were met so often, unless in a small part of a run.
    fn require(&self, group: &str, refusals: &[usize], tables: &[usize], least: u64) {
        println!("{group}: {self:?}");
        if setting("STAR_COMPARE_TIMES", 1.0) < 0.1 {
            return;
        }
        let refusals = refusals.iter().map(|&number| self.refusals[number]);
        let tables = tables.iter().map(|&table| self.short[table]);
        let mut all = [self.yes, self.no].into_iter().chain(refusals).chain(tables);
        assert!(all.all(|count| count >= least), "{group}, each {least} times: {self:?}");
    }
}

// ------------------------------------------------------------- old readers

/// What a reader with the old limit is to answer where the library answers this:
/// 4 at the first longer name or code that it comes to, else the same.
fn by_old_limit(file: &[u8], checked: Checked) -> Reading {
    // what it comes to where the library comes no further than its refusal
    let before = match checked.refusal {
        raw::STAR_TOO_LARGE | raw::STAR_BAD_BYTE => &file[..0],
        raw::STAR_BAD_WORD..=raw::STAR_OPEN_TEXT => &file[..checked.place as usize],
        _ => file,
    };
    let tokens = reference::tokens(before).expect("what comes before splits into tokens");
    let longer = |token: &&Token| match token.kind {
        raw::STAR_TOKEN_BLOCK | raw::STAR_TOKEN_FRAME | raw::STAR_TOKEN_NAME => {
            token.end - token.start > OLD
        }
        _ => false,
    };
    match tokens.iter().find(longer) {
        Some(token) => {
            let place = token.at as u32;
            Reading { refusal: raw::STAR_TOO_LONG, place, ..Reading::default() }
        }
        None => checked.reading(),
    }
}

/// Reads a file by the old limit and compares with what the library answers: which
/// of `Answers::old` it is.
fn old_reader(file: &[u8], room: [usize; 5]) -> Result<usize, String> {
    let mut tables = room.map(|words| vec![7; words]);
    let checked = star::fits_32(file, TablesMut::of(&mut tables));
    let (old, old_tables) = reference::read_by_old_limit(file, room);
    let takes = old.refusal == raw::STAR_OK;
    if old != by_old_limit(file, checked) || takes != (checked.yes == 1) {
        return Err(format!("  library: {checked:?}\n  by the old limit: {old:?}"));
    }
    if takes && old_tables != tables {
        return Err("  other words by the old limit".to_owned());
    }
    Ok(match checked.refusal {
        raw::STAR_OK => usize::from(!takes),
        _ if old == checked.reading() => 2,
        _ => 3,
    })
}

// ------------------------------------------------------------------ files

#[test]
fn generated_files() {
    let mut answers = Answers::default();
    seeds("generated files", 20_000, 8, |seed| {
        let rng = &mut Rng::new(seed + 30_000_000);
        let file = if rng.once_in(2) { generate::valid(rng) } else { generate::any(rng) };
        let mut spares = vec![[0; 5], [9; 5]];
        for table in 0..5 {
            let mut short = [1; 5];
            short[table] = -1;
            spares.push(short);
        }
        spares.push([0; 5].map(|_: isize| rng.pick(&[-9999, -4, -3, -1, 0, 0, 0, 1, 2, 30])));
        for spare in spares {
            answers.check("generated files", seed, &file, spare);
        }
        // with the room that its length asks for
        let by_length = |file: &[u8]| fits_into(seed, file, star::room(file.len()));
        let checked = check("generated files by length", seed, &file, by_length);
        assert_ne!(checked.refusal, raw::STAR_TOO_SHORT, "seed {seed}");
        answers.add(checked);
    });
    let refusals = [2, 3, 4, 5, 6, 7, 8, 9, 10, 11, 16];
    answers.require("generated files", &refusals, &[1, 2, 3, 4, 5], 5);
    if setting("STAR_COMPARE_TIMES", 1.0) >= 0.1 {
        assert!(answers.old.iter().all(|&count| count > 100), "{answers:?}");
    }
}

/// Names, codes and others of every length, with what stands before and after them.
#[test]
fn every_length() {
    // what is counted begins before the letters: the underscore of a name
    let counted = [
        ("", "data_", ""),
        ("data_a ", "data_", " _x 1"),
        ("data_a ", "save_", " save_"),
        ("data_a save_f save_ ", "save_", " _x 1 save_ data_b"),
        ("data_a ", "_", " 1"),
        ("data_a _x 1 ", "_", " 2 data_b"),
        ("data_a loop_ ", "_", " 1 2 3"),
        ("data_a loop_ _x ", "_", " 1 2 3 4"),
        ("data_a loop_ _x loop_ ", "_", " 1 2 stop_ 3 stop_"),
        ("data_a save_f ", "_", " 1 save_"),
        ("data_a save_f loop_ _x loop_ ", "_", " _y 1 2 3 stop_ save_"),
        ("global_ ", "data_", " global_"),
        ("global_ ", "save_", " _x 1 save_ global_"),
        ("data_a _x 1 global_ ", "_", " 1 global_ _x 2"),
        ("global_ loop_ _x ", "_", " 1 2 global_"),
        ("data_a\r\n_x\n;t\r\n;\n", "_", "\r\n'v'"),
    ];
    let free = [
        ("data_a _x ", "$", ""),
        ("data_a loop_ _x $f ", "$", " $f"),
        ("data_a _x ", "v", ""),
        ("data_a _x ", "'", "'"),
        ("data_a _x ", "\"", "\""),
        ("data_a _x\n", ";", "\n;"),
        ("data_a ", "#data_", ""),
        ("data_a ", "# _", "\n"),
    ];
    let mut answers = Answers::default();
    for (sort, limited) in [(&counted[..], true), (&free[..], false)] {
        for &(head, lead, tail) in sort {
            for letters in 1..=100 {
                let length = letters + usize::from(lead == "_");
                let file = format!("{head}{lead}{}{tail}", "n".repeat(letters)).into_bytes();
                let checked = answers.check("every length", 0, &file, [0; 5]);
                let expected = match length {
                    _ if !limited || length <= OLD => (raw::STAR_OK, 0, 1),
                    _ if length <= MOST => (raw::STAR_OK, 0, 0),
                    _ => (raw::STAR_TOO_LONG, head.len() as u32, 0),
                };
                let answer = (checked.refusal, checked.place, checked.yes);
                assert_eq!(answer, expected, "{lead}, {length}");
            }
        }
    }
    answers.require("every length", &[4], &[], 100);
}

/// Blocks, frames, items and loops; each # stands for a name or code of its own.
const PARTS: &str = "data_# _# 1 _# $f save_# _# 1 loop_ _# _# 1 2 save_ save_# save_ \
    loop_ _# _# loop_ _# 1 2 3 stop_ 4 5 stop_ _# 'v' global_ _# 1 save_# loop_ _# 2 save_";
/// How many that are, in parts that come so often.
const EACH: usize = 15;
const TIMES: usize = 12;

/// A file of such parts whose names and codes all have the length of the old limit
/// but for one, which has so many bytes; and the place of that one. None if there
/// are fewer.
fn one_among_many(which: usize, bytes: usize) -> Option<(Vec<u8>, u32)> {
    let (mut file, mut number, mut place) = (String::new(), 0, None);
    for word in [PARTS; TIMES].iter().flat_map(|parts| parts.split_whitespace()) {
        if let Some(lead) = word.strip_suffix('#') {
            if number == which {
                place = Some(file.len() as u32);
            }
            let bytes = if number == which { bytes } else { OLD };
            let digits = bytes - usize::from(lead == "_");
            file += &format!("{lead}{number:0digits$} ");
            number += 1;
        } else {
            file += &format!("{word} ");
        }
    }
    Some((file.into_bytes(), place?))
}

#[test]
fn each_among_many() {
    let mut answers = Answers::default();
    for (bytes, yes) in [(OLD, 1), (OLD + 1, 0), (MOST, 0), (MOST + 1, 0)] {
        for which in 0.. {
            let Some((file, place)) = one_among_many(which, bytes) else {
                assert_eq!(which, EACH * TIMES);
                break;
            };
            let checked = answers.check("each among many", 0, &file, [0; 5]);
            assert_eq!(checked.yes, yes, "{which} of {bytes} bytes");
            let too_long = (raw::STAR_TOO_LONG, place);
            if bytes > MOST {
                assert_eq!((checked.refusal, checked.place), too_long, "{which}");
            }
            if bytes > OLD {
                let (old, _) = reference::read_by_old_limit(&file, room(&file, [0; 5]));
                assert_eq!((old.refusal, old.place), too_long, "{which} of {bytes} bytes");
            }
        }
    }
    let all = (EACH * TIMES) as u64;
    answers.require("each among many", &[4], &[], all);
    assert_eq!(answers.old, [all, 2 * all, all, 0]);
}

#[test]
fn tables_of_every_length() {
    let name = |bytes: usize| "_".to_owned() + &"n".repeat(bytes - 1);
    let code = |bytes: usize| "c".repeat(bytes);
    let mut answers = Answers::default();
    for bytes in [OLD, OLD + 1, MOST, MOST + 1] {
        let (name, code) = (name(bytes), code(bytes));
        for file in [
            format!("data_a {name} 1 save_f loop_ {name} 1 2 save_"),
            format!("data_{code} loop_ _x loop_ _y 1 2 3 stop_ 4 stop_ data_b _x 'a'"),
            format!("data_a save_{code} _x $f save_"),
            format!("global_ {name} 1 save_{code} save_ global_"),
            format!("data_a _x ${code}"),
            format!("data_a loop_ _x {name} 1"),
            format!("data_a {name} 1 {name}"),
            format!("data_a loop_ _x loop_ {name} stop_ 1 stop_"),
        ] {
            let needed = reference::words_needed(file.as_bytes());
            for table in 0..5 {
                for spare in -(needed[table] as isize)..5 {
                    for others in [0, 3, -1] {
                        let mut spares = [others; 5];
                        spares[table] = spare;
                        answers.check("tables of every length", 0, file.as_bytes(), spares);
                    }
                }
            }
        }
    }
    answers.require("tables of every length", &[4, 9, 10, 16], &[1, 2, 3, 4, 5], 20);
}

// ------------------------------------------------------------ large files

/// The largest file with values and, at its end, a block code of so many bytes.
fn code_at_the_end(bytes: usize) -> Vec<u8> {
    let end = format!("data_{}", "c".repeat(bytes));
    let mut file = b"data_a loop_ _x".to_vec();
    while file.len() + 3 + end.len() <= raw::STAR_MOST_BYTES {
        file.extend(b" 1");
    }
    file.resize(raw::STAR_MOST_BYTES - end.len(), b' ');
    file.extend(end.into_bytes());
    file
}

/// As many names of so many bytes as the largest file holds, the last of them one
/// byte longer or not.
fn names_of(bytes: usize, longer: bool) -> Vec<u8> {
    let digits = bytes - 1;
    let mut file = "data_a".to_owned();
    for number in 0..(raw::STAR_MOST_BYTES - 10) / (bytes + 3) {
        file += &format!(" _{number:0digits$} 1");
    }
    if longer {
        file.insert(file.len() - 2, 'n');
    }
    file.into_bytes()
}

#[test]
fn largest_files() {
    let mut answers = Answers::default();
    for (name, file) in generate::largest() {
        answers.check(name, 0, &file, [0; 5]);
    }
    for (bytes, expected) in [
        (OLD, (raw::STAR_OK, 1)),
        (OLD + 1, (raw::STAR_OK, 0)),
        (MOST, (raw::STAR_OK, 0)),
        (MOST + 1, (raw::STAR_TOO_LONG, 0)),
    ] {
        let mut file = code_at_the_end(bytes);
        let name = "a code at the end";
        let checked = answers.check(name, 0, &file, [0; 5]);
        assert_eq!((checked.refusal, checked.yes), expected, "{bytes}");
        file.push(b' ');
        let checked = answers.check(name, 0, &file, [0; 5]);
        assert_eq!(checked, Checked { refusal: raw::STAR_TOO_LARGE, ..Checked::default() });
    }
    for (bytes, longer, expected) in [
        (OLD, false, (raw::STAR_OK, 1)),
        (OLD, true, (raw::STAR_OK, 0)),
        (MOST, false, (raw::STAR_OK, 0)),
        (MOST, true, (raw::STAR_TOO_LONG, 0)),
    ] {
        let file = names_of(bytes, longer);
        let checked = answers.check("names", 0, &file, [0; 5]);
        assert_eq!((checked.refusal, checked.yes), expected, "{bytes}, {longer}");
    }
    answers.require("largest files", &[1, 2, 4, 5, 6, 8, 9, 10], &[], 1);
}

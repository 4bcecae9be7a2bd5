//! The index beside the names: built, checked and looked up through, in tables and slots
//! of readings and in others.
//!
//! The groups and their settings are as `harness::seeds` has them.

mod harness;

use harness::indexes::{build, check as check_slots, check_finds};
use harness::{check, handed, require, require_refusals, room, seeds, Tally};
use tackturnel::{index, raw, star, Counts, Found, Reading, Tables, TablesMut};
use tackturnel_tests_support::generate::{self, globals, indexes, Handed, Question, Rng};
use tackturnel_tests_support::index::{faults, filled, home, Faults};
use tackturnel_tests_support::notation::escaped;
use tackturnel_tests_support::{reference, MOST_BYTES, WIDTHS};

/// A name, asked of a set.
fn question(set: u32, name: &[u8]) -> Question {
    Question { set, name_row: 1, k: 1, sought: name.to_vec() }
}

/// An accepted file with its tables and an index in so many slots, as the library leaves
/// them.
fn built(file: &str, slots: usize) -> (Handed, Vec<u32>) {
    let mut tables = room(file.as_bytes(), [0; 5]).map(|words| vec![7; words]);
    let mut index = vec![7; slots];
    let reading = index::build(file.as_bytes(), TablesMut::of(&mut tables), &mut index);
    assert_eq!(reading.refusal, raw::STAR_OK, "{file}");
    (Handed { file: file.into(), tables, counts: reading.counts() }, index)
}

/// The refusal and the row of a name, asked of a set through the slots by the library,
/// which is compared with the reference and changes nothing.
fn name_of(handed: &Handed, slots: &[u32], set: u32, name: &str) -> (u32, u32) {
    let questions = [question(set, name.as_bytes())];
    check_finds("known lookups", 0, handed, slots, &questions, &mut Tally::default());
    let (tables, counts) = (Tables::of(&handed.tables), handed.counts);
    let found = index::find(&handed.file, tables, counts, slots, set, name.as_bytes());
    (found.refusal, found.row)
}

const NOT_FOUND: (u32, u32) = (raw::STAR_NOT_FOUND, 0);
const OUTSIDE: (u32, u32) = (raw::STAR_OUTSIDE, 0);

// ----------------------------------------------------------- known files

/// What a check by the library answers, which is compared with the reference.
fn checked(file: &str, slots: &[u32]) -> (u32, u32) {
    let of = |file: &[u8]| check_slots(0, file, room(file, [0; 5]), slots);
    let reading = check("known checks", 0, file.as_bytes(), of);
    (reading.refusal, reading.place)
}

#[test]
fn known_checks() {
    let no_index = (raw::STAR_NO_INDEX, 0);
    let file = "data_a _x 1 _y 2";
    assert_eq!(checked(file, &[0, 1, 2]), (0, 0));
    // not more slots than names
    for slots in [&[][..], &[0], &[1, 2], &[2, 1]] {
        assert_eq!(checked(file, slots), no_index, "{slots:?}");
    }
    // a row in no slot or in two, another number
    for slots in [[0, 1, 0], [0, 0, 0], [1, 1, 2], [2, 1, 2], [3, 1, 2], [u32::MAX, 1, 2]] {
        assert_eq!(checked(file, &slots), no_index, "{slots:?}");
    }
    for other in [1 | 1 << 8, 1 | 1 << 16, 1 | 1 << 30, 1 | 1 << 31, (1 << 31) + 2] {
        assert_eq!(checked(file, &[0, other, 2]), no_index, "{other}");
        assert_eq!(checked(file, &[other, 1, 2]), no_index, "{other}");
    }
    // a 0 between the home and the row
    for slots in [[1, 0, 2], [1, 2, 0], [2, 1, 0]] {
        assert_eq!(checked(file, &slots), no_index, "{slots:?}");
    }
    // files without names
    for file in ["", "data_a", "global_ data_a save_f save_"] {
        assert_eq!(checked(file, &[]), no_index, "{file}");
        assert_eq!(checked(file, &[0]), (0, 0), "{file}");
        assert_eq!(checked(file, &[0, 0, 0]), (0, 0), "{file}");
        assert_eq!(checked(file, &[1]), no_index, "{file}");
        assert_eq!(checked(file, &[0, 0, u32::MAX]), no_index, "{file}");
    }
    // reading's refusals come first
    assert_eq!(checked("data_a _x", &[]), (raw::STAR_MISPLACED, 9));
    assert_eq!(checked("data_a _x 1 _x 2", &[9, 9]), (raw::STAR_TAKEN, 12));
    let retired = (raw::STAR_HEADER_STOP, 25);
    assert_eq!(checked("data_a loop_ _x loop_ _y stop_ 1 stop_", &[0, 1, 2]), retired);
}

/// Every row of up to six slots, for files of up to three names in one set and in more.
#[test]
fn every_short_row_of_slots() {
    let files = [
        "data_a",
        "data_a _x 1",
        "data_a _x 1 _y 2",
        "data_a _x 1 _y 2 _z 3",
        "global_ _x 1 data_a _x 2 save_f _x 3 save_",
    ];
    let mut accepted = [0; 5];
    for (at, file) in files.into_iter().enumerate() {
        let (reading, tables) = reference::read(file.as_bytes(), room(file.as_bytes(), [0; 5]));
        let numbers = reading.names + 2;
        for length in 0..=6 {
            for number in 0..numbers.pow(length) {
                let digit = |place| number / numbers.pow(place) % numbers;
                let slots: Vec<u32> = (0..length).map(digit).collect();
                let answer = checked(file, &slots);
                let found = faults(file.as_bytes(), &tables, reading.counts(), &slots);
                assert_eq!(answer.0 == 0, found == [false; 4], "{file}, {slots:?}");
                accepted[at] += u32::from(answer.0 == 0);
            }
        }
    }
    println!("every short row of slots: accepted {accepted:?}");
    assert!(accepted[0] == 6 && accepted.iter().all(|&count| count >= 3), "{accepted:?}");
}

#[test]
fn known_lookups() {
    // name rows: 1 and 2 of the global block, 3 of the data block, 4 and 5 of its frame
    let (handed, slots) = &built("global_ _x 1 _y 2 data_a _z 3 save_f _x 4 _z 5 save_", 7);
    let names = ["_x", "_y", "_z", "_w"];
    let found = |set: u32| names.map(|name| name_of(handed, slots, set, name));
    assert_eq!(found(1), [(0, 1), (0, 2), NOT_FOUND, NOT_FOUND]);
    assert_eq!(found(2), [(0, 1), (0, 2), (0, 3), NOT_FOUND]);
    assert_eq!(found(3), [(0, 4), NOT_FOUND, (0, 5), NOT_FOUND]);
    for set in [0, 4, u32::MAX] {
        assert_eq!(found(set), [OUTSIDE; 4], "{set}");
    }
    // no slots at all: 13 of each set in turn, after plain lookup's checks
    assert_eq!([1, 2, 3].map(|set| name_of(handed, &[], set, "_x")), [NOT_FOUND; 3]);
    assert_eq!([0, 4].map(|set| name_of(handed, &[], set, "_x")), [OUTSIDE; 2]);
    let mut many = handed.clone();
    many.counts.packets += 1;
    assert_eq!(name_of(&many, slots, 1, "_x"), OUTSIDE);
    // a row is found wherever the slots before it lead on, each number of slots
    for count in 1..9 {
        let all = vec![3; count];
        assert_eq!(name_of(handed, &all, 2, "_z"), (0, 3), "{count}");
        // no slot is left, for the data block and for the global block
        assert_eq!(name_of(handed, &all, 2, "_x"), NOT_FOUND, "{count}");
        assert_eq!(name_of(handed, &all, 1, "_x"), NOT_FOUND, "{count}");
        assert_eq!(name_of(handed, &vec![1; count], 2, "_x"), (0, 1), "{count}");
        // at home, and the slot before it, to which all others lead
        let at = home(count, 2, b"_z");
        let mut one = vec![0; count];
        one[at] = 3;
        assert_eq!(name_of(handed, &one, 2, "_z"), (0, 3), "{count}");
        let mut last = vec![5; count];
        last[(at + count - 1) % count] = 3;
        assert_eq!(name_of(handed, &last, 2, "_z"), (0, 3), "{count}");
        if count > 1 {
            last[at] = 0;
            assert_eq!(name_of(handed, &last, 2, "_z"), NOT_FOUND, "{count}");
            for above in [6, 7, 1 << 30, (1 << 31) | 3, u32::MAX] {
                last[at] = above;
                assert_eq!(name_of(handed, &last, 2, "_z"), OUTSIDE, "{count}, {above}");
                assert_eq!(name_of(handed, &one, 2, "_z"), (0, 3), "{count}");
            }
        }
    }
}

/// A row of the set that points outside is 14 when it is met; one of another set is not
/// looked at.
#[test]
fn rows_that_point_outside() {
    let (handed, _) = &built("global_ _x 1 data_a _y 2 _z 3", 4);
    for token in [0, handed.counts.tokens + 1, u32::MAX] {
        let with = |row: usize| {
            let mut other = handed.clone();
            other.tables[2][WIDTHS[2] * (row - 1) + 1] = token;
            other
        };
        let (global, own) = (&with(1), &with(2));
        for count in 1..6 {
            // of the set that is asked
            assert_eq!(name_of(own, &vec![2; count], 2, "_y"), OUTSIDE, "{token}, {count}");
            assert_eq!(name_of(own, &vec![2; count], 2, "_x"), OUTSIDE, "{token}, {count}");
            // of another
            assert_eq!(name_of(own, &vec![2; count], 1, "_x"), NOT_FOUND, "{token}, {count}");
            let mut slots = vec![1; count];
            slots[home(count, 2, b"_z")] = 3;
            assert_eq!(name_of(global, &slots, 2, "_z"), (0, 3), "{token}, {count}");
            let mut slots = vec![2; count];
            slots[(home(count, 1, b"_x") + count - 1) % count] = 1;
            assert_eq!(name_of(own, &slots, 1, "_x"), (0, 1), "{token}, {count}");
            // of a global block that is come to
            let slots = vec![1; count];
            assert_eq!(name_of(global, &slots, 2, "_x"), OUTSIDE, "{token}, {count}");
        }
    }
    // a span that ends after the file
    let mut cut = handed.clone();
    cut.file.truncate(21);
    assert_eq!(name_of(&cut, &[2; 3], 2, "_y"), OUTSIDE);
    assert_eq!(name_of(&cut, &[1; 3], 2, "_x"), (0, 1));
}

// ------------------------------------------------------- building, checking

/// The index is accepted by the library, and leaves the tables that building left.
fn accepts(file: &[u8], room: [usize; 5], slots: &[u32], reading: Reading) -> Result<(), String> {
    let of_build = &mut room.map(|words| vec![7; words]);
    let of_check = &mut of_build.clone();
    index::build(file, TablesMut::of(of_build), &mut vec![7; slots.len()]);
    let answer = index::check(file, TablesMut::of(of_check), slots);
    match answer == reading && of_build == of_check {
        true => Ok(()),
        false => Err(format!("  built {reading:?}, checked {answer:?}, {slots:?}")),
    }
}

#[test]
fn generated_files() {
    let [mut building, mut checking] = [Tally::default(); 2];
    let mut short = 0;
    seeds("generated files", 60_000, 10, |seed| {
        let rng = &mut Rng::new(seed + 70_000_000);
        let file = if rng.once_in(2) { indexes::file(rng) } else { generate::any(rng) };
        let names = reference::words_needed(&file)[2] / WIDTHS[2];
        let slots = indexes::count(rng, names);
        let spare = [0; 5].map(|_: isize| if rng.once_in(30) { -1 } else { rng.pick(&[0, 3]) });
        let of = |file: &[u8]| build(seed, file, room(file, spare), slots);
        let (reading, index) = check("building", seed, &file, of);
        building[reading.refusal as usize] += 1;
        short += u64::from((reading.refusal, reading.place) == (raw::STAR_TOO_SHORT, 8));
        let of = |file: &[u8]| check_slots(seed, file, room(file, spare), &index);
        let answer = check("checking what was built", seed, &file, of);
        checking[answer.refusal as usize] += 1;
        if reading.refusal == 0 {
            assert_eq!(answer, reading, "seed {seed}");
            check("building and checking", seed, &file, |file| {
                match reference::read(file, room(file, spare)).0 == reading {
                    true => accepts(file, room(file, spare), &index, reading),
                    false => Ok(()),
                }
            });
        }
    });
    require_refusals("building", &building, &[0, 2, 3, 4, 5, 6, 7, 8, 9, 10, 11, 16]);
    require_refusals("checking", &checking, &[0, 2, 3, 4, 5, 6, 7, 8, 9, 10, 11, 15, 16]);
    require("building", &[("7 with place 8", short)], 100);
}

/// What comes of slots that are checked.
const CHECKS: [&str; 9] = [
    "accepted, as built",
    "accepted, in another order",
    "accepted, round the end",
    "15, not more slots alone",
    "15, a row not in just one slot alone",
    "15, another number alone",
    "15, a 0 between home and row alone",
    "15, several",
    "reading's refusal",
];

/// Of which sorts the answer for these slots is.
fn sorts_of(handed: &Handed, slots: &[u32], answer: Reading) -> [bool; CHECKS.len()] {
    let Handed { file, tables, counts } = handed;
    let found: Faults = match answer.refusal {
        0 | raw::STAR_NO_INDEX => faults(file, tables, *counts, slots),
        _ => [false; 4],
    };
    let accepted = answer.refusal == raw::STAR_OK;
    let as_built = || reference_index(handed, slots.len()) == slots;
    // a row of the first run has its home after its own slot
    let round = || {
        slots.iter().take_while(|&&row| row != 0).enumerate().any(|(at, &row)| {
            let words = &tables[2][WIDTHS[2] * (row as usize - 1)..];
            let token = &tables[0][WIDTHS[0] * (words[1] as usize - 1)..];
            home(slots.len(), words[0], &file[token[1] as usize..token[2] as usize]) > at
        })
    };
    let alone = |at: usize| found[at] && found.iter().filter(|&&fault| fault).count() == 1;
    [
        accepted && as_built(),
        accepted && !as_built(),
        accepted && round(),
        alone(0),
        alone(1),
        alone(2),
        alone(3),
        found.iter().filter(|&&fault| fault).count() > 1,
        !accepted && answer.refusal != raw::STAR_NO_INDEX,
    ]
}

/// The index of accepted tables in so many slots, as the reference builds it.
fn reference_index(handed: &Handed, slots: usize) -> Vec<u32> {
    let Handed { file, tables, counts } = handed;
    filled(file, tables, *counts, slots, 1..=counts.names)
}

#[test]
fn generated_slots() {
    let mut counts = [0; CHECKS.len()];
    seeds("generated slots", 60_000, 10, |seed| {
        let rng = &mut Rng::new(seed + 71_000_000);
        let file = if rng.once_in(20) { generate::any(rng) } else { indexes::file(rng) };
        let handed = handed(&file, 0);
        let names = handed.counts.names;
        let count = indexes::count(rng, names as usize);
        let slots = match rng.below(8) {
            0 => indexes::junk(rng, count, names),
            kind if count > names as usize => {
                let (tables, counts) = (&handed.tables, handed.counts);
                let mut slots = indexes::in_any_order(rng, &file, tables, counts, count);
                for _ in 0..[0, 0, 0, 1, 1, 1, 1, 3][kind] {
                    indexes::spoil(rng, &mut slots, names);
                }
                slots
            }
            // rows in any order, none of them twice
            _ => {
                let mut rows: Vec<u32> = (1..=count as u32).collect();
                (1..count).for_each(|at| rows.swap(at, rng.below(at + 1)));
                rows
            }
        };
        let spare = rng.pick(&[0, 2]);
        let of = |file: &[u8]| check_slots(seed, file, room(file, [spare; 5]), &slots);
        let answer = check("generated slots", seed, &file, of);
        let sorts = sorts_of(&handed, &slots, answer);
        counts.iter_mut().zip(sorts).for_each(|(count, held)| *count += u64::from(held));
    });
    let named: Vec<_> = CHECKS.into_iter().zip(counts).collect();
    require("generated slots", &named, 100);
}

/// Reading's refusals come first, whatever the slots are, with tables of every length.
#[test]
fn tables_of_every_length() {
    let files = [
        "data_a _x 1 save_f loop_ _x 1 2 save_",
        "global_ _x 1 data_a _y 2",
        "data_a _x",
        "data_a loop_ _x loop_ _y stop_ 1 stop_",
    ];
    for file in files.map(str::as_bytes) {
        let needed = reference::words_needed(file);
        for table in 0..5 {
            for spare in -(needed[table] as isize)..8 {
                for slots in 0..5 {
                    let mut spares = [3; 5];
                    spares[table] = spare;
                    let of = |file: &[u8]| build(1, file, room(file, spares), slots);
                    let (_, index) = check("every length", 0, file, of);
                    for slots in [&index, &vec![0; slots], &vec![9; slots]] {
                        let of = |file: &[u8]| check_slots(1, file, room(file, spares), slots);
                        check("every length", 0, file, of);
                    }
                }
            }
        }
    }
}

// ---------------------------------------------------------------- lookups

/// Through an index every set answers to every name what plain lookup answers.
fn as_plain(label: &str, seed: u64, handed: &Handed, slots: &[u32], questions: &[Question]) {
    let (file, tables, counts) = (&handed.file, Tables::of(&handed.tables), handed.counts);
    for Question { set, sought, .. } in questions {
        let found = index::find(file, tables, counts, slots, *set, sought);
        let plain = star::find_name(file, tables, counts, *set, sought);
        let asked = || format!("{label}, seed {seed}, set {set}, {}:", escaped(sought));
        assert_eq!(found, plain, "{} {}, {slots:?}", asked(), escaped(file));
    }
}

/// Every set and one before and after, asked for every name of the file and for some that
/// it has not.
fn every_question(handed: &Handed) -> Vec<Question> {
    let Handed { file, tables, counts } = handed;
    let mut names: Vec<&[u8]> = vec![b"_", b"", b"_a", b"a", b"_no_such_name"];
    for row in tables[2].chunks_exact(WIDTHS[2]).take(counts.names as usize) {
        let token = &tables[0][WIDTHS[0] * (row[1] as usize - 1)..];
        names.push(&file[token[1] as usize..token[2] as usize]);
    }
    names.sort_unstable();
    names.dedup();
    let of = |name: &[u8]| (0..=counts.sets + 1).map(|set| question(set, name)).collect();
    names.into_iter().flat_map(|name| -> Vec<Question> { of(name) }).collect()
}

#[test]
fn lookups_through_an_index() {
    let mut tally = Tally::default();
    seeds("lookups through an index", 20_000, 8, |seed| {
        let rng = &mut Rng::new(seed + 72_000_000);
        let file = if rng.once_in(2) { globals::file(rng) } else { generate::valid(rng) };
        let handed = handed(&file, rng.below(4));
        let count = handed.counts.names as usize + 1 + rng.pick(&[0, 0, 1, 2, 9, 40]);
        let slots = match rng.once_in(2) {
            true => reference_index(&handed, count),
            false => indexes::in_any_order(rng, &file, &handed.tables, handed.counts, count),
        };
        let of = |file: &[u8]| check_slots(seed, file, room(file, [0; 5]), &slots);
        assert_eq!(of(&file).map(|reading| reading.refusal), Ok(0), "seed {seed}");
        let questions = every_question(&handed);
        check_finds("lookups through an index", seed, &handed, &slots, &questions, &mut tally);
        as_plain("lookups through an index", seed, &handed, &slots, &questions);
    });
    require_refusals("lookups through an index", &tally, &[0, 13, 14]);
}

/// How the search of one set through the slots ends.
#[derive(Clone, Copy, Debug, PartialEq, Eq)]
enum End {
    NoSlots,
    Zero,
    NoneLeft,
    Above(u32),
    Outside,
    Row(u32),
}

/// The search of one set: its end, how many slots were passed, whether the last of all
/// was passed, and whether a row of another set that points outside was, or one of the
/// same set with another name.
#[derive(Clone, Copy, Debug)]
struct Search {
    end: End,
    passed: usize,
    round: bool,
    other_outside: bool,
    other_name: bool,
}

/// The content of a name row, if its token row and span are inside.
fn content(handed: &Handed, row: u32) -> Option<&[u8]> {
    let Handed { file, tables, counts } = handed;
    let token = tables[2][WIDTHS[2] * (row as usize - 1) + 1];
    let mut tokens = tables[0].chunks_exact(WIDTHS[0]).take(counts.tokens as usize);
    let words = tokens.nth((token as usize).checked_sub(1)?)?;
    file.get(words[1] as usize..words[2] as usize)
}

/// The search of a set, where counts and set are inside.
fn search(handed: &Handed, slots: &[u32], set: u32, name: &[u8]) -> Search {
    let start = if slots.is_empty() { 0 } else { home(slots.len(), set, name) };
    let mut turned = slots.to_vec();
    turned.rotate_left(start);
    let is_row = |row: u32| (1..=handed.counts.names).contains(&row);
    let of_set = |row: u32| handed.tables[2][WIDTHS[2] * (row as usize - 1)] == set;
    let ends = |&row: &u32| {
        !is_row(row) || (of_set(row) && content(handed, row).is_none_or(|content| content == name))
    };
    let at = turned.iter().position(ends);
    let passed = &turned[..at.unwrap_or(turned.len())];
    let end = match at.map(|at| turned[at]) {
        None if slots.is_empty() => End::NoSlots,
        None => End::NoneLeft,
        Some(0) => End::Zero,
        Some(row) if !is_row(row) => End::Above(row),
        Some(row) if content(handed, row).is_none() => End::Outside,
        Some(row) => End::Row(row),
    };
    Search {
        end,
        passed: passed.len(),
        round: start + passed.len() >= slots.len(),
        other_outside: passed.iter().any(|&row| !of_set(row) && content(handed, row).is_none()),
        other_name: passed.iter().any(|&row| of_set(row)),
    }
}

/// What a search answers.
fn answer_of(end: End) -> Found {
    match end {
        End::NoSlots | End::Zero | End::NoneLeft => Found { refusal: 13, row: 0 },
        End::Above(_) | End::Outside => Found { refusal: 14, row: 0 },
        End::Row(row) => Found { refusal: 0, row },
    }
}

/// What may come of a name that is asked of a set through any slots.
const SORTS: [&str; 21] = [
    "14 by a count",
    "14 by the set",
    "13 without slots",
    "13 at a 0, at home",
    "13 at a 0 after others",
    "13 at a 0 round the end",
    "13, no slot left",
    "14 just above the count",
    "14 far above the count",
    "14 at a row of the set",
    "found at home",
    "found after others",
    "found round the end",
    "found past another set's row that points outside",
    "found past another name of the set",
    "found in a global block",
    "found in a farther global block",
    "14 in a global block",
    "13 in all global blocks",
    "13, and the set is no data block",
    "another answer than plain lookup's",
];

/// Whether every count is within its table.
fn counts_hold(tables: &[Vec<u32>; 5], counts: Counts) -> bool {
    let Counts { tokens, sets, names, packets, values } = counts;
    let counts = [tokens, sets, names, packets, values];
    (0..5).all(|table| counts[table] as usize <= tables[table].len() / WIDTHS[table])
}

/// What a set is to answer to a name through the slots, and of which sorts that is.
fn answer(handed: &Handed, slots: &[u32], set: u32, name: &[u8]) -> (Found, [bool; SORTS.len()]) {
    let Handed { file, tables, counts } = handed;
    let outside = Found { refusal: 14, row: 0 };
    let mut sorts = [false; SORTS.len()];
    if !counts_hold(tables, *counts) || set == 0 || set > counts.sets {
        sorts[usize::from(counts_hold(tables, *counts))] = true;
        return (outside, sorts);
    }
    let kind = |set: u32| tables[1][WIDTHS[1] * (set as usize - 1)];
    let own = search(handed, slots, set, name);
    // of a data block also the searches of the global blocks before it, the nearest first
    let is_global = |&earlier: &u32| kind(earlier) == raw::STAR_SET_GLOBAL;
    let earlier = (1..set).rev().filter(is_global).filter(|_| kind(set) == raw::STAR_SET_BLOCK);
    let all: Vec<Search> = [own]
        .into_iter()
        .chain(earlier.map(|earlier| search(handed, slots, earlier, name)))
        .collect();
    let missing = |search: &Search| answer_of(search.end).refusal == raw::STAR_NOT_FOUND;
    let decides = all.iter().position(|search| !missing(search));
    let found = decides.map_or(answer_of(own.end), |at| answer_of(all[at].end));
    let last = all[decides.unwrap_or(0)];
    let is_found = decides.is_some() && found.refusal == 0;
    let above = |far: bool| match last.end {
        End::Above(row) if decides.is_some() => (row > counts.names + 9) == far,
        _ => false,
    };
    let plain = reference::find_name(file, Tables::of(tables), *counts, set, name);
    sorts[2..].copy_from_slice(&[
        own.end == End::NoSlots,
        own.end == End::Zero && own.passed == 0,
        own.end == End::Zero && own.passed > 0,
        own.end == End::Zero && own.round,
        own.end == End::NoneLeft,
        above(false),
        above(true),
        last.end == End::Outside,
        is_found && last.passed == 0,
        is_found && last.passed > 0,
        is_found && last.round,
        is_found && last.other_outside,
        is_found && last.other_name,
        is_found && decides == Some(1),
        is_found && decides > Some(1),
        found.refusal == 14 && decides > Some(0),
        decides.is_none() && all.len() > 1,
        decides.is_none() && kind(set) != raw::STAR_SET_BLOCK,
        found != plain,
    ]);
    (found, sorts)
}

/// Asks these questions through the slots by the library, beside the reference and beside
/// the search above.
fn ask(
    label: &str,
    seed: u64,
    handed: &Handed,
    slots: &[u32],
    questions: &[Question],
    counts: &mut [u64; SORTS.len()],
) {
    check_finds(label, seed, handed, slots, questions, &mut Tally::default());
    let (file, tables) = (&handed.file, Tables::of(&handed.tables));
    for Question { set, sought, .. } in questions {
        let (expected, sorts) = answer(handed, slots, *set, sought);
        let found = index::find(file, tables, handed.counts, slots, *set, sought);
        let asked = || format!("{label}, seed {seed}, set {set}, {}", escaped(sought));
        assert_eq!(found, expected, "{}: {}, {slots:?}", asked(), escaped(file));
        counts.iter_mut().zip(sorts).for_each(|(count, held)| *count += u64::from(held));
    }
}

/// Slots for lookups in tables of any sort: an index with changes, or any numbers.
fn any_slots(rng: &mut Rng, handed: &Handed) -> Vec<u32> {
    let names = handed.counts.names;
    let count = indexes::count(rng, names as usize);
    if count <= names as usize || rng.once_in(3) {
        return indexes::junk(rng, count, names);
    }
    let mut slots = reference_index(handed, count);
    for _ in 0..rng.pick(&[0, 1, 1, 2, 5]) {
        indexes::spoil(rng, &mut slots, names);
    }
    slots
}

#[test]
fn lookups_in_spoiled_tables() {
    let mut counts = [0; SORTS.len()];
    seeds("lookups in spoiled tables", 40_000, 12, |seed| {
        let rng = &mut Rng::new(seed + 73_000_000);
        let file = if rng.once_in(4) { generate::valid(rng) } else { globals::file(rng) };
        let mut handed = handed(&file, rng.below(4));
        let mut slots = any_slots(rng, &handed);
        match rng.below(4) {
            0 => {}
            1 => generate::spoil(rng, &mut handed),
            _ => globals::spoil(rng, &mut handed),
        }
        if rng.once_in(40) {
            slots.clear();
        }
        let sets = handed.counts.sets.min(20);
        let own = |rng: &mut Rng| rng.below(sets as usize + 2) as u32;
        let mut questions: Vec<_> = (0..10).map(|_| generate::question(rng, &handed)).collect();
        for name in globals::NAMES {
            let set = own(rng);
            questions.push(question(set, name.as_bytes()));
        }
        ask("lookups in spoiled tables", seed, &handed, &slots, &questions, &mut counts);
    });
    let named: Vec<_> = SORTS.into_iter().zip(counts).collect();
    require("lookups in spoiled tables", &named, 100);
}

#[test]
fn lookups_in_random_tables() {
    let mut counts = [0; SORTS.len()];
    seeds("lookups in random tables", 100_000, 8, |seed| {
        let rng = &mut Rng::new(seed + 74_000_000);
        let mut handed = generate::junk(rng);
        // most sets are data blocks or global ones
        for kind in handed.tables[1].iter_mut().step_by(WIDTHS[1]) {
            *kind = if rng.once_in(8) { *kind } else { rng.pick(&[1, 3]) };
        }
        let names = handed.counts.names.min(9);
        let length = rng.below(9);
        let slots = indexes::junk(rng, length, names);
        let questions: Vec<_> = (0..12).map(|_| generate::question(rng, &handed)).collect();
        ask("lookups in random tables", seed, &handed, &slots, &questions, &mut counts);
    });
    let named: Vec<_> = SORTS.into_iter().zip(counts).collect();
    require("lookups in random tables", &named, 20);
}

// ------------------------------------------------------------- large files

/// The largest files with as many names as fit, in one data block and in global blocks,
/// with names plus one and twice as many slots: an index is built and accepted, and names
/// are found through it.
#[test]
fn largest_files_of_names() {
    for file in [indexes::most_names(MOST_BYTES), indexes::most_names_of_blocks(MOST_BYTES)] {
        let handed = handed(&file, 0);
        let names = handed.counts.names as usize;
        assert!(names > 211_000);
        for slots in [names + 1, 2 * names] {
            let of = |file: &[u8]| build(0, file, room(file, [0; 5]), slots);
            let (reading, index) = check("the most names", 0, &file, of);
            assert_eq!(reading.refusal, raw::STAR_OK);
            let of = |file: &[u8]| check_slots(0, file, room(file, [0; 5]), &index);
            assert_eq!(check("the most names", 0, &file, of), reading);
            finds_rows(&handed, &index);
            // a row that is in two slots, and one that is in none
            let full: Vec<usize> = (0..slots).filter(|&at| index[at] != 0).collect();
            let mut spoiled = index.clone();
            spoiled[full[names / 2]] = spoiled[full[names / 3]];
            let tables = &mut handed.tables.clone();
            let answer = index::check(&file, TablesMut::of(tables), &spoiled);
            assert_eq!((answer.refusal, answer.place), (raw::STAR_NO_INDEX, 0));
        }
        let of = |file: &[u8]| build(0, file, room(file, [0; 5]), names);
        let (reading, _) = check("the most names", 0, &file, of);
        assert_eq!((reading.refusal, reading.place), (raw::STAR_TOO_SHORT, 8));
    }
}

/// Each seventh name row is found through an index of its file, from its set; another
/// name is not.
fn finds_rows(handed: &Handed, slots: &[u32]) {
    let (file, tables, counts) = (&handed.file, Tables::of(&handed.tables), handed.counts);
    for row in (1..=counts.names).step_by(7) {
        let set = tables.names[WIDTHS[2] * (row as usize - 1)];
        let name = content(handed, row).expect("a reading's own token");
        let found = index::find(file, tables, counts, slots, set, name);
        assert_eq!(found, Found { refusal: 0, row });
    }
    let found = index::find(file, tables, counts, slots, 1, b"_none");
    assert_eq!(found.refusal, raw::STAR_NOT_FOUND);
}

/// Numbers of sets that need each of their four bytes: in readings, and in tables that no
/// file has.
#[test]
fn largest_numbers_of_sets() {
    for sets in [300, 66_000] {
        let file = "global_ _x 1 ".repeat(sets);
        for slots in [sets + 1, 2 * sets] {
            let of = |file: &[u8]| build(0, file, room(file, [0; 5]), slots);
            let (reading, index) = check("many sets", 0, file.as_bytes(), of);
            assert_eq!(reading.refusal, raw::STAR_OK);
            finds_rows(&handed(file.as_bytes(), 0), &index);
        }
    }
    let most = (1 << 24) + 2;
    let sets = vec![0; WIDTHS[1] * most as usize];
    let counts = Counts { tokens: 1, sets: most, names: 1, packets: 0, values: 0 };
    for set in [1, 255, 256, 257, 65_535, 65_536, 65_537, (1 << 24) - 1, 1 << 24, (1 << 24) + 1] {
        let (tokens, names) = (&[6, 0, 2], &[set, 1, 0, 0]);
        let tables = Tables { tokens, sets: &sets, names, packets: &[], values: &[] };
        for count in [1, 2, 1_009, 4_096] {
            let mut slots = vec![0; count];
            slots[home(count, set, b"_x")] = 1;
            let found = index::find(b"_x", tables, counts, &slots, set, b"_x");
            assert_eq!(found, Found { refusal: 0, row: 1 }, "set {set}, {count} slots");
        }
    }
}

/// Files of the largest size and of one byte more.
#[test]
fn largest_files() {
    let [mut building, mut checking] = [Tally::default(); 2];
    for (name, file) in generate::largest() {
        let names = reference::words_needed(&file)[2] / WIDTHS[2];
        for slots in [names, names + 1, index::room(file.len())] {
            let of = |file: &[u8]| build(0, file, room(file, [0; 5]), slots);
            let (reading, index) = check(name, 0, &file, of);
            let of = |file: &[u8]| check_slots(0, file, room(file, [0; 5]), &index);
            let answer = check(name, 0, &file, of);
            building[reading.refusal as usize] += 1;
            checking[answer.refusal as usize] += 1;
        }
    }
    require_refusals("building", &building, &[0, 1, 2, 5, 6, 7, 8, 9, 10]);
    require_refusals("checking", &checking, &[0, 1, 2, 5, 6, 8, 9, 10, 15]);
}

/// With the room that a file's length asks for the builder never refuses for the slots.
#[test]
fn room_by_length() {
    seeds("room by length", 10_000, 5, |seed| {
        let rng = &mut Rng::new(seed + 75_000_000);
        let file = if rng.once_in(2) { indexes::file(rng) } else { generate::any(rng) };
        let slots = index::room(file.len());
        let of = |file: &[u8]| build(seed, file, star::room(file.len()), slots);
        let (reading, _) = check("room by length", seed, &file, of);
        assert_ne!(reading.refusal, raw::STAR_TOO_SHORT, "seed {seed}");
    });
    for bytes in 21..200 {
        let file = indexes::most_names(bytes);
        let mut tables = star::room(file.len()).map(|words| vec![7; words]);
        let mut slots = vec![7; index::room(file.len())];
        let reading = index::build(&file, TablesMut::of(&mut tables), &mut slots);
        assert_ne!(reading.refusal, raw::STAR_TOO_SHORT, "{bytes}");
    }
}

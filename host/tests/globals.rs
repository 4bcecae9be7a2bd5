//! Global blocks: known files, `global_` beside block headings in the same places,
//! and names that data blocks take from global blocks before them.
//!
//! The groups and their settings are as `harness::seeds` has them.

mod harness;

use harness::{check, check_lookups, handed, read, room, round_trip, seeds, setting, write, Tally};
use tackturnel::{raw, star, Found, Reading, Tables, TablesMut};
use tackturnel_tests_support::generate::{self, globals, Handed, Question, Rng};
use tackturnel_tests_support::notation::escaped;
use tackturnel_tests_support::reference;

/// Requires that each of these was met so often, unless in a small part of a run.
fn require(group: &str, counts: &[(&str, u64)], least: u64) {
    println!("{group}: {counts:?}");
    if setting("STAR_COMPARE_TIMES", 1.0) >= 0.1 {
        for (sort, count) in counts {
            assert!(*count >= least, "{group}: {sort} {count} times");
        }
    }
}

/// The reading and the tables of a file, as the library leaves them.
fn read_of(file: &[u8]) -> (Reading, [Vec<u32>; 5]) {
    let mut tables = room(file, [0; 5]).map(|words| vec![7; words]);
    let reading = star::read(file, raw::STAR_LAYOUT_TODAY, TablesMut::of(&mut tables));
    (reading, tables)
}

/// An accepted file with its tables.
fn accepted(file: &str) -> Handed {
    let (reading, tables) = read_of(file.as_bytes());
    assert_eq!(reading.refusal, raw::STAR_OK, "{file}");
    Handed { file: file.into(), tables, counts: reading.counts() }
}

/// A name or code, asked of a set.
fn question(set: u32, sought: &[u8]) -> Question {
    Question { set, name_row: 1, k: 1, sought: sought.to_vec() }
}

/// The refusal and the row of a name, asked of a set by the library, which is
/// compared with the reference and changes nothing.
fn name_of(handed: &Handed, set: u32, name: &str) -> (u32, u32) {
    let mut tallies = [Tally::default(); 4];
    check_lookups("known lookups", 0, handed, &[question(set, name.as_bytes())], &mut tallies);
    let tables = Tables::of(&handed.tables);
    let found = star::find_name(&handed.file, tables, handed.counts, set, name.as_bytes());
    (found.refusal, found.row)
}

/// As `name_of`, for a frame.
fn frame_of(handed: &Handed, set: u32, code: &str) -> (u32, u32) {
    let tables = Tables::of(&handed.tables);
    let found = star::find_frame(&handed.file, tables, handed.counts, set, code.as_bytes());
    (found.refusal, found.row)
}

const NOT_FOUND: (u32, u32) = (raw::STAR_NOT_FOUND, 0);
const OUTSIDE: (u32, u32) = (raw::STAR_OUTSIDE, 0);

// ------------------------------------------------------------ known files

#[test]
fn known_files() {
    let handed = accepted("global_");
    assert_eq!(handed.tables[..2], [vec![12, 0, 7], vec![raw::STAR_SET_GLOBAL, 1, 0]]);
    // a loop ends before it
    let handed = accepted("data_a loop_ _x 1 global_");
    assert_eq!(handed.tables[0][12..], [12, 18, 25]);
    assert_eq!(handed.tables[1], [raw::STAR_SET_BLOCK, 1, 0, raw::STAR_SET_GLOBAL, 5, 0]);
    for (file, refusal, place) in [
        ("data_a save_f global_", raw::STAR_MISPLACED, 14),
        ("data_a loop_ _x _y 1 global_", raw::STAR_INCOMPLETE, 21),
        ("data_a loop_ _x loop_ _y 1 2 global_", raw::STAR_INCOMPLETE, 29),
        ("data_a _x global_", raw::STAR_MISPLACED, 10),
        ("data_a loop_ _x global_", raw::STAR_MISPLACED, 16),
        ("data_a loop_ _x loop_ _y global_", raw::STAR_MISPLACED, 25),
        ("data_a loop_ _x loop_ _y stop_ global_", raw::STAR_HEADER_STOP, 25),
        // names and frame codes are unique in one block, block codes in the file
        ("global_ _x 1 _x 2", raw::STAR_TAKEN, 13),
        ("global_ save_f save_ save_f save_", raw::STAR_TAKEN, 21),
        ("data_a global_ data_a", raw::STAR_TAKEN, 15),
        ("global_ _x 1 global_ _x 2 data_a _x 3", raw::STAR_OK, 0),
        ("global_ save_f save_ global_ save_f save_", raw::STAR_OK, 0),
    ] {
        let reading = check("known files", 0, file.as_bytes(), |file| read(0, file, [0; 5]));
        assert_eq!((reading.refusal, reading.place), (refusal, place), "{file}");
    }
    let plain = |file: &[u8]| write(0, file, [0; 5], 0);
    let (_, out) = check("known files", 0, b"#c\n\tglobal_ global_ _x 1", plain);
    assert_eq!(escaped(&out), r"global_\nglobal_\n_x\n1\n");
}

#[test]
fn known_lookups() {
    let handed = &accepted("global_ _x 1 data_a data_b _x 2 global_ _x 3 data_c");
    let sets: [u32; 5] = [1, 2, 3, 4, 5];
    let found = sets.map(|set| name_of(handed, set, "_x"));
    assert_eq!(found, [(0, 1), (0, 1), (0, 2), (0, 3), (0, 3)]);
    assert_eq!(sets.map(|set| name_of(handed, set, "_y")), [NOT_FOUND; 5]);
    assert_eq!([0, 6, u32::MAX].map(|set| name_of(handed, set, "_x")), [OUTSIDE; 3]);
    // the block itself, the nearest, the farthest, a later one
    let handed = &accepted("global_ _v 1 _w 2 _x 3 global_ _w 4 _x 5 data_a _x 6 global_ _u 7");
    let found = ["_x", "_w", "_v", "_u"].map(|name| name_of(handed, 3, name));
    assert_eq!(found, [(0, 6), (0, 4), (0, 1), NOT_FOUND]);
    // a global block takes nothing from another
    assert_eq!(name_of(handed, 2, "_v"), NOT_FOUND);
    assert_eq!(name_of(handed, 4, "_x"), NOT_FOUND);
}

#[test]
fn known_frames() {
    let handed = &accepted(
        "global_ save_f _x 1 save_ _y 2 data_a save_g save_ global_ save_f save_ data_b save_f save_",
    );
    // sets: 1 global, 2 its f, 3 a, 4 its g, 5 global, 6 its f, 7 b, 8 its f
    let frames = [1, 2, 3, 4, 5, 6, 7, 8].map(|set| frame_of(handed, set, "f"));
    let none = NOT_FOUND;
    assert_eq!(frames, [(0, 2), none, none, none, (0, 6), none, (0, 8), none]);
    assert_eq!(frame_of(handed, 0, "f"), OUTSIDE);
    // a frame of a global block is no block's, and frames take no names from outside
    let names = [1, 2, 3, 4, 5, 6, 7, 8].map(|set| name_of(handed, set, "_y"));
    assert_eq!(names, [(0, 2), none, (0, 2), none, none, none, (0, 2), none]);
    let names = [1, 2, 3, 7].map(|set| name_of(handed, set, "_x"));
    assert_eq!(names, [none, (0, 1), none, none]);
}

#[test]
fn blocks_are_data_blocks() {
    let handed = &accepted("global_ _x 1 global_ data_b data_global_");
    let find = |handed: &Handed, code: &str| {
        let tables = Tables::of(&handed.tables);
        star::find_block(&handed.file, tables, handed.counts, code.as_bytes())
    };
    assert_eq!(find(handed, "global_"), Found { refusal: 0, row: 4 });
    assert_eq!(find(handed, "b"), Found { refusal: 0, row: 3 });
    assert_eq!(find(handed, ""), Found { refusal: raw::STAR_NOT_FOUND, row: 0 });
    // a heading that points outside is not met in a global block
    let mut spoiled = handed.clone();
    spoiled.tables[1][1] = 99;
    assert_eq!(find(&spoiled, "b"), Found { refusal: 0, row: 3 });
    spoiled.tables[1][0] = raw::STAR_SET_BLOCK;
    assert_eq!(find(&spoiled, "b"), Found { refusal: raw::STAR_OUTSIDE, row: 0 });
}

/// A name that points outside ends the search, in a global block too.
#[test]
fn names_that_point_outside() {
    // name rows: 1 and 2 far, 3 and 4 near, 5 of the block
    let handed = &accepted("global_ _x 1 _y 2 global_ _v 3 _w 4 data_a _u 5");
    let spoiled = |row: usize| {
        let mut spoiled = handed.clone();
        spoiled.tables[2][raw::STAR_NAMES_WIDTH * (row - 1) + 1] = 0;
        spoiled
    };
    let answers = |row: usize| {
        let spoiled = spoiled(row);
        ["_u", "_v", "_w", "_x", "_y", "_z"].map(|name| name_of(&spoiled, 3, name))
    };
    let [u, v, w, x, y] = [5, 3, 4, 1, 2].map(|row| (raw::STAR_OK, row));
    let out = OUTSIDE;
    assert_eq!(answers(1), [u, v, w, out, out, out]);
    assert_eq!(answers(2), [u, v, w, x, out, out]);
    assert_eq!(answers(3), [u, out, out, out, out, out]);
    assert_eq!(answers(4), [u, v, out, out, out, out]);
    assert_eq!(answers(5), [out; 6]);
    // asked of the far one, the near one does not matter
    assert_eq!(name_of(&spoiled(3), 1, "_y"), y);
}

/// The kind word decides, whatever else a row of sets holds.
#[test]
fn kinds_of_sets() {
    let handed = &accepted("global_ _x 1 global_ _x 2 data_a");
    let with = |set: usize, words: [u32; 3]| {
        let mut other = handed.clone();
        other.tables[1][3 * (set - 1)..3 * set].copy_from_slice(&words);
        other
    };
    let others = [0, 2, 4, 5, 12, 257, 259, 65_537, 65_539, (1 << 31) | 3, u32::MAX];
    for kind in others {
        assert_eq!(name_of(&with(3, [kind, 5, 0]), 3, "_x"), NOT_FOUND, "{kind}");
        assert_eq!(name_of(&with(2, [kind, 3, 0]), 3, "_x"), (0, 1), "{kind}");
        assert_eq!(name_of(&with(2, [kind, 3, 0]), 2, "_x"), (0, 2), "{kind}");
    }
    // the block as a global one; a global one as a block, which then is passed over
    assert_eq!(name_of(&with(3, [3, 5, 0]), 3, "_x"), NOT_FOUND);
    assert_eq!(name_of(&with(2, [1, 3, 0]), 3, "_x"), (0, 1));
    // headings and parents are not looked at
    assert_eq!(name_of(&with(3, [1, 0, 77]), 3, "_x"), (0, 2));
    assert_eq!(name_of(&with(2, [3, u32::MAX, 3]), 3, "_x"), (0, 2));
    // nor are rows above the count
    let mut fewer = handed.clone();
    fewer.counts.sets = 2;
    assert_eq!(name_of(&fewer, 3, "_x"), OUTSIDE);
    fewer.counts = handed.counts;
    fewer.counts.names = 1;
    assert_eq!(name_of(&fewer, 3, "_x"), (0, 1));
}

#[test]
fn far_global_blocks() {
    for (blocks, between) in [(100_000, ""), (60_000, "_y 1"), (30_000, "save_f _x 1 save_")] {
        let middle = format!("global_ {between} ").repeat(blocks);
        let handed = accepted(&format!("global_ _x 1 {middle}data_a"));
        let (tables, counts) = (Tables::of(&handed.tables), handed.counts);
        let found = star::find_name(&handed.file, tables, counts, counts.sets, b"_x");
        assert_eq!(found, Found { refusal: 0, row: 1 }, "{between}");
        let found = star::find_name(&handed.file, tables, counts, counts.sets, b"_z");
        assert_eq!(found.refusal, raw::STAR_NOT_FOUND, "{between}");
    }
}

// ---------------------------------------------------------------- reading

/// The file with a heading of as many bytes in place of each `global_`, its code
/// taken by no other; none if the file does not split into tokens.
fn with_headings(file: &[u8]) -> Option<Vec<u8>> {
    let tokens = reference::tokens(file).ok()?;
    let codes: Vec<&[u8]> = tokens
        .iter()
        .filter(|token| token.kind == raw::STAR_TOKEN_BLOCK)
        .map(|token| &file[token.start..token.end])
        .collect();
    let printable = || b'!'..=b'~';
    let pairs = printable().flat_map(|one| printable().map(move |two| [one, two]));
    let mut free = pairs.filter(|code| !codes.contains(&code.as_slice()));
    let mut changed = file.to_vec();
    for token in tokens.iter().filter(|token| token.kind == raw::STAR_TOKEN_GLOBAL) {
        let heading = [b"data_".as_slice(), &free.next()?].concat();
        changed[token.start..token.end].copy_from_slice(&heading);
    }
    Some(changed)
}

/// Reads a file and the same with headings: the same answer and rows, but for the
/// kinds of those sets and tokens and what their content is.
fn beside_headings(file: &[u8]) -> Result<Option<Reading>, String> {
    let Some(changed) = with_headings(file) else {
        return Ok(None);
    };
    let (reading, tables) = read_of(file);
    let (other, mut other_tables) = read_of(&changed);
    let [tokens, sets, ..] = &mut other_tables;
    for (row, of_global) in tokens.chunks_exact_mut(3).zip(tables[0].chunks(3)) {
        if of_global[0] == raw::STAR_TOKEN_GLOBAL && row[0] == raw::STAR_TOKEN_BLOCK {
            row[0] = raw::STAR_TOKEN_GLOBAL;
            row[1] -= 5;
        }
    }
    for (row, of_global) in sets.chunks_exact_mut(3).zip(tables[1].chunks(3)) {
        if of_global[0] == raw::STAR_SET_GLOBAL && row[0] == raw::STAR_SET_BLOCK {
            row[0] = raw::STAR_SET_GLOBAL;
        }
    }
    match (reading, tables) == (other, other_tables) {
        true => Ok(Some(reading)),
        false => Err(format!("  with global_: {reading:?}\n  with headings: {other:?}")),
    }
}

/// Kinds of tokens before a `global_`, 0 at the start and 7 for every value.
const BEFORE: [u32; 9] = [0, 1, 2, 3, 4, 5, 6, 7, 12];

#[test]
fn generated_files() {
    // accepted, and refused by 8 and by 10 at a `global_`, by what is before it
    let mut tally = [[0u64; BEFORE.len()]; 3];
    seeds("generated files", 40_000, 10, |seed| {
        let rng = &mut Rng::new(seed + 40_000_000);
        let file = match seed % 4 {
            0 => globals::file(rng),
            1 => generate::any(rng),
            _ => globals::inserted(rng),
        };
        let spare = rng.pick(&[-1, 0, 0, 3]);
        check("generated files", seed, &file, |file| read(seed, file, [spare; 5]));
        check("generated files", seed, &file, |file| write(seed, file, [1; 5], spare));
        check("generated files", seed, &file, round_trip);
        let Some(reading) = check("beside headings", seed, &file, beside_headings) else {
            return;
        };
        let tokens = reference::tokens(&file).expect("the file splits into tokens");
        let before = |at: usize| match at.checked_sub(1).map_or(0, |at| tokens[at].kind) {
            7..=11 => 7,
            kind => kind,
        };
        for (at, token) in tokens.iter().enumerate() {
            let here = token.at == reading.place as usize;
            let answer = match reading.refusal {
                raw::STAR_OK => 0,
                raw::STAR_MISPLACED if here => 1,
                raw::STAR_INCOMPLETE if here => 2,
                _ => continue,
            };
            if token.kind == raw::STAR_TOKEN_GLOBAL {
                let sort = BEFORE.iter().position(|&kind| kind == before(at));
                tally[answer][sort.expect("every kind has a place")] += 1;
            }
        }
    });
    println!("generated files: {tally:?}");
    let [accepted, misplaced, incomplete] = tally;
    let counts = [
        ("at the start", accepted[0]),
        ("after a block heading", accepted[1]),
        ("after a frame", accepted[3]),
        ("after a loop of more levels", accepted[5]),
        ("after a value", accepted[7]),
        ("after global_", accepted[8]),
        ("8 after a frame heading", misplaced[2]),
        ("8 after loop_", misplaced[4]),
        ("8 after stop_", misplaced[5]),
        ("8 after a name", misplaced[6]),
        ("8 after a value", misplaced[7]),
        ("10 after stop_", incomplete[5]),
        ("10 after a value", incomplete[7]),
    ];
    require("generated files", &counts, 5);
    let never = [accepted[2], accepted[4], accepted[6], misplaced[1], incomplete[6]];
    assert_eq!(never, [0; 5], "{tally:?}");
}

// ---------------------------------------------------------------- lookups

/// What may come of a name that is asked of a set.
const SORTS: [&str; 15] = [
    "found in the block",
    "14 in the block",
    "found in the nearest",
    "found in a farther one",
    "found in two, the nearer answers",
    "14 in the nearest",
    "14 in a farther one",
    "14 before one that has the name",
    "found before one that has a 14",
    "13 with no global block before",
    "13 in all before",
    "13, a later one has the name",
    "a global block, one before has the name",
    "a frame, one before has the name",
    "a set of another kind, one before has the name",
];

/// What each set answers to a name by its own rows alone: as one of no kind.
fn alone(handed: &Handed, name: &[u8]) -> Vec<Found> {
    let mut tables = handed.tables.clone();
    tables[1].iter_mut().step_by(raw::STAR_SETS_WIDTH).for_each(|kind| *kind = 0);
    let find = |set| star::find_name(&handed.file, Tables::of(&tables), handed.counts, set, name);
    (1..=handed.counts.sets).map(find).collect()
}

/// What a set is to answer where these are the answers of each alone, and of which
/// sorts that is.
fn answer(kinds: &[u32], alone: &[Found], set: usize) -> (Found, [bool; SORTS.len()]) {
    let (kind, own) = (kinds[set - 1], alone[set - 1]);
    let global = |row: &usize| kinds[row - 1] == raw::STAR_SET_GLOBAL;
    let before: Vec<Found> = (1..set).rev().filter(global).map(|row| alone[row - 1]).collect();
    let missing = |found: Found| found.refusal == raw::STAR_NOT_FOUND;
    let has = |found: &Found| found.refusal == raw::STAR_OK;
    let outside = |found: &Found| found.refusal == raw::STAR_OUTSIDE;
    let goes_on = kind == raw::STAR_SET_BLOCK && missing(own);
    let decides = before.iter().position(|&found| !missing(found));
    let answer = match decides {
        Some(at) if goes_on => before[at],
        _ => own,
    };
    // the one that decides, and those farther than it
    let at = |which: fn(usize) -> bool, what: &dyn Fn(&Found) -> bool| {
        goes_on && decides.is_some_and(|at| which(at) && what(&before[at]))
    };
    let farther = |what: &dyn Fn(&Found) -> bool| {
        before.iter().skip_while(|&&found| missing(found)).skip(1).any(what)
    };
    let later = (set + 1..=kinds.len()).any(|row| global(&row) && has(&alone[row - 1]));
    let block = kind == raw::STAR_SET_BLOCK;
    let not_for = |held: bool| held && missing(own) && before.iter().any(has);
    let sorts = [
        block && has(&own),
        block && outside(&own),
        at(|at| at == 0, &has),
        at(|at| at > 0, &has),
        at(|_| true, &has) && farther(&has),
        at(|at| at == 0, &outside),
        at(|at| at > 0, &outside),
        at(|_| true, &outside) && farther(&has),
        at(|_| true, &has) && farther(&outside),
        goes_on && before.is_empty(),
        goes_on && !before.is_empty() && decides.is_none(),
        goes_on && decides.is_none() && later,
        not_for(kind == raw::STAR_SET_GLOBAL),
        not_for(kind == raw::STAR_SET_FRAME),
        not_for(!(1..=3).contains(&kind)),
    ];
    (answer, sorts)
}

/// Asks every set for every name, and for some that no set has.
fn ask_all(label: &str, seed: u64, handed: &Handed, counts: &mut [u64; SORTS.len()]) {
    let sought = globals::NAMES.into_iter().chain(["_d", "_", "", "global_", "f", "1"]);
    let sets = 0..=handed.counts.sets.saturating_add(1);
    let ask =
        |name: &str| sets.clone().map(|set| question(set, name.as_bytes())).collect::<Vec<_>>();
    let questions: Vec<Question> = sought.clone().flat_map(ask).collect();
    check_lookups(label, seed, handed, &questions, &mut [Tally::default(); 4]);
    let (file, tables) = (&handed.file, Tables::of(&handed.tables));
    let kinds: Vec<u32> = tables.sets.chunks_exact(3).map(|row| row[0]).collect();
    let kinds = &kinds[..handed.counts.sets as usize];
    for name in sought.map(str::as_bytes) {
        let alone = alone(handed, name);
        for set in 1..=kinds.len() {
            let (expected, sorts) = answer(kinds, &alone, set);
            let found = star::find_name(file, tables, handed.counts, set as u32, name);
            let asked = || format!("{label}, seed {seed}, set {set}: {} {kinds:?}", escaped(file));
            assert_eq!(found, expected, "{}", asked());
            for (count, held) in counts.iter_mut().zip(sorts) {
                *count += u64::from(held);
            }
        }
    }
}

#[test]
fn names_in_readings() {
    let mut counts = [0; SORTS.len()];
    seeds("names in readings", 6_000, 6, |seed| {
        let rng = &mut Rng::new(seed + 41_000_000);
        let handed = handed(&globals::file(rng), rng.below(4));
        ask_all("names in readings", seed, &handed, &mut counts);
    });
    let named: Vec<_> = SORTS.into_iter().zip(counts).collect();
    let is_met = |(sort, _): &(&str, u64)| !sort.contains("14") && !sort.contains("another kind");
    let (met, never): (Vec<_>, Vec<_>) = named.into_iter().partition(is_met);
    require("names in readings", &met, 50);
    assert!(never.iter().all(|&(_, count)| count == 0), "{never:?}");
}

#[test]
fn names_in_spoiled_tables() {
    let mut counts = [0; SORTS.len()];
    seeds("names in spoiled tables", 6_000, 6, |seed| {
        let rng = &mut Rng::new(seed + 42_000_000);
        let mut handed = handed(&globals::file(rng), rng.below(4));
        globals::spoil(rng, &mut handed);
        ask_all("names in spoiled tables", seed, &handed, &mut counts);
    });
    let named: Vec<_> = SORTS.into_iter().zip(counts).collect();
    require("names in spoiled tables", &named, 50);
}

//! Layouts: files of 1991 and of today read and converted, numbers that are no layout's,
//! and what comes of a file in the other layout.
//!
//! The groups and their settings are as `harness::seeds` has them.

mod harness;

use harness::layouts::{
    convert_into, converted, handed, over_and_back, plain_length, read_into, room, LAYOUTS,
};
use harness::{check, check_lookups, require, require_refusals, seeds, Tally};
use tackturnel::raw::{STAR_LAYOUT_1991 as OF_1991, STAR_LAYOUT_TODAY as TODAY};
use tackturnel::{index, raw, star, Reading, Tables, TablesMut, Written};
use tackturnel_tests_support::generate::twins::{self, Plan, SORTS};
use tackturnel_tests_support::generate::{self, layouts, Handed, Question, Rng};
use tackturnel_tests_support::notation::escaped;
use tackturnel_tests_support::{reference, MOST_BYTES, WIDTHS};

/// Reads a file of a layout by both, with tables of this many words more, or less, than
/// needed; fails where they differ.
fn read(label: &str, seed: u64, file: &[u8], layout: u32, spare: [isize; 5]) -> Reading {
    check(label, seed, file, |file| read_into(seed, file, layout, room(file, layout, spare)))
}

/// Converts a file of a layout by both, with tables and an output of this many words and
/// bytes more, or less, than needed; fails where they differ.
fn convert(
    label: &str,
    seed: u64,
    file: &[u8],
    layout: u32,
    spare: [isize; 5],
    spare_out: isize,
) -> (Written, Vec<u8>) {
    check(label, seed, file, |file| {
        let out = plain_length(file).saturating_add_signed(spare_out);
        convert_into(seed, file, layout, room(file, layout, spare), out)
    })
}

// ------------------------------------------------------------ known files

/// The refusal and place of a file by each layout.
fn read_known(file: &str) -> [(u32, u32); 2] {
    LAYOUTS.map(|layout| {
        let reading = read("known files", 0, file.as_bytes(), layout, [0; 5]);
        check("known files", 0, file.as_bytes(), |file| over_and_back(file, layout));
        (reading.refusal, reading.place)
    })
}

#[test]
fn known_files() {
    const OK: (u32, u32) = (raw::STAR_OK, 0);
    let misplaced = |place: u32| (raw::STAR_MISPLACED, place);
    let incomplete = |place: u32| (raw::STAR_INCOMPLETE, place);
    let taken = |place: u32| (raw::STAR_TAKEN, place);
    let retired = |place: u32| (raw::STAR_HEADER_STOP, place);
    for (file, today, of_1991) in [
        // an empty frame, an item, a flat loop
        ("data_a save_f stop_", misplaced(14), OK),
        ("data_a save_f save_", OK, misplaced(14)),
        ("data_a save_f _x 1 stop_", misplaced(19), OK),
        ("data_a save_f _x 1 save_", OK, misplaced(19)),
        ("data_a save_f loop_ _x 1 2 stop_", misplaced(27), OK),
        ("data_a save_f loop_ _x 1 2 save_", OK, misplaced(27)),
        // inner levels: closed, open, and with none left for the frame
        ("data_a save_f loop_ _x loop_ _y 1 2 stop_ stop_", misplaced(42), OK),
        ("data_a save_f loop_ _x loop_ _y 1 2 stop_ save_", OK, misplaced(42)),
        ("data_a save_f loop_ _x loop_ _y 1 2 stop_", misplaced(41), misplaced(41)),
        ("data_a save_f loop_ _x loop_ _y 1 stop_ stop_", misplaced(40), OK),
        ("data_a save_f loop_ _x loop_ _y 1 2 save_", incomplete(36), incomplete(36)),
        (
            "data_a save_f loop_ _x loop_ _y loop_ _z 1 2 3 stop_ save_",
            incomplete(53),
            incomplete(53),
        ),
        ("data_a save_f loop_ _x loop_ _y loop_ _z 1 2 3 stop_ stop_ stop_", misplaced(59), OK),
        (
            "data_a save_f loop_ _x loop_ _y loop_ _z 1 2 3 stop_ stop_",
            misplaced(58),
            misplaced(58),
        ),
        // partial packets
        ("data_a save_f loop_ _x _y 1 stop_", incomplete(28), incomplete(28)),
        ("data_a save_f loop_ _x _y 1 save_", incomplete(28), incomplete(28)),
        ("data_a save_f loop_ _x loop_ _y _z 1 2 stop_ stop_", incomplete(39), incomplete(39)),
        // headers, and a name that waits for its value
        ("data_a save_f loop_ stop_", misplaced(20), misplaced(20)),
        ("data_a save_f loop_ _x stop_", misplaced(23), misplaced(23)),
        ("data_a save_f loop_ _x loop_ _y stop_ stop_", retired(32), retired(32)),
        ("data_a save_f loop_ _x loop_ _y stop_ save_", retired(32), retired(32)),
        ("data_a save_f loop_ _x loop_ _y stop_ 1 stop_ stop_", retired(32), retired(32)),
        ("data_a save_f loop_ _x loop_ _y save_", misplaced(32), misplaced(32)),
        ("data_a save_f _x stop_", misplaced(17), misplaced(17)),
        ("data_a save_f _x save_", misplaced(17), misplaced(17)),
        // several frames, in data and global blocks
        ("data_a save_f stop_ save_g _x 1 stop_ _x 2", misplaced(14), OK),
        ("data_a save_f stop_ save_f stop_", misplaced(14), taken(20)),
        ("data_a save_f stop_ stop_", misplaced(14), misplaced(20)),
        ("data_a save_f stop_ save_", misplaced(14), misplaced(20)),
        ("global_ save_f _x 1 stop_ global_ save_f _x 2 stop_ data_a", misplaced(20), OK),
        ("data_a save_f _x 1 _x 2 stop_", taken(19), taken(19)),
        // frames that are not closed
        ("data_a save_f", misplaced(13), misplaced(13)),
        ("data_a save_f data_b", misplaced(14), misplaced(14)),
        ("data_a save_f global_", misplaced(14), misplaced(14)),
        ("data_a save_f save_g stop_", misplaced(14), misplaced(14)),
        // outside frames nothing is else
        ("", OK, OK),
        ("stop_", misplaced(0), misplaced(0)),
        ("save_", misplaced(0), misplaced(0)),
        ("data_a stop_", misplaced(7), misplaced(7)),
        ("data_a save_", misplaced(7), misplaced(7)),
        ("data_a loop_ _x 1 stop_", misplaced(18), misplaced(18)),
        ("data_a loop_ _x 1 save_", misplaced(18), misplaced(18)),
        ("data_a loop_ _x loop_ _y 1 2 stop_", OK, OK),
        ("data_a loop_ _x loop_ _y 1 2 stop_ stop_", misplaced(35), misplaced(35)),
        ("data_a loop_ _x loop_ _y 1 2 save_", incomplete(29), incomplete(29)),
    ] {
        assert_eq!(read_known(file), [today, of_1991], "{file}");
    }
}

/// What is written in the other layout, `/` for byte 10.
#[test]
fn known_conversions() {
    for (layout, file, plain) in [
        (OF_1991, "data_a save_f stop_", "data_a/save_f/save_/"),
        (TODAY, "data_a save_f save_", "data_a/save_f/stop_/"),
        (OF_1991, "#c/data_a\tsave_f _x 1 #c/stop_ _x 2", "data_a/save_f/_x/1/save_/_x/2/"),
        (
            OF_1991,
            "data_a save_f loop_ _x loop_ _y 1 2 stop_ 3 stop_ stop_ loop_ _x loop_ _y 1 stop_",
            "data_a/save_f/loop_/_x/loop_/_y/1/2/stop_/3/stop_/save_/loop_/_x/loop_/_y/1/stop_/",
        ),
        (
            TODAY,
            "data_a save_f loop_ _x loop_ _y 1 2 stop_ 3 stop_ save_ loop_ _x loop_ _y 1 stop_",
            "data_a/save_f/loop_/_x/loop_/_y/1/2/stop_/3/stop_/stop_/loop_/_x/loop_/_y/1/stop_/",
        ),
        (
            OF_1991,
            "global_ save_stop_ _stop_ 'stop_' stop_ save_save_ _save_/;save_/; stop_",
            "global_/save_stop_/_stop_/'stop_'/save_/save_save_/_save_/;save_/;/save_/",
        ),
        (TODAY, "data_a _x ;b save_f _y $f save_", "data_a/_x/ ;b/save_f/_y/$f/stop_/"),
        (TODAY, "", ""),
        (OF_1991, "data_a _x 1", "data_a/_x/1/"),
    ] {
        let (file, plain) = (file.replace('/', "\n"), plain.replace('/', "\n"));
        let (written, out) = convert("known conversions", 0, file.as_bytes(), layout, [0; 5], 0);
        assert_eq!((written.refusal, escaped(&out)), (0, escaped(plain.as_bytes())), "{file}");
        check("known conversions", 0, file.as_bytes(), |file| over_and_back(file, layout));
    }
    // reading's refusals, then the writer's
    let file = b"data_a save_f _x 1 stop_";
    for (layout, spare, spare_out, answer) in [
        (TODAY, [0; 5], 0, (raw::STAR_MISPLACED, 19)),
        (OF_1991, [-1, 0, 0, 0, 0], -1, (raw::STAR_TOO_SHORT, 1)),
        (OF_1991, [0, 0, 0, 0, -1], -1, (raw::STAR_TOO_SHORT, 5)),
        (OF_1991, [0; 5], -1, (raw::STAR_TOO_SHORT, 6)),
        (OF_1991, [0; 5], -99, (raw::STAR_TOO_SHORT, 6)),
        (OF_1991, [0; 5], 0, (raw::STAR_OK, 0)),
    ] {
        let (written, _) = convert("known conversions", 0, file, layout, spare, spare_out);
        assert_eq!((written.refusal, written.place), answer, "{layout}, {spare:?}, {spare_out}");
    }
    for (layout, close) in [(OF_1991, "stop_"), (TODAY, "save_")] {
        let file = format!("data_a save_f loop_ _x loop_ _y stop_ 1 2 stop_ 3 stop_ {close}");
        let (written, _) = convert("known conversions", 0, file.as_bytes(), layout, [0; 5], 0);
        assert_eq!((written.refusal, written.place), (raw::STAR_HEADER_STOP, 32), "{file}");
    }
}

/// The other calls that read a file read today's layout.
#[test]
fn other_calls_read_today() {
    let mut refused = 0;
    for seed in 0..400 {
        let [today, of_1991] = layouts::pair(&mut Rng::new(seed));
        for file in [&today, &of_1991] {
            let lent = || star::room(file.len()).map(|words| vec![7; words]);
            let (reading, _) = handed(file, TODAY);
            let written = star::write(
                file,
                TablesMut::of(&mut lent()),
                &mut vec![7; star::plain_room(file.len())],
            );
            assert_eq!(written.reading(), reading, "{}", escaped(file));
            let checked = star::fits_32(file, TablesMut::of(&mut lent()));
            assert_eq!(checked.reading(), reading, "{}", escaped(file));
            let mut slots = vec![7; index::room(file.len())];
            let built = index::build(file, TablesMut::of(&mut lent()), &mut slots);
            assert_eq!(built, reading, "{}", escaped(file));
            let checked = index::check(file, TablesMut::of(&mut lent()), &slots);
            assert_eq!(checked, reading, "{}", escaped(file));
            refused += u32::from(reading.refusal != 0);
        }
    }
    assert!(refused > 100, "{refused}");
}

// ----------------------------------------------------------- other numbers

/// Numbers that are no layout's, some of them 0 or 1 in their lowest bits alone.
const OTHERS: [u32; 18] = [
    2,
    3,
    4,
    127,
    128,
    254,
    255,
    256,
    257,
    65_535,
    65_536,
    65_537,
    1 << 24,
    1 << 31,
    (1 << 31) | 1,
    i32::MAX as u32,
    u32::MAX - 1,
    u32::MAX,
];

/// Reads and converts a file as one of a layout that there is not: 14 before all else, and
/// everything that is lent is 0.
fn refused(file: &[u8], layout: u32, room: [usize; 5], out_length: usize) {
    let mut tables = room.map(|words| vec![7; words]);
    let reading = star::read(file, layout, TablesMut::of(&mut tables));
    assert_eq!(reading, Reading { refusal: raw::STAR_OUTSIDE, ..Reading::default() }, "{layout}");
    assert_eq!(tables, room.map(|words| vec![0; words]), "{layout}");
    let (mut tables, mut out) = (room.map(|words| vec![7; words]), vec![7; out_length]);
    let written = star::convert(file, layout, TablesMut::of(&mut tables), &mut out);
    assert_eq!(written, Written { refusal: raw::STAR_OUTSIDE, ..Written::default() }, "{layout}");
    assert_eq!(tables, room.map(|words| vec![0; words]), "{layout}");
    assert_eq!(out, vec![0; out_length], "{layout}");
}

#[test]
fn other_numbers() {
    let over_long = vec![b' '; MOST_BYTES + 1];
    let refused_bytes = vec![0; MOST_BYTES + 1];
    let files: [&[u8]; 9] = [
        b"",
        b"data_a save_f save_",
        b"data_a save_f stop_",
        b"data_a _x \x7f",
        b"data_",
        b"data_a _x",
        b"data_a data_a",
        &over_long,
        &refused_bytes,
    ];
    for file in files {
        for layout in OTHERS {
            for room in [[0; 5], [1; 5], [9; 5], [3, 0, 4, 0, 100]] {
                for out_length in [0, 1, 40] {
                    refused(file, layout, room, out_length);
                }
                read_into(0, file, layout, room).unwrap_or_else(|error| panic!("{error}"));
                convert_into(0, file, layout, room, 30).unwrap_or_else(|error| panic!("{error}"));
            }
        }
        // with all the room that a file may need
        refused(file, 2, star::room(file.len()), star::plain_room(file.len()));
        refused(file, u32::MAX, star::room(file.len()), star::plain_room(file.len()));
    }
    // of the two layouts the size comes first
    for layout in LAYOUTS {
        let reading = read("other numbers", 0, &refused_bytes, layout, [9; 5]);
        assert_eq!((reading.refusal, reading.place), (raw::STAR_TOO_LARGE, 0));
        let (written, _) = convert("other numbers", 0, &over_long, layout, [9; 5], 9);
        assert_eq!((written.refusal, written.place), (raw::STAR_TOO_LARGE, 0));
    }
}

// --------------------------------------------------------- generated files

/// Where a file is refused: at its end, or at a token of this kind after one of this kind,
/// 7 for every value.
#[derive(Clone, Copy, Debug, PartialEq, Eq)]
struct Refused {
    layout: u32,
    refusal: u32,
    at: u32,
    after: u32,
}

/// Refusals at what may close a frame or a level, and at the end; each has to be met.
const PLACES: [(&str, Refused); 33] = {
    const END: u32 = 0;
    const SAVE: u32 = 3;
    const STOP: u32 = 5;
    const fn of(layout: u32, refusal: u32, at: u32, after: u32) -> Refused {
        Refused { layout, refusal, at, after }
    }
    [
        ("today, stop_ after a frame's heading", of(0, 8, STOP, 2)),
        ("today, stop_ after a frame's end", of(0, 8, STOP, 3)),
        ("today, stop_ after a block's heading", of(0, 8, STOP, 1)),
        ("today, stop_ after loop_", of(0, 8, STOP, 4)),
        ("today, stop_ after a name", of(0, 8, STOP, 6)),
        ("today, stop_ after the names of two levels or more", of(0, 16, STOP, 6)),
        ("today, stop_ after an item or a loop", of(0, 8, STOP, 7)),
        ("today, stop_ after an inner level", of(0, 8, STOP, 5)),
        ("today, stop_ in a packet", of(0, 10, STOP, 7)),
        ("today, save_ in a packet", of(0, 10, SAVE, 7)),
        ("today, save_ in an open level", of(0, 10, SAVE, 5)),
        ("today, save_ after a name", of(0, 8, SAVE, 6)),
        ("today, save_ after a frame's end", of(0, 8, SAVE, 3)),
        ("today, the end after a frame's heading", of(0, 8, END, 2)),
        ("today, the end in a frame", of(0, 8, END, 7)),
        ("1991, save_ after a frame's heading", of(1, 8, SAVE, 2)),
        ("1991, save_ after an item or a flat loop", of(1, 8, SAVE, 7)),
        ("1991, save_ after an inner level or a frame", of(1, 8, SAVE, 5)),
        ("1991, save_ after a block's heading", of(1, 8, SAVE, 1)),
        ("1991, save_ after loop_", of(1, 8, SAVE, 4)),
        ("1991, save_ after a name", of(1, 8, SAVE, 6)),
        ("1991, save_ in a packet", of(1, 10, SAVE, 7)),
        ("1991, save_ in an open level", of(1, 10, SAVE, 5)),
        ("1991, stop_ after an inner level or a frame", of(1, 8, STOP, 5)),
        ("1991, stop_ after a block's heading", of(1, 8, STOP, 1)),
        ("1991, stop_ after loop_", of(1, 8, STOP, 4)),
        ("1991, stop_ after a name", of(1, 8, STOP, 6)),
        ("1991, stop_ after the names of two levels or more", of(1, 16, STOP, 6)),
        ("1991, stop_ after a block's item or flat loop", of(1, 8, STOP, 7)),
        ("1991, stop_ in a packet", of(1, 10, STOP, 7)),
        ("1991, the end after a frame's heading", of(1, 8, END, 2)),
        ("1991, the end in a frame", of(1, 8, END, 7)),
        ("1991, the end after an inner level", of(1, 8, END, 5)),
    ]
};

/// Refusals that no file has: in the layout of 1991 nothing is taken after `save_` alone,
/// and `stop_` is taken after the heading of a frame. In either, 16 is at `stop_` after a
/// name alone.
fn is_never(place: Refused) -> bool {
    let stop_after = |kind: u32| (place.at, place.after) == (raw::STAR_TOKEN_STOP, kind);
    if place.refusal == raw::STAR_HEADER_STOP {
        return !stop_after(raw::STAR_TOKEN_NAME);
    }
    let after_end = place.after == raw::STAR_TOKEN_FRAME_END;
    place.layout == OF_1991 && (after_end || stop_after(raw::STAR_TOKEN_FRAME))
}

/// Where a file that splits into tokens was refused, if it was by 8, 10 or 16.
fn place_of(file: &[u8], layout: u32, reading: Reading) -> Option<Refused> {
    let Reading { refusal, place, .. } = reading;
    let sought = [raw::STAR_MISPLACED, raw::STAR_INCOMPLETE, raw::STAR_HEADER_STOP];
    if !sought.contains(&refusal) {
        return None;
    }
    let tokens = reference::tokens(file).expect("the file splits into tokens");
    let kind = |at: usize| match tokens[at].kind {
        7..=11 => 7,
        kind => kind,
    };
    let at = tokens.iter().position(|token| token.at == place as usize);
    let before = at.unwrap_or(tokens.len()).checked_sub(1)?;
    Some(Refused { layout, refusal, at: at.map_or(0, kind), after: kind(before) })
}

#[test]
fn generated_files() {
    // by layout: of reading and of conversion
    let [mut reading, mut converting] = [[Tally::default(); 2]; 2];
    let mut places = [0; PLACES.len()];
    let [mut short_out, mut frames] = [[0; 2]; 2];
    seeds("generated files", 40_000, 25, |seed| {
        let rng = &mut Rng::new(seed + 80_000_000);
        let file = match rng.below(8) {
            0 | 1 => generate::any(rng),
            2 | 3 => layouts::file(rng),
            _ => layouts::changed(rng),
        };
        for layout in LAYOUTS {
            let at = layout as usize;
            let mut short = [1; 5];
            short[rng.below(5)] = -1;
            let any = [0; 5].map(|_: isize| rng.pick(&[-9999, -4, -1, 0, 0, 0, 1, 3, 30]));
            for spare in [[0; 5], [9; 5], short, any] {
                let answer = read("reading", seed, &file, layout, spare);
                reading[at][answer.refusal as usize] += 1;
                let place = place_of(&file, layout, answer);
                for (count, (_, sort)) in places.iter_mut().zip(PLACES) {
                    *count += u64::from(place == Some(sort));
                }
                assert!(!place.is_some_and(is_never), "seed {seed}: {place:?}");
            }
            let outs = [([2; 5], 0), ([0; 5], -1), ([0; 5], 20), (short, 0), (any, -7)];
            for (spare, spare_out) in outs {
                let (answer, _) = convert("converting", seed, &file, layout, spare, spare_out);
                converting[at][answer.refusal as usize] += 1;
                let short = (answer.refusal, answer.place) == (raw::STAR_TOO_SHORT, 6);
                short_out[at] += u64::from(short);
            }
            let back = |file: &[u8]| over_and_back(file, layout);
            let count = check("over and back", seed, &file, back);
            frames[at] += u64::from(count.unwrap_or(0));
        }
        let layout = rng.pick(&OTHERS);
        let answer = read("reading", seed, &file, layout, [3; 5]);
        assert_eq!((answer.refusal, answer.place), (raw::STAR_OUTSIDE, 0), "seed {seed}");
        let (answer, _) = convert("converting", seed, &file, layout, [3; 5], 0);
        assert_eq!((answer.refusal, answer.place), (raw::STAR_OUTSIDE, 0), "seed {seed}");
    });
    let refusals = [0, 2, 3, 4, 5, 6, 7, 8, 9, 10, 11, 16];
    for layout in LAYOUTS {
        let at = layout as usize;
        require_refusals(&format!("reading layout {layout}"), &reading[at], &refusals);
        require_refusals(&format!("converting layout {layout}"), &converting[at], &refusals);
        let counts = [("7 with place 6", short_out[at]), ("frames", frames[at])];
        require(&format!("converting layout {layout}"), &counts, 100);
    }
    let named: Vec<_> = PLACES.iter().map(|(name, _)| *name).zip(places).collect();
    require("generated files", &named, 5);
}

/// The tables with the kind of `stop_` for that of `save_` alone.
fn as_of_1991(tables: &[Vec<u32>; 5]) -> [Vec<u32>; 5] {
    let mut tables = tables.clone();
    for kind in tables[0].iter_mut().step_by(WIDTHS[0]) {
        if *kind == raw::STAR_TOKEN_FRAME_END {
            *kind = raw::STAR_TOKEN_STOP;
        }
    }
    tables
}

/// A file of 1991 and the same of today, each in its own layout: the same answer and the
/// same words but for the kinds of what closes a frame; and each is the other's plain form.
#[test]
fn beside_today() {
    let mut read_in_both = [0u64; 2];
    seeds("beside today", 20_000, 8, |seed| {
        let rng = &mut Rng::new(seed + 81_000_000);
        let [today, of_1991] = match rng.below(3) {
            0 => {
                let today = generate::valid(rng);
                let of_1991 = layouts::of_1991(&today);
                [today, of_1991]
            }
            _ => layouts::pair(rng),
        };
        let shown = || format!("seed {seed}: {}", escaped(&today));
        let ((reading, read), (old, old_read)) = (handed(&today, TODAY), handed(&of_1991, OF_1991));
        assert_eq!((reading.refusal, old), (0, reading), "{}", shown());
        assert_eq!(old_read.tables, as_of_1991(&read.tables), "{}", shown());
        let (_, _, over) = converted(&today, TODAY);
        let (_, _, back) = converted(&of_1991, OF_1991);
        for (layout, file, plain) in [(OF_1991, &of_1991, &over), (TODAY, &today, &back)] {
            let tokens = reference::tokens(file).expect("the file splits into tokens");
            let own = reference::plain_form(file, &tokens);
            assert_eq!(escaped(plain), escaped(&own), "layout {layout}, {}", shown());
        }
        // without frames a file is one of both layouts
        let frames = as_of_1991(&read.tables) != read.tables;
        read_in_both[usize::from(frames)] += 1;
        for (file, layout) in [(&today, OF_1991), (&of_1991, TODAY)] {
            let crossed = handed(file, layout).0;
            assert_eq!(crossed.refusal == 0, !frames, "{}", shown());
        }
    });
    require("beside today", &[("no frames", read_in_both[0]), ("frames", read_in_both[1])], 100);
}

/// Lookups in the tables of a file of 1991.
#[test]
fn lookups() {
    let mut tallies = [Tally::default(); 4];
    let mut in_frames = 0;
    seeds("lookups", 6_000, 8, |seed| {
        let rng = &mut Rng::new(seed + 82_000_000);
        let [today, of_1991] = layouts::pair(rng);
        let (reading, handed) = handed(&of_1991, OF_1991);
        assert_eq!(reading.refusal, raw::STAR_OK, "seed {seed}");
        let mut questions: Vec<_> = (0..20).map(|_| generate::question(rng, &handed)).collect();
        let Handed { file, tables, counts } = &handed;
        let tables = Tables::of(tables);
        // each name, asked of each set
        for row in tables.names.chunks_exact(WIDTHS[2]).take(40) {
            let token = &tables.tokens[WIDTHS[0] * (row[1] as usize - 1)..];
            let sought = file[token[1] as usize..token[2] as usize].to_vec();
            for set in 0..=counts.sets + 1 {
                questions.push(Question { set, name_row: 1, k: 1, sought: sought.clone() });
            }
        }
        for name_row in 0..=counts.names + 1 {
            for k in 0..=3 {
                questions.push(Question { set: 1, name_row, k, sought: vec![] });
            }
        }
        check_lookups("lookups", seed, &handed, &questions, &mut tallies);
        // through an index of the same names, built of today's file
        let mut lent = room(&today, TODAY, [0; 5]).map(|words| vec![7; words]);
        let mut slots = vec![7; counts.names as usize + 1 + rng.below(9)];
        let built = index::build(&today, TablesMut::of(&mut lent), &mut slots);
        assert_eq!(built, reading, "seed {seed}");
        for Question { set, sought, .. } in &questions {
            let plain = star::find_name(file, tables, *counts, *set, sought);
            let found = index::find(file, tables, *counts, &slots, *set, sought);
            assert_eq!(found, plain, "seed {seed}, set {set}, {}", escaped(sought));
            let frame =
                |set: u32| tables.sets[WIDTHS[1] * (set as usize - 1)] == raw::STAR_SET_FRAME;
            in_frames += u64::from(plain.refusal == 0 && frame(*set));
        }
    });
    // a block is asked for by its code alone, and nothing points outside
    require_refusals("lookups of blocks", &tallies[0], &[0, 13]);
    for tally in &tallies[1..] {
        require_refusals("lookups", tally, &[0, 13, 14]);
    }
    require("lookups", &[("names of frames", in_frames)], 1_000);
}

/// Lookups in tables of files of 1991 with words and counts changed.
#[test]
fn lookups_in_spoiled_tables() {
    let mut tallies = [Tally::default(); 4];
    seeds("lookups in spoiled tables", 10_000, 5, |seed| {
        let rng = &mut Rng::new(seed + 83_000_000);
        let [_, of_1991] = layouts::pair(rng);
        let (_, mut handed) = handed(&of_1991, OF_1991);
        generate::spoil(rng, &mut handed);
        let questions: Vec<_> = (0..20).map(|_| generate::question(rng, &handed)).collect();
        check_lookups("lookups in spoiled tables", seed, &handed, &questions, &mut tallies);
    });
    for tally in tallies {
        require_refusals("lookups in spoiled tables", &tally, &[0, 13, 14]);
    }
}

/// With the room that a file's length asks for no table and no output is too short.
#[test]
fn room_by_length() {
    seeds("room by length", 10_000, 5, |seed| {
        let rng = &mut Rng::new(seed + 84_000_000);
        let file = if rng.once_in(2) { layouts::file(rng) } else { layouts::changed(rng) };
        let bytes = file.len();
        for layout in LAYOUTS {
            let of = |file: &[u8]| read_into(seed, file, layout, star::room(bytes));
            let reading = check("room by length", seed, &file, of);
            assert_ne!(reading.refusal, raw::STAR_TOO_SHORT, "seed {seed}");
            let out = star::plain_room(bytes);
            let of = |file: &[u8]| convert_into(seed, file, layout, star::room(bytes), out);
            let (written, _) = check("room by length", seed, &file, of);
            assert_eq!(written.reading(), reading, "seed {seed}");
        }
    });
}

// ------------------------------------------------------ every row and room

/// Every row of tokens from a list, up to a length, whose tokens but for the last begin a
/// file of the layout.
fn every_row(file: &mut Vec<u8>, layout: u32, tokens: &[&str], more: usize, tally: &mut Tally) {
    for token in tokens {
        let length = file.len();
        if length > 0 {
            file.push(b' ');
        }
        file.extend_from_slice(token.as_bytes());
        let answer = read("every row", 1, file, layout, [0; 5]);
        tally[answer.refusal as usize] += 1;
        if answer.refusal == 0 {
            convert("every row", 1, file, layout, [0; 5], 0);
            check("every row", 1, file, |file| over_and_back(file, layout));
        }
        let goes_on = answer.refusal == 0 || answer.place as usize == file.len();
        if goes_on && more > 1 {
            every_row(file, layout, tokens, more - 1, tally);
        }
        file.truncate(length);
    }
}

#[test]
fn every_row_of_tokens() {
    let mut tally = Tally::default();
    let tokens = ["data_a", "save_f", "save_g", "save_", "loop_", "stop_", "_x", "_y", "1"];
    every_row(&mut Vec::new(), OF_1991, &tokens, 12, &mut tally);
    let tokens = ["data_a", "save_f", "save_", "loop_", "stop_", "_x", "1", "global_"];
    every_row(&mut Vec::new(), OF_1991, &tokens, 11, &mut tally);
    // loops in a frame: names of one level and more, then what may come in their packets
    let inner = ["save_", "stop_", "loop_", "_x", "_z", "1", "save_g", "data_b", "global_"];
    for head in [
        "data_a save_f loop_ _x",
        "data_a save_f loop_ _x _y",
        "data_a save_f loop_ _x loop_ _y",
        "data_a loop_ _x loop_ _y",
        "data_a save_f loop_ _a _b loop_ _c _d",
        "data_a save_f loop_ _a loop_ _b loop_ _c",
        "global_ save_f loop_ _a loop_ _b loop_ _c loop_ _d loop_ _e loop_ _f loop_ _g loop_ _h",
    ] {
        for layout in LAYOUTS {
            every_row(&mut head.into(), layout, &inner, 9, &mut tally);
        }
    }
    require_refusals("every row of tokens", &tally, &[0, 8, 9, 10, 11, 16]);
}

#[test]
fn tables_and_outputs_of_every_length() {
    for file in [
        "data_a _x 1 save_f loop_ _x 1 2 stop_",
        "data_a _x 1 save_f loop_ _x 1 2 save_",
        "data_a save_f loop_ _x loop_ _y 1 2 3 stop_ 4 stop_ stop_ save_g stop_",
        "global_ save_f stop_ _x ;b data_a save_f _x 'a' stop_",
        "data_a save_f loop_ _x loop_ _y 1 2 3 save_",
        "data_a save_f _x stop_",
        "data_a save_f",
        "data_a loop_ _x loop_ _y 1 stop_",
        "data_a save_f loop_ _x loop_ _y stop_ 1 stop_ stop_",
        "",
    ]
    .map(str::as_bytes)
    {
        for layout in LAYOUTS {
            let needed = room(file, layout, [0; 5]);
            for table in 0..5 {
                for spare in -(needed[table] as isize)..5 {
                    for others in [0, 3, -1] {
                        let mut spares = [others; 5];
                        spares[table] = spare;
                        read("every length", 1, file, layout, spares);
                        for spare_out in [0, -1] {
                            convert("every length", 1, file, layout, spares, spare_out);
                        }
                    }
                }
            }
            for spare_out in -(plain_length(file) as isize)..5 {
                convert("every length", 1, file, layout, [0; 5], spare_out);
            }
        }
    }
}

// ------------------------------------------------------------- large files

#[test]
fn largest_files() {
    let [mut reading, mut converting] = [Tally::default(); 2];
    let of_1991 = layouts::largest().into_iter().map(|file| (file, true));
    let today = generate::largest().into_iter().map(|file| (file, false));
    for ((name, file), old) in of_1991.chain(today) {
        // those of today read as of 1991, the others in both layouts and in any room
        let (layouts, rooms) = if old { (&LAYOUTS[..], 3) } else { (&LAYOUTS[1..], 1) };
        for &layout in layouts {
            for spare in &[[0; 5], [-1, 5, 5, 5, 5], [5, 5, 5, 5, -1]][..rooms] {
                let answer = read(name, 0, &file, layout, *spare);
                reading[answer.refusal as usize] += 1;
            }
            for &spare_out in &[0, -1, 100][..rooms] {
                let (answer, _) = convert(name, 1, &file, layout, [0; 5], spare_out);
                converting[answer.refusal as usize] += 1;
            }
            if old {
                check(name, 0, &file, |file| over_and_back(file, layout));
            }
        }
        let answer = read(name, 0, &file, 256, [0; 5]);
        assert_eq!((answer.refusal, answer.place), (raw::STAR_OUTSIDE, 0), "{name}");
        let (answer, _) = convert(name, 0, &file, u32::MAX, [0; 5], 0);
        assert_eq!((answer.refusal, answer.place), (raw::STAR_OUTSIDE, 0), "{name}");
    }
    require_refusals("reading", &reading, &[0, 1, 2, 5, 6, 7, 8, 9, 10]);
    require_refusals("converting", &converting, &[0, 1, 2, 5, 6, 7, 8, 9, 10]);
    // a plain form over the limit of a file within it
    for (name, refusal) in [
        ("words that just fit in the plain form", raw::STAR_OK),
        ("words one byte over in the plain form", raw::STAR_TOO_LARGE),
    ] {
        let (_, file) = layouts::largest().into_iter().find(|file| file.0 == name).expect("there");
        for spare_out in [0, -1, -9_999_999] {
            let short = if spare_out < 0 { raw::STAR_TOO_SHORT } else { raw::STAR_OK };
            let expected = if refusal == 0 { short } else { refusal };
            let (written, _) = convert(name, 0, &file, OF_1991, [0; 5], spare_out);
            assert_eq!(written.refusal, expected, "{name}, {spare_out}");
        }
    }
}

/// Names and codes in frames that `stop_` closes: taken or not as in today's layout.
#[test]
fn many_names() {
    let mut tally = Tally::default();
    let mut compare = |group: &str, seed: u64, today: &[u8]| {
        let of_1991 = layouts::of_1991(today);
        let answer = read(group, seed, &of_1991, OF_1991, [0; 5]);
        let (reading, of_today) = handed(today, TODAY);
        assert_eq!(answer, reading, "{group}, seed {seed}");
        let (_, of_old) = handed(&of_1991, OF_1991);
        assert_eq!(of_old.tables, as_of_1991(&of_today.tables), "{group}, seed {seed}");
        tally[answer.refusal as usize] += 1;
    };
    seeds("many names", 120, 8, |seed| {
        let rng = &mut Rng::new(seed + 85_000_000);
        let count = if seed % 30 == 0 { 8_000 } else { rng.between(2, 400) };
        compare("many names", seed, &generate::many_names(rng, count));
    });
    seeds("names of one hash", 2_400, 6, |seed| {
        let rng = &mut Rng::new(seed + 86_000_000);
        let [repeats, sort, share] = [seed % 2, seed / 2 % 4, seed / 8 % 3].map(|at| at as usize);
        let bits = [20, 12, rng.between(13, 19) as u32][share];
        let count = rng.between(1, 60);
        let plan = Plan { sort: SORTS[sort], count, bits, repeats: repeats == 1 };
        compare("names of one hash", seed, &twins::file(rng, plan));
    });
    require_refusals("many names", &tally, &[0, 9]);
}

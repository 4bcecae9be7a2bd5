//! Header stops: refused by every call that reads a file, in either layout, but for the one
//! that reads old files and writes them without.
//!
//! The groups and their settings are as `harness::seeds` has them.

mod harness;

use harness::layouts::{convert_into, plain_length, read_into, LAYOUTS};
use harness::stops::{drop_into, dropped, dropped_length, drops_and_reads, room};
use harness::{check, check_lookups, indexes, require, require_refusals, seeds, Tally};
use tackturnel::raw::{STAR_LAYOUT_1991 as OF_1991, STAR_LAYOUT_TODAY as TODAY};
use tackturnel::{index, raw, star, Checked, Reading, Tables, TablesMut, Written};
use tackturnel_tests_support::generate::{self, layouts, stops, Handed, Rng};
use tackturnel_tests_support::notation::escaped;
use tackturnel_tests_support::{reference, WIDTHS};

/// Reads a file of a layout by both, with tables of this many words more, or less, than
/// needed; fails where they differ.
fn read(label: &str, seed: u64, file: &[u8], layout: u32, spare: [isize; 5]) -> Reading {
    check(label, seed, file, |file| {
        read_into(seed, file, layout, harness::layouts::room(file, layout, spare))
    })
}

/// Drops the header stops of a file by both, with tables and an output of this many words
/// and bytes more, or less, than needed; fails where they differ.
fn drop_stops(
    label: &str,
    seed: u64,
    file: &[u8],
    spare: [isize; 5],
    spare_out: isize,
) -> (Written, Vec<u8>) {
    check(label, seed, file, |file| {
        let out = dropped_length(file).saturating_add_signed(spare_out);
        drop_into(seed, file, room(file, spare), out)
    })
}

// ------------------------------------------------------------ known files

/// Where a header stop is refused, in both layouts, and what dropping answers.
#[test]
fn known_files() {
    const OK: (u32, u32) = (raw::STAR_OK, 0);
    let retired = |place: u32| (raw::STAR_HEADER_STOP, place);
    let misplaced = |place: u32| (raw::STAR_MISPLACED, place);
    let incomplete = |place: u32| (raw::STAR_INCOMPLETE, place);
    let taken = |place: u32| (raw::STAR_TAKEN, place);
    for (file, reading, dropping) in [
        ("data_a loop_ _x loop_ _y stop_ 1 stop_", retired(25), OK),
        ("data_a loop_ _x _w loop_ _y _z stop_ 1 2 3 4 stop_ 5 6 stop_", retired(31), OK),
        ("data_a loop_ _x loop_ _y loop_ _z stop_ 1 stop_", retired(34), OK),
        ("data_a loop_ _x loop_ _y loop_ _z stop_ stop_ 1 stop_", retired(34), OK),
        ("global_ loop_ _x loop_ _y stop_ 1 stop_ data_a", retired(26), OK),
        ("data_a _x 1 loop_ _y 2 loop_ _z loop_ _w stop_ 3 stop_", retired(41), OK),
        ("data_a loop_ _x loop_ _y 1 stop_ loop_ _z loop_ _w stop_ 1 stop_", retired(51), OK),
        ("data_a\nloop_ _x\nloop_ _y #c\n\tstop_ 1 stop_", retired(29), OK),
        // what follows it does not matter to reading
        ("data_a loop_ _x loop_ _y stop_", retired(25), misplaced(30)),
        ("data_a loop_ _x loop_ _y stop_ stop_", retired(25), misplaced(31)),
        ("data_a loop_ _x loop_ _y stop_ stop_ 1 stop_", retired(25), misplaced(31)),
        ("data_a loop_ _x loop_ _y loop_ _z stop_ stop_ stop_", retired(34), misplaced(46)),
        ("data_a loop_ _x loop_ _y stop_ _z 1 stop_", retired(25), misplaced(31)),
        ("data_a loop_ _x loop_ _y stop_ _x 1 stop_", retired(25), misplaced(31)),
        ("data_a loop_ _x loop_ _y stop_ loop_ _z 1 stop_", retired(25), misplaced(31)),
        ("data_a loop_ _x loop_ _y stop_ data_b", retired(25), misplaced(31)),
        ("data_a loop_ _x loop_ _y stop_ data_a", retired(25), misplaced(31)),
        ("data_a loop_ _x loop_ _y stop_ save_f", retired(25), misplaced(31)),
        ("data_a loop_ _x loop_ _y stop_ save_", retired(25), misplaced(31)),
        ("data_a loop_ _x loop_ _y stop_ global_", retired(25), misplaced(31)),
        ("data_a loop_ _x loop_ _y stop_ 1", retired(25), incomplete(32)),
        ("data_a loop_ _x loop_ _y stop_ 1 _z", retired(25), incomplete(33)),
        ("data_a loop_ _x _w loop_ _y stop_ 1 stop_", retired(28), incomplete(36)),
        ("data_a loop_ _x loop_ _y stop_ 1 stop_ stop_", retired(25), misplaced(39)),
        ("data_a loop_ _x loop_ _y stop_ 1 stop_ _x 1", retired(25), taken(39)),
        ("data_a loop_ _x loop_ _y stop_ 1 stop_ data_a", retired(25), taken(39)),
        // what is refused before it comes first
        ("data_a loop_ _x loop_ _x stop_ 1 stop_", taken(22), taken(22)),
        ("data_a _x 1 loop_ _x loop_ _y stop_ 1 stop_", taken(18), taken(18)),
        ("data_a data_a loop_ _x loop_ _y stop_ 1 stop_", taken(7), taken(7)),
        ("data_a save_f save_g loop_ _x loop_ _y stop_", misplaced(14), misplaced(14)),
        ("data_a loop_ _v _w 1 loop_ _x loop_ _y stop_", incomplete(21), incomplete(21)),
        // no header stops: none at one level, before a name or without one
        ("data_a loop_ stop_", misplaced(13), misplaced(13)),
        ("data_a loop_ _x stop_ 1", misplaced(16), misplaced(16)),
        ("data_a loop_ _x stop_ _y 1 2", misplaced(16), misplaced(16)),
        ("data_a loop_ _x stop_ loop_ _y 1 stop_", misplaced(16), misplaced(16)),
        ("data_a loop_ _x loop_ stop_", misplaced(22), misplaced(22)),
        ("data_a loop_ _x loop_ stop_ _y 1 stop_", misplaced(22), misplaced(22)),
        ("data_a loop_ _x loop_ _y loop_ stop_ _z 1", misplaced(31), misplaced(31)),
        ("data_a _x stop_ 1", misplaced(10), misplaced(10)),
        ("stop_", misplaced(0), misplaced(0)),
        ("data_a stop_", misplaced(7), misplaced(7)),
        ("data_a loop_ _x loop_ _y 1 stop_", OK, OK),
        ("", OK, OK),
        ("data_a loop_ _x loop_ _y stop_ 1 stop_ 'a", (raw::STAR_OPEN_QUOTE, 39), (5, 39)),
        ("data_a loop_ _x loop_ _y stop_ 1 stop_ \x7f", (raw::STAR_BAD_BYTE, 39), (2, 39)),
    ] {
        for layout in LAYOUTS {
            let answer = read("known files", 0, file.as_bytes(), layout, [0; 5]);
            assert_eq!((answer.refusal, answer.place), reading, "layout {layout}: {file}");
        }
        let (answer, _) = drop_stops("known files", 0, file.as_bytes(), [0; 5], 0);
        assert_eq!((answer.refusal, answer.place), dropping, "{file}");
        check("known files", 0, file.as_bytes(), drops_and_reads);
    }
}

/// In a frame the layouts differ in what closes it, and in nothing of header stops.
#[test]
fn known_frames() {
    let retired = (raw::STAR_HEADER_STOP, 32);
    let head = "data_a save_f loop_ _x loop_ _y stop_";
    for (tail, dropping) in [
        (" 1 stop_ save_", (raw::STAR_OK, 0)),
        (" 1 stop_ stop_", (raw::STAR_MISPLACED, 46)),
        (" save_", (raw::STAR_MISPLACED, 38)),
        (" stop_", (raw::STAR_MISPLACED, 38)),
        ("", (raw::STAR_MISPLACED, 37)),
        (" 1 save_", (raw::STAR_INCOMPLETE, 40)),
        (" 1 stop_", (raw::STAR_MISPLACED, 45)),
    ] {
        let file = format!("{head}{tail}");
        for layout in LAYOUTS {
            let answer = read("known frames", 0, file.as_bytes(), layout, [0; 5]);
            assert_eq!((answer.refusal, answer.place), retired, "layout {layout}: {file}");
        }
        let (answer, _) = drop_stops("known frames", 0, file.as_bytes(), [0; 5], 0);
        assert_eq!((answer.refusal, answer.place), dropping, "{file}");
        check("known frames", 0, file.as_bytes(), drops_and_reads);
    }
    // stop_ of a header of one level closes no frame of 1991
    for layout in LAYOUTS {
        let file = b"data_a save_f loop_ _x stop_";
        let answer = read("known frames", 0, file, layout, [0; 5]);
        assert_eq!((answer.refusal, answer.place), (raw::STAR_MISPLACED, 23), "{layout}");
    }
}

/// What is written, `/` for byte 10, and how many tokens the old file has.
#[test]
fn known_drops() {
    let levels =
        |count: usize| -> String { (1..=count).map(|level| format!("loop_ _{level} ")).collect() };
    let eight =
        |stops: usize| format!("data_a {}{}1 2 stop_ stop_", levels(8), "stop_ ".repeat(stops));
    let eight_plain = format!("data_a/{}1/2/stop_/stop_/", levels(8).replace(' ', "/"));
    let mut known = vec![
        (
            "data_a loop_ _x loop_ _y stop_ 1 stop_".to_owned(),
            "data_a/loop_/_x/loop_/_y/1/stop_/".to_owned(),
            8,
        ),
        (
            "data_a loop_ _x loop_ _y loop_ _z stop_ 1 2 3 stop_ stop_".into(),
            "data_a/loop_/_x/loop_/_y/loop_/_z/1/2/3/stop_/stop_/".into(),
            13,
        ),
        (
            "data_a loop_ _x loop_ _y loop_ _z stop_ stop_ 1 stop_".into(),
            "data_a/loop_/_x/loop_/_y/loop_/_z/1/stop_/".into(),
            11,
        ),
        (
            "global_ loop_ _x loop_ _y stop_ 1 2 stop_ data_a _x 1".into(),
            "global_/loop_/_x/loop_/_y/1/2/stop_/data_a/_x/1/".into(),
            12,
        ),
        (
            "data_a save_f loop_ _x loop_ _y stop_ 1 stop_ save_ loop_ _x loop_ _y stop_ 1 stop_"
                .into(),
            "data_a/save_f/loop_/_x/loop_/_y/1/stop_/save_/loop_/_x/loop_/_y/1/stop_/".into(),
            17,
        ),
        // comments, values that look like it, and a blank before ;
        (
            "#stop_/data_stop_ save_stop_ save_ loop_ _stop_ loop_ _y #c/stop_ #c/ 'stop_'/;stop_/; \
             ;stop_ $stop_ stop_ \"stop_\" stop_"
                .into(),
            "data_stop_/save_stop_/save_/loop_/_stop_/loop_/_y/'stop_'/;stop_/;/ ;stop_/$stop_/stop_/\
             \"stop_\"/stop_/"
                .into(),
            15,
        ),
        // 13, 10 stays within a text field
        (
            "data_a\r/loop_ _x loop_ _y\r/stop_\r/1\r/;t\r/u\r/;\r/stop_\r/".into(),
            "data_a/loop_/_x/loop_/_y/1/;t\r/u/;/stop_/".into(),
            9,
        ),
        // without header stops it is the plain form
        ("data_a _x ;b".into(), "data_a/_x/ ;b/".into(), 3),
        ("".into(), "".into(), 0),
    ];
    known.extend((0..=7).map(|stops| (eight(stops), eight_plain.clone(), 21 + stops as u32)));
    for (file, plain, tokens) in known {
        let (file, plain) = (file.replace('/', "\n"), plain.replace('/', "\n"));
        let (written, out) = drop_stops("known drops", 0, file.as_bytes(), [0; 5], 0);
        assert_eq!((written.refusal, written.place), (raw::STAR_OK, 0), "{file}");
        assert_eq!(escaped(&out), escaped(plain.as_bytes()), "{file}");
        assert_eq!((written.length as usize, written.tokens), (plain.len(), tokens), "{file}");
        check("known drops", 0, file.as_bytes(), drops_and_reads);
    }
    // one more than there are inner levels
    let (written, _) = drop_stops("known drops", 0, eight(8).as_bytes(), [0; 5], 0);
    let place = eight(7).len() as u32 - 15;
    assert_eq!((written.refusal, written.place), (raw::STAR_MISPLACED, place));
}

/// Reading's refusals, then the writer's: the room of the tables is that of the old file, and
/// the room of the output that of the form without header stops.
#[test]
fn known_rooms() {
    let file = b"data_a loop_ _x loop_ _y loop_ _z stop_ stop_ 1 2 3 stop_ stop_";
    // with both header stops the plain form has 12 bytes more
    for (spare, spare_out, answer) in [
        ([0; 5], 0, (raw::STAR_OK, 0)),
        ([0; 5], 1, (raw::STAR_OK, 0)),
        ([0; 5], 11, (raw::STAR_OK, 0)),
        ([0; 5], 12, (raw::STAR_OK, 0)),
        ([0; 5], -1, (raw::STAR_TOO_SHORT, 6)),
        ([0; 5], -999, (raw::STAR_TOO_SHORT, 6)),
        ([-1, 0, 0, 0, 0], -1, (raw::STAR_TOO_SHORT, 1)),
        // room for the tokens that are written is not enough
        ([-6, 0, 0, 0, 0], 0, (raw::STAR_TOO_SHORT, 1)),
        ([0, -1, 0, 0, 0], -1, (raw::STAR_TOO_SHORT, 2)),
        ([0, 0, -1, -1, 0], 0, (raw::STAR_TOO_SHORT, 3)),
        ([0, 0, 0, -1, 0], -1, (raw::STAR_TOO_SHORT, 4)),
        ([0, 0, 0, 0, -1], 12, (raw::STAR_TOO_SHORT, 5)),
    ] {
        let (written, _) = drop_stops("known rooms", 0, file, spare, spare_out);
        assert_eq!((written.refusal, written.place), answer, "{spare:?}, {spare_out}");
    }
    // table 1 before the grammar, the others after it
    let bad = b"data_a loop_ _x loop_ _y stop_ stop_ 1";
    for (spare, answer) in
        [([-1, 0, 0, 0, 0], (raw::STAR_TOO_SHORT, 1)), ([0; 5], (raw::STAR_MISPLACED, 31))]
    {
        let (written, _) = drop_stops("known rooms", 0, bad, spare, 0);
        assert_eq!((written.refusal, written.place), answer, "{spare:?}");
        let reading = read("known rooms", 0, bad, TODAY, spare);
        let answer = if answer.1 == 1 { answer } else { (raw::STAR_HEADER_STOP, 25) };
        assert_eq!((reading.refusal, reading.place), answer, "{spare:?}");
    }
}

/// Every call that reads a file refuses a header stop as reading does, and leaves 0 in all
/// that it is lent to write to.
fn refused_by_all(file: &[u8], reading: Reading) {
    let shown = escaped(file);
    let Reading { refusal, place, .. } = reading;
    let room = star::room(file.len());
    let lent = || room.map(|words| vec![7; words]);
    let none = room.map(|words| vec![0; words]);
    let bytes = star::plain_room(file.len());

    let (mut tables, mut out) = (lent(), vec![7; bytes]);
    let written = star::write(file, TablesMut::of(&mut tables), &mut out);
    assert_eq!(written, Written { refusal, place, ..Written::default() }, "{shown}");
    assert_eq!((&tables, out), (&none, vec![0; bytes]), "{shown}");

    let (mut tables, mut out) = (lent(), vec![7; bytes]);
    let written = star::convert(file, TODAY, TablesMut::of(&mut tables), &mut out);
    assert_eq!(written, Written { refusal, place, ..Written::default() }, "{shown}");
    assert_eq!((&tables, out), (&none, vec![0; bytes]), "{shown}");

    let mut tables = lent();
    let checked = star::fits_32(file, TablesMut::of(&mut tables));
    assert_eq!(checked, Checked { refusal, place, ..Checked::default() }, "{shown}");
    assert_eq!(tables, none, "{shown}");

    let (mut tables, mut slots) = (lent(), vec![7; index::room(file.len())]);
    let built = index::build(file, TablesMut::of(&mut tables), &mut slots);
    assert_eq!(built, Reading { refusal, place, ..Reading::default() }, "{shown}");
    assert_eq!((&tables, &slots), (&none, &vec![0; slots.len()]), "{shown}");

    let (mut tables, slots) = (lent(), vec![7; 9]);
    let checked = index::check(file, TablesMut::of(&mut tables), &slots);
    assert_eq!(checked, Reading { refusal, place, ..Reading::default() }, "{shown}");
    assert_eq!((&tables, slots), (&none, vec![7; 9]), "{shown}");
}

#[test]
fn other_calls_refuse_header_stops() {
    let mut counts = [0; 2];
    for seed in 0..600 {
        let rng = &mut Rng::new(seed + 95_000_000);
        let file = if rng.once_in(3) { stops::changed(rng) } else { stops::file(rng) };
        let reading = read("other calls", seed, &file, TODAY, [0; 5]);
        let retired = reading.refusal == raw::STAR_HEADER_STOP;
        counts[usize::from(retired)] += 1;
        if retired {
            refused_by_all(&file, reading);
            // and in the layout of 1991, where the frames are closed in its way
            let of_1991 = layouts::of_1991(&file);
            let old = read("other calls", seed, &of_1991, OF_1991, [0; 5]);
            assert_eq!(old, reading, "seed {seed}: {}", escaped(&of_1991));
            let out = plain_length(&of_1991);
            let converting =
                |file: &[u8]| convert_into(seed, file, OF_1991, star::room(file.len()), out);
            let (written, _) = check("other calls", seed, &of_1991, converting);
            assert_eq!(written.reading(), reading, "seed {seed}: {}", escaped(&of_1991));
        }
    }
    assert!(counts.iter().all(|&count| count > 50), "{counts:?}");
}

// --------------------------------------------------------- generated files

/// What may come after a header stop that the rules for old files took: kinds of tokens, 7
/// for every value and 0 for the end.
const AFTER: [(&str, u32); 10] = [
    ("8 at the end", 0),
    ("8 at a block heading", 1),
    ("8 at a frame heading", 2),
    ("8 at save_", 3),
    ("8 at loop_", 4),
    ("8 at one stop_ more", 5),
    ("8 at a name", 6),
    ("8 at global_", 12),
    ("10 after a value", 7),
    ("9 after a loop", 9),
];

/// Which of AFTER a refusal of dropping is, in a file that reading refuses at a header stop.
fn sort_of(file: &[u8], reading: Reading, written: Written) -> Option<usize> {
    let tokens = reference::tokens(file).expect("the file splits into tokens");
    let at = tokens.iter().position(|token| token.at == written.place as usize);
    let kind = at.map_or(0, |at| tokens[at].kind);
    let before = &tokens[at.unwrap_or(tokens.len()) - 1];
    let sought = match written.refusal {
        // directly after a header stop, which is before any value of its loop
        raw::STAR_MISPLACED if before.kind == raw::STAR_TOKEN_STOP && in_header(&tokens, at) => {
            kind
        }
        raw::STAR_INCOMPLETE if (7..=11).contains(&before.kind) => 7,
        raw::STAR_TAKEN if reading.place < written.place => 9,
        _ => return None,
    };
    AFTER.iter().position(|(_, kind)| *kind == sought)
}

/// Whether the token before this one, a `stop_`, follows a name but for others of its kind.
fn in_header(tokens: &[reference::Token], at: Option<usize>) -> bool {
    let before = tokens[..at.unwrap_or(tokens.len())].iter().rev();
    let kind = before.map(|token| token.kind).find(|&kind| kind != raw::STAR_TOKEN_STOP);
    kind == Some(raw::STAR_TOKEN_NAME)
}

#[test]
fn generated_files() {
    let mut reading = [Tally::default(); 2];
    let mut dropping = Tally::default();
    // 7 by the table or the output
    let mut short = [0u64; 7];
    let mut after = [0u64; AFTER.len()];
    // accepted files by how many header stops they have, 8 for more; and as one byte of room
    // is just enough or too little, beside what the file would need with them
    let mut stops_of = [0u64; 9];
    let [mut enough, mut too_little] = [0u64; 2];
    seeds("generated files", 60_000, 25, |seed| {
        let rng = &mut Rng::new(seed + 90_000_000);
        let file = match rng.below(8) {
            0 => generate::any(rng),
            1 => generate::old(rng),
            2 => layouts::changed(rng),
            3 | 4 => stops::file(rng),
            _ => stops::changed(rng),
        };
        let mut spares = vec![([0; 5], 0), ([0; 5], -1), ([3; 5], 20)];
        for table in 0..5 {
            let mut spare = [1; 5];
            spare[table] = -1;
            spares.push((spare, 0));
        }
        let any = [0; 5].map(|_: isize| rng.pick(&[-9999, -4, -1, 0, 0, 0, 1, 3, 30]));
        spares.push((any, rng.pick(&[-9999, -7, -2, 0, 5])));
        for layout in LAYOUTS {
            let file = match layout {
                OF_1991 if rng.once_in(2) && reference::tokens(&file).is_ok() => {
                    layouts::of_1991(&file)
                }
                _ => file.clone(),
            };
            for &(spare, _) in &spares {
                let answer = read("reading", seed, &file, layout, spare);
                reading[layout as usize][answer.refusal as usize] += 1;
            }
        }
        let today = read("reading", seed, &file, TODAY, [0; 5]);
        for &(spare, spare_out) in &spares {
            let (answer, _) = drop_stops("dropping", seed, &file, spare, spare_out);
            dropping[answer.refusal as usize] += 1;
            if answer.refusal == raw::STAR_TOO_SHORT {
                short[answer.place as usize] += 1;
            }
        }
        // the room that the plain form has with the header stops counted, and about it
        let with_stops = plain_length(&file) as isize - dropped_length(&file) as isize;
        if with_stops > 0 {
            for (spare_out, count) in [(0, &mut enough), (-1, &mut too_little)] {
                let (answer, _) = drop_stops("dropping", seed, &file, [0; 5], spare_out);
                *count += u64::from((answer.refusal == 0) == (spare_out == 0));
            }
            for spare_out in [with_stops - 1, with_stops, with_stops + 1] {
                let (answer, _) = drop_stops("dropping", seed, &file, [0; 5], spare_out);
                assert_eq!(answer.refusal, raw::STAR_OK, "seed {seed}");
            }
        }
        let count = check("drops and reads", seed, &file, drops_and_reads);
        if let Some(count) = count {
            stops_of[count.min(8) as usize] += 1;
        } else if today.refusal == raw::STAR_HEADER_STOP {
            let (answer, _) = drop_stops("dropping", seed, &file, [0; 5], 0);
            if let Some(sort) = sort_of(&file, today, answer) {
                after[sort] += 1;
            }
        }
    });
    for layout in LAYOUTS {
        let refusals = [0, 2, 3, 4, 5, 6, 7, 8, 9, 10, 11, 16];
        let group = format!("reading layout {layout}");
        require_refusals(&group, &reading[layout as usize], &refusals);
    }
    require_refusals("dropping", &dropping, &[0, 2, 3, 4, 5, 6, 7, 8, 9, 10, 11]);
    assert_eq!(dropping[raw::STAR_HEADER_STOP as usize], 0, "{dropping:?}");
    let places = ["table 1", "table 2", "table 3", "table 4", "table 5", "the output"];
    let named: Vec<_> = places.into_iter().zip(short.into_iter().skip(1)).collect();
    require("7", &named, 100);
    let named: Vec<_> = AFTER.into_iter().map(|(name, _)| name).zip(after).collect();
    require("after a header stop", &named, 5);
    let counts = ["none", "one", "two", "three", "four", "five", "six", "seven", "more"];
    let named: Vec<_> = counts.into_iter().zip(stops_of).collect();
    require("header stops", &named, 20);
    require("the output", &[("just enough", enough), ("one byte too little", too_little)], 100);
}

/// A file with header stops and the same without: the same answers but for tokens and the
/// same bytes, as the generator made them and without the reference.
#[test]
fn beside_today() {
    let mut with_stops = 0;
    seeds("beside today", 20_000, 8, |seed| {
        let rng = &mut Rng::new(seed + 91_000_000);
        let [old, today] = stops::pair(rng);
        let shown = || format!("seed {seed}: {}", escaped(&old));
        let (written, of_old, out) = dropped(&old);
        let (mut tables, mut plain) =
            (star::room(today.len()).map(|words| vec![7; words]), vec![7; out.len()]);
        let answer = star::write(&today, TablesMut::of(&mut tables), &mut plain);
        assert_eq!(answer.refusal, raw::STAR_OK, "{}", shown());
        assert_eq!(Written { tokens: answer.tokens, ..written }, answer, "{}", shown());
        assert_eq!(escaped(&out), escaped(&plain), "{}", shown());
        with_stops += u64::from(written.tokens > answer.tokens);
        // each value of each name, found in the tables of either file
        let (old_tables, tables) = (Tables::of(&of_old.tables), Tables::of(&tables));
        let (old_counts, counts) = (written.counts(), answer.counts());
        for name_row in 1..=counts.names {
            let of_old = star::column(&old, old_tables, old_counts, name_row);
            let of_today = star::column(&today, tables, counts, name_row);
            let of_old: Result<Vec<_>, u32> = of_old.collect();
            let of_today: Result<Vec<_>, u32> = of_today.collect();
            assert_eq!(of_old, of_today, "name row {name_row}, {}", shown());
        }
    });
    require("beside today", &[("with header stops", with_stops)], 1_000);
}

/// Lookups, by the tables that dropping leaves, take the old file.
#[test]
fn lookups() {
    let mut tallies = [Tally::default(); 4];
    let mut of_index = Tally::default();
    seeds("lookups", 6_000, 8, |seed| {
        let rng = &mut Rng::new(seed + 92_000_000);
        let (written, handed, out) = dropped(&stops::file(rng));
        assert_eq!(written.refusal, raw::STAR_OK, "seed {seed}");
        let questions: Vec<_> = (0..20).map(|_| generate::question(rng, &handed)).collect();
        check_lookups("lookups", seed, &handed, &questions, &mut tallies);
        // through an index of the same names, built of what was written
        let mut tables = star::room(out.len()).map(|words| vec![7; words]);
        let mut slots = vec![7; written.names as usize + 1 + rng.below(9)];
        let built = index::build(&out, TablesMut::of(&mut tables), &mut slots);
        assert_eq!((built.refusal, built.names), (raw::STAR_OK, written.names), "seed {seed}");
        indexes::check_finds("lookups", seed, &handed, &slots, &questions, &mut of_index);
        for question in &questions {
            let Handed { file, tables, counts } = &handed;
            let (set, sought) = (question.set, &question.sought);
            let plain = star::find_name(file, Tables::of(tables), *counts, set, sought);
            let found = index::find(file, Tables::of(tables), *counts, &slots, set, sought);
            assert_eq!(found, plain, "seed {seed}, set {set}, {}", escaped(sought));
        }
    });
    for tally in tallies {
        require_refusals("lookups", &tally, &[0, 13]);
    }
    require_refusals("lookups through an index", &of_index, &[0, 13]);
}

/// With the room that a file's length asks for no table and no output is too short.
#[test]
fn room_by_length() {
    seeds("room by length", 10_000, 5, |seed| {
        let rng = &mut Rng::new(seed + 93_000_000);
        let file = if rng.once_in(2) { stops::file(rng) } else { stops::changed(rng) };
        let (room, out) = (star::room(file.len()), star::plain_room(file.len()));
        let of = |file: &[u8]| drop_into(seed, file, room, out);
        let (written, _) = check("room by length", seed, &file, of);
        assert_ne!(written.refusal, raw::STAR_TOO_SHORT, "seed {seed}");
    });
}

// ------------------------------------------------------ every row and room

/// Every row of tokens from a list, up to a length, whose tokens but for the last begin a
/// file by the rules for old files.
fn every_row(file: &mut Vec<u8>, tokens: &[&str], more: usize, tallies: &mut [Tally; 2]) {
    for token in tokens {
        let length = file.len();
        if length > 0 {
            file.push(b' ');
        }
        file.extend_from_slice(token.as_bytes());
        for layout in LAYOUTS {
            let answer = read("every row", 1, file, layout, [0; 5]);
            tallies[0][answer.refusal as usize] += 1;
        }
        let (answer, _) = drop_stops("every row", 1, file, [0; 5], 0);
        tallies[1][answer.refusal as usize] += 1;
        if answer.refusal == 0 {
            drop_stops("every row", 1, file, [0; 5], -1);
            check("every row", 1, file, drops_and_reads);
        }
        let goes_on = answer.refusal == 0 || answer.place as usize == file.len();
        if goes_on && more > 1 {
            every_row(file, tokens, more - 1, tallies);
        }
        file.truncate(length);
    }
}

#[test]
fn every_row_of_tokens() {
    let mut tallies = [Tally::default(); 2];
    let tokens = ["data_a", "save_f", "save_", "loop_", "stop_", "_x", "_y", "1", "global_"];
    every_row(&mut Vec::new(), &tokens, 9, &mut tallies);
    // headers of one level and more, then what may come of header stops and packets
    let inner = ["save_", "stop_", "loop_", "_a", "_z", "1", "data_b", "global_"];
    for head in [
        "data_a loop_ _a",
        "data_a loop_ _a loop_ _b",
        "data_a save_f loop_ _a loop_ _b",
        "global_ loop_ _a _b loop_ _c _d",
        "data_a loop_ _a loop_ _b loop_ _c",
        "data_a loop_ _a loop_ _b loop_ _c loop_ _d",
        "data_a loop_ _a loop_ _b loop_ _c loop_ _d loop_ _e loop_ _f loop_ _g loop_ _h",
        "data_a loop_ _a loop_ _b stop_ 1 stop_ loop_ _c loop_ _d",
    ] {
        every_row(&mut head.into(), &inner, 9, &mut tallies);
    }
    require_refusals("every row, reading", &tallies[0], &[0, 8, 9, 10, 11, 16]);
    require_refusals("every row, dropping", &tallies[1], &[0, 8, 9, 10, 11]);
    assert_eq!(tallies[1][raw::STAR_HEADER_STOP as usize], 0);
}

#[test]
fn tables_and_outputs_of_every_length() {
    for file in [
        "data_a loop_ _x loop_ _y stop_ 1 2 3 stop_ 4 stop_",
        "data_a _x 1 save_f loop_ _x loop_ _y loop_ _z stop_ stop_ 1 stop_ save_",
        "global_ loop_ _x loop_ _y stop_ ;b stop_ data_a _x 'a'",
        "data_a loop_ _x loop_ _y stop_ stop_ 1",
        "data_a loop_ _x loop_ _y stop_",
        "data_a loop_ _x loop_ _y 1 stop_",
        "data_a loop_ _x stop_",
        "",
    ]
    .map(str::as_bytes)
    {
        let needed = room(file, [0; 5]);
        for table in 0..5 {
            for spare in -(needed[table] as isize)..5 {
                for others in [0, 3, -1] {
                    let mut spares = [others; 5];
                    spares[table] = spare;
                    for layout in LAYOUTS {
                        read("every length", 1, file, layout, spares);
                    }
                    for spare_out in [0, -1] {
                        drop_stops("every length", 1, file, spares, spare_out);
                    }
                }
            }
        }
        for spare_out in -(dropped_length(file) as isize)..20 {
            drop_stops("every length", 1, file, [0; 5], spare_out);
        }
    }
}

// ------------------------------------------------------------- large files

#[test]
fn largest_files() {
    let [mut reading, mut dropping] = [Tally::default(); 2];
    let old = stops::largest().into_iter().map(|file| (file, true));
    let today = generate::largest().into_iter().map(|file| (file, false));
    for ((name, file), old) in old.chain(today) {
        // those of today once, the others in both layouts and in any room
        let rooms = if old { 3 } else { 1 };
        for &layout in if old { &LAYOUTS[..] } else { &[] } {
            let answer = read(name, 0, &file, layout, [0; 5]);
            reading[answer.refusal as usize] += 1;
        }
        let spares = [([0; 5], 0), ([0; 5], -1), ([-1, 5, 5, 5, 5], 100)];
        for (spare, spare_out) in &spares[..rooms] {
            let (answer, _) = drop_stops(name, 1, &file, *spare, *spare_out);
            dropping[answer.refusal as usize] += 1;
        }
        if old {
            check(name, 0, &file, drops_and_reads);
        }
    }
    require_refusals("reading", &reading, &[1, 16]);
    require_refusals("dropping", &dropping, &[0, 1, 2, 5, 6, 7, 8, 9, 10]);
    // the size of a plain form is that of the form without header stops
    for (name, refusal) in [
        ("words that just fit in the plain form", raw::STAR_OK),
        ("a plain form over the limit by its header stops", raw::STAR_OK),
        ("words one byte over in the plain form", raw::STAR_TOO_LARGE),
    ] {
        let (_, file) = stops::largest().into_iter().find(|file| file.0 == name).expect("there");
        for spare_out in [0, 6, -1, -9_999_999] {
            let short = if spare_out < 0 { raw::STAR_TOO_SHORT } else { raw::STAR_OK };
            let expected = if refusal == 0 { short } else { refusal };
            let (written, _) = drop_stops(name, 0, &file, [0; 5], spare_out);
            assert_eq!(written.refusal, expected, "{name}, {spare_out}");
            let place = if expected == raw::STAR_TOO_SHORT { 6 } else { 0 };
            assert_eq!(written.place, place, "{name}, {spare_out}");
        }
    }
}

/// A word of each row that is a token's number, in the tables that dropping leaves, is one
/// of the old file: header stops are counted.
#[test]
fn tables_are_those_of_the_old_file() {
    let file = b"data_a loop_ _x loop_ _y stop_ 1 2 stop_ _z 3";
    let (written, handed, _) = dropped(file);
    assert_eq!(written.refusal, raw::STAR_OK);
    let [tokens, sets, names, packets, values] = &handed.tables;
    let kinds: Vec<u32> = tokens.chunks(WIDTHS[0]).map(|row| row[0]).collect();
    assert_eq!(kinds, [1, 4, 6, 4, 6, 5, 7, 7, 5, 6, 7]);
    assert_eq!(tokens[15..18], [raw::STAR_TOKEN_STOP, 25, 30]);
    assert_eq!(sets, &[1, 1, 0]);
    assert_eq!(names, &[1, 3, 1, 1, 1, 5, 1, 2, 1, 10, 0, 0]);
    assert_eq!(packets, &[1, 1, 0, 1, 2, 1]);
    assert_eq!(values, &[1, 1, 7, 0, 2, 2, 8, 0, 3, 0, 11, 0]);
}

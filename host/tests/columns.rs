//! Columns: the links of value rows, and values that are found by them, in tables of
//! readings and in others.
//!
//! The groups and their settings are as `harness::seeds` has them.

mod harness;

use harness::{
    check, check_lookups, check_numbers, handed, read, room, seeds, setting, Forms, Tally,
};
use tackturnel::{raw, star, Part, Tables, TablesMut, Value};
use tackturnel_tests_support::generate::{self, columns, Handed, Question, Rng};
use tackturnel_tests_support::notation::escaped;
use tackturnel_tests_support::reference;

const WIDTH: usize = raw::STAR_VALUES_WIDTH;

/// Requires that each of these was met so often, unless in a small part of a run.
fn require(group: &str, counts: &[(&str, u64)], least: u64) {
    println!("{group}: {counts:?}");
    if setting("STAR_COMPARE_TIMES", 1.0) >= 0.1 {
        for (sort, count) in counts {
            assert!(*count >= least, "{group}: {sort} {count} times");
        }
    }
}

/// A file that the library accepts, with its tables as the library leaves them.
fn accepted(file: &[u8]) -> Handed {
    let mut tables = room(file, [0; 5]).map(|words| vec![7; words]);
    let reading = star::read(file, raw::STAR_LAYOUT_TODAY, TablesMut::of(&mut tables));
    assert_eq!(reading.refusal, raw::STAR_OK, "{}", escaped(file));
    Handed { file: file.to_vec(), tables, counts: reading.counts() }
}

/// The words of a value row.
fn value_row(handed: &Handed, row: u32) -> &[u32] {
    &handed.tables[4][WIDTH * (row as usize - 1)..][..WIDTH]
}

/// The last words of the value rows.
fn links(handed: &Handed) -> Vec<u32> {
    (1..=handed.counts.values).map(|row| value_row(handed, row)[3]).collect()
}

/// The same with another link at a value row.
fn with_link(handed: &Handed, row: u32, link: u32) -> Handed {
    let mut other = handed.clone();
    other.tables[4][WIDTH * row as usize - 1] = link;
    other
}

/// A name row and k, asked for.
fn question(name_row: u32, k: u32) -> Question {
    Question { set: 1, name_row, k, sought: Vec::new() }
}

/// Compares every lookup of these values by the library with the reference.
fn check_values(label: &str, seed: u64, handed: &Handed, questions: &[Question]) {
    check_lookups(label, seed, handed, questions, &mut [Tally::default(); 4]);
    let (tally, forms) = (&mut Tally::default(), &mut Forms::default());
    check_numbers(label, seed, handed, questions, tally, forms);
}

// -------------------------------------------------------------- known files

#[test]
fn known_links() {
    let known: [(&str, &[u32]); 12] = [
        ("data_a\nloop_\n_x\nloop_\n_y\n1 2 3 stop_ 4 stop_\n", &[4, 3, 0, 0]),
        ("", &[]),
        ("data_a _x 1 _y 2", &[0, 0]),
        ("data_a loop_ _x _y 1 2 3 4 5 6", &[3, 4, 5, 6, 0, 0]),
        ("data_a loop_ _x 1 2 3 4", &[2, 3, 4, 0]),
        // inner levels that are empty in some packets, and in all
        ("data_a loop_ _x loop_ _y 1 stop_ 2 stop_ 3 4 stop_", &[2, 3, 0, 0]),
        ("data_a loop_ _x loop_ _y 1 2 stop_ 3 stop_ 4 5 stop_", &[3, 5, 4, 0, 0]),
        ("data_a loop_ _x loop_ _y 1 stop_ 2 stop_", &[2, 0]),
        (
            "data_a loop_ _x loop_ _y loop_ _z 1 2 stop_ stop_ 3 stop_ 4 5 6 stop_ 7 8 stop_ stop_",
            &[3, 5, 4, 0, 7, 8, 0, 0],
        ),
        // loops of one set, and of others with the same names
        ("data_a loop_ _x 1 2 loop_ _y 3 4 _z 5", &[2, 0, 4, 0, 0]),
        ("data_a loop_ _x 1 2 save_f loop_ _x 3 4 save_ loop_ _y 5", &[2, 0, 4, 0, 0]),
        ("global_ loop_ _x 1 2 data_a loop_ _x 3 4 data_b _x 5", &[2, 0, 4, 0, 0]),
    ];
    for (file, expected) in known {
        let handed = accepted(file.as_bytes());
        assert_eq!(links(&handed), expected, "{file}");
        check("known links", 0, file.as_bytes(), |file| read(0, file, [0; 5]));
    }
}

/// Two packets of a level, each with two of each deeper level.
fn two_packets(level: usize, levels: usize) -> String {
    let deeper = match level < levels {
        true => two_packets(level + 1, levels) + " stop_",
        false => String::new(),
    };
    format!(" {level}{deeper} {level}{deeper}")
}

#[test]
fn known_levels() {
    for levels in 1..=raw::STAR_MOST_LEVELS {
        let header: String = (1..=levels).map(|level| format!(" loop_ _{level}")).collect();
        let handed = accepted(format!("data_a{header}{}", two_packets(1, levels)).as_bytes());
        let (file, tables, counts) = (&handed.file, Tables::of(&handed.tables), handed.counts);
        for level in 1..=levels {
            let walk = star::column(file, tables, counts, level as u32);
            let column: Vec<_> = walk.map(|value| value.expect("inside")).collect();
            assert_eq!(column.len(), 1 << level, "{levels} levels, level {level}");
            let text = level.to_string();
            assert!(column.iter().all(|value| value.part == text.as_bytes()), "{levels} levels");
            // a packet with all in it has so many values, and one of a level around it is
            // begun for each two
            let packet = (1 << (levels + 1 - level)) - 1;
            for (pair, number) in column.windows(2).zip(1u32..) {
                let begun = number.trailing_zeros().min(level as u32 - 1);
                let between = pair[1].row - pair[0].row;
                assert_eq!(between, packet + begun, "{levels} levels, level {level}, {number}");
            }
        }
    }
}

/// The refusals, by k from 0 to 5, of the values of a name row; each that is found
/// is the first byte of the value.
fn answers(handed: &Handed, name_row: u32) -> String {
    let questions: Vec<_> = (0..=5).map(|k| question(name_row, k)).collect();
    check_values("known answers", 0, handed, &questions);
    walk_agrees("known answers", 0, handed, name_row);
    let (file, tables, counts) = (&handed.file, Tables::of(&handed.tables), handed.counts);
    let answer = |k: u32| {
        let value = star::value_at(file, tables, counts, name_row, k);
        let part = star::value_part(file, tables, counts, name_row, k);
        let number = star::value_number(file, tables, counts, name_row, k);
        assert_eq!(number.refusal, value.refusal);
        match value.refusal {
            0 => String::from_utf8_lossy(part).into_owned(),
            refusal => {
                assert_eq!((value, part), (Value { refusal, kind: 0, packet: 0 }, &b""[..]));
                refusal.to_string()
            }
        }
    };
    (0..=5).map(answer).collect::<Vec<_>>().join(" ")
}

#[test]
fn known_answers() {
    // value rows 1, 3 and 5 are of name row 1: a, c, e; 2, 4 and 6 of name row 2: b, d, f
    let handed = &accepted(b"data_a loop_ _x _y a b c d e f _z z");
    assert_eq!(answers(handed, 1), "13 a c e 13 13");
    assert_eq!(answers(handed, 2), "13 b d f 13 13");
    assert_eq!(answers(handed, 3), "13 z 13 13 13 13");
    for name_row in [0, 4, 5, u32::MAX] {
        assert_eq!(answers(handed, name_row), "14 14 14 14 14 14");
    }
    let many = [8, 9, 1 << 30, (1 << 30) + 1, (1 << 31) + 3, (3 << 30) + 5, u32::MAX - 1, u32::MAX];
    let linked = |row: u32, link: u32| answers(&with_link(handed, row, link), 1);
    // the first link
    assert_eq!(linked(1, 0), "13 a 13 13 13 13");
    assert_eq!(linked(1, 1), "13 a 14 14 14 14");
    assert_eq!(linked(1, 5), "13 a e 13 13 13");
    for other in [2, 4, 6, 7].into_iter().chain(many) {
        assert_eq!(linked(1, other), "13 a 14 14 14 14", "{other}");
    }
    // the second
    assert_eq!(linked(3, 0), "13 a c 13 13 13");
    for other in [1, 2, 3, 4, 6, 7].into_iter().chain(many) {
        assert_eq!(linked(3, other), "13 a c 14 14 14", "{other}");
    }
    // the last: the value itself is found, whatever it is
    for other in (1..=7).chain(many) {
        assert_eq!(linked(5, other), "13 a c e 14 14", "{other}");
    }
    // those of the other names do not matter
    for row in [2, 4, 6, 7] {
        for other in (0..=7).chain(many) {
            assert_eq!(linked(row, other), "13 a c e 13 13", "{row}, {other}");
        }
    }
}

/// Counts that are lower than those of the reading, or too large.
#[test]
fn known_counts() {
    let handed = &accepted(b"data_a loop_ _x _y a b c d e f _z z");
    let counted = |values: u32| {
        let mut other = handed.clone();
        other.counts.values = values;
        other
    };
    let expected = [
        "13 13 13 13 13 13",
        "13 a 14 14 14 14",
        "13 a 14 14 14 14",
        "13 a c 14 14 14",
        "13 a c 14 14 14",
        "13 a c e 13 13",
        "13 a c e 13 13",
        "13 a c e 13 13",
        "14 14 14 14 14 14",
    ];
    for (values, expected) in expected.into_iter().enumerate() {
        assert_eq!(answers(&counted(values as u32), 1), expected, "{values} value rows");
    }
    assert_eq!(answers(&counted(1), 2), "13 13 13 13 13 13");
    assert_eq!(answers(&counted(6), 3), "13 13 13 13 13 13");
    // words after the last row are not looked at, nor are parts of a row
    let mut longer = handed.clone();
    longer.tables[4].extend([1, 1, 1, 0, 1, 1, 1]);
    assert_eq!(answers(&with_link(&longer, 5, 8), 1), "13 a c e 14 14");
    longer.counts.values = 8;
    assert_eq!(answers(&with_link(&longer, 5, 8), 1), "13 a c e a 13");
    longer.counts.values = 9;
    assert_eq!(answers(&longer, 1), "14 14 14 14 14 14");
    // three words for each row are too few
    let mut shorter = handed.clone();
    shorter.tables[4].truncate(21);
    assert_eq!(answers(&shorter, 1), "14 14 14 14 14 14");
    // so many rows that their words come round in 32 bits
    for values in [1 << 30, (1 << 30) + 1, 1 << 31, u32::MAX] {
        assert_eq!(answers(&counted(values), 1), "14 14 14 14 14 14", "{values}");
    }
}

/// Name and token words of value rows that no reading leaves.
#[test]
fn known_rows() {
    let handed = &accepted(b"data_a loop_ _x _y a b c d e f _z z");
    let with = |row: usize, word: usize, content: u32| {
        let mut other = handed.clone();
        other.tables[4][WIDTH * (row - 1) + word] = content;
        other
    };
    // the first row of a name is the first that has it, and a link leads to its row alone
    assert_eq!(answers(&with(1, 0, 2), 1), "13 c e 13 13 13");
    assert_eq!(answers(&with(1, 0, 2), 2), "13 a 14 14 14 14");
    assert_eq!(answers(&with(3, 0, 2), 1), "13 a 14 14 14 14");
    assert_eq!(answers(&with(3, 0, 2), 2), "13 b d f 13 13");
    assert_eq!(answers(&with(5, 0, 0), 1), "13 a c 14 14 14");
    assert_eq!(answers(&with(5, 0, 1 | 1 << 8), 1), "13 a c 14 14 14");
    assert_eq!(answers(&with(5, 0, 1 | 1 << 31), 1), "13 a c 14 14 14");
    // tokens of values that are passed do not matter
    for token in [0, 13, u32::MAX] {
        assert_eq!(answers(&with(1, 2, token), 1), "13 14 c e 13 13", "{token}");
        assert_eq!(answers(&with(3, 2, token), 1), "13 a 14 e 13 13", "{token}");
        assert_eq!(answers(&with(5, 2, token), 1), "13 a c 14 13 13", "{token}");
    }
    let mut cut = handed.clone();
    cut.file.truncate(24);
    assert_eq!(answers(&cut, 1), "13 a c 14 13 13");
}

// -------------------------------------------------------------- by the links

/// How a lookup ends.
#[derive(Clone, Copy, Debug, PartialEq, Eq)]
enum End {
    /// At the k-th value row.
    Row(u32),
    /// Before all rows: a count, the name row, k.
    Count,
    NameRow,
    Zero,
    /// There is no row of the name.
    None,
    /// At a link of this row, by 13 or 14.
    Last(u32),
    Link(u32),
}

/// The value rows of the name that a lookup comes to, and how it ends.
fn path(handed: &Handed, name_row: u32, k: u32) -> (Vec<u32>, End) {
    let Handed { tables, counts, .. } = handed;
    let held = [counts.tokens, counts.sets, counts.names, counts.packets, counts.values];
    let widths = [3, 3, 4, 3, WIDTH];
    if (0..5).any(|table| held[table] as usize > tables[table].len() / widths[table]) {
        return (Vec::new(), End::Count);
    }
    if name_row == 0 || name_row > counts.names {
        return (Vec::new(), End::NameRow);
    }
    if k == 0 {
        return (Vec::new(), End::Zero);
    }
    let own: Vec<u32> =
        (1..=counts.values).filter(|&row| value_row(handed, row)[0] == name_row).collect();
    let Some(&first) = own.first() else {
        return (own, End::None);
    };
    let mut rows = vec![first];
    while rows.len() < k as usize {
        let row = rows[rows.len() - 1];
        let link = value_row(handed, row)[3];
        if link == 0 {
            return (rows, End::Last(row));
        }
        // the rows of the name that come after this one
        let after = own.partition_point(|&other| other <= row);
        if own[after..].binary_search(&link).is_err() {
            return (rows, End::Link(row));
        }
        rows.push(link);
    }
    let last = rows[rows.len() - 1];
    (rows, End::Row(last))
}

/// The kind and the span of the token of a value row, if it lies inside.
fn token(handed: &Handed, row: u32) -> Option<(u32, Part)> {
    let at = (value_row(handed, row)[2] as usize).checked_sub(1)?;
    let mut tokens = handed.tables[0].chunks_exact(3).take(handed.counts.tokens as usize);
    let words = tokens.nth(at)?;
    let part = Part { start: words[1] as usize, end: words[2] as usize };
    handed.file.get(part.start..part.end).map(|_| (words[0], part))
}

/// What may come of the k-th value of a name row.
const SORTS: [&str; 22] = [
    "14 by a count",
    "14 by the name row",
    "13 by k = 0",
    "13, no row of the name",
    "13, the name's rows above the count",
    "13 after the last",
    "13 after the last, k far above",
    "13 by a link of 0 before the last",
    "14 by a link to its own row",
    "14 by a link to a lower row of the name",
    "14 by a link to a lower row",
    "14 by a link to a later row of another name",
    "14 by a link just above the count",
    "14 by a link to a row of the name above the count",
    "14 by a link above the table",
    "14 by a link that comes round",
    "14 by the value's token",
    "found, the first",
    "found by links",
    "found, a row of the name passed over",
    "found, its own link leads outside",
    "found, a token before it points outside",
];

/// What the k-th value of a name row is to be: what is answered and its span; and of
/// which sorts that is.
fn answer(handed: &Handed, name_row: u32, k: u32) -> (Value, Part, [bool; SORTS.len()]) {
    let (rows, end) = path(handed, name_row, k);
    let count = handed.counts.values;
    let held = (handed.tables[4].len() / WIDTH) as u32;
    let is_own = |row: u32| (1..=held).contains(&row) && value_row(handed, row)[0] == name_row;
    let later = |row: u32| (row + 1..=count).any(is_own);
    let (refusal, found) = match end {
        End::Count | End::NameRow | End::Link(_) => (14, None),
        End::Zero | End::None | End::Last(_) => (13, None),
        End::Row(row) => match token(handed, row) {
            Some((kind, part)) => (0, Some((kind, value_row(handed, row)[1], part))),
            None => (14, None),
        },
    };
    let at_link = |sort: &dyn Fn(u32, u32) -> bool| match end {
        End::Link(row) => sort(row, value_row(handed, row)[3]),
        _ => false,
    };
    let at_last = |sort: &dyn Fn(u32) -> bool| matches!(end, End::Last(row) if sort(row));
    let at_row = |sort: &dyn Fn(u32) -> bool| match end {
        End::Row(row) => refusal == 0 && sort(row),
        _ => false,
    };
    let sorts = [
        end == End::Count,
        end == End::NameRow,
        end == End::Zero,
        end == End::None,
        end == End::None && (count + 1..=held).any(is_own),
        at_last(&|row| !later(row)),
        at_last(&|row| !later(row)) && k > count,
        at_last(&later),
        at_link(&|row, link| link == row),
        at_link(&|row, link| link < row && is_own(link)),
        at_link(&|row, link| link < row && !is_own(link)),
        at_link(&|row, link| link > row && link <= count && !is_own(link)),
        at_link(&|_, link| link == count + 1),
        at_link(&|_, link| link > count && is_own(link)),
        at_link(&|_, link| link > held),
        at_link(&|row, link| link >= 1 << 30 && link << 2 > row << 2 && is_own(link << 2 >> 2)),
        matches!(end, End::Row(_)) && refusal == 14,
        at_row(&|_| k == 1),
        at_row(&|_| k > 1),
        at_row(&|_| rows.windows(2).any(|pair| (pair[0] + 1..pair[1]).any(is_own))),
        at_row(&|row| {
            let link = value_row(handed, row)[3];
            link != 0 && (link <= row || link > count || !is_own(link))
        }),
        at_row(&|row| rows.iter().any(|&other| other < row && token(handed, other).is_none())),
    ];
    match found {
        Some((kind, packet, part)) => (Value { refusal, kind, packet }, part, sorts),
        None => (Value { refusal, kind: 0, packet: 0 }, Part::default(), sorts),
    }
}

/// The walk down a column comes to what the library answers for k = 1, 2, 3 and so on.
fn walk_agrees(label: &str, seed: u64, handed: &Handed, name_row: u32) {
    let (file, tables, counts) = (&handed.file, Tables::of(&handed.tables), handed.counts);
    let mut walk = star::column(file, tables, counts, name_row);
    for k in 1.. {
        let value = star::value_at(file, tables, counts, name_row, k);
        let part = star::value_part(file, tables, counts, name_row, k);
        let came = walk.next();
        let same = match came {
            Some(Ok(came)) => {
                let expected = Value { refusal: 0, kind: came.kind, packet: came.packet };
                value == expected && std::ptr::eq(part, came.part)
            }
            Some(Err(refusal)) => value.refusal == refusal && refusal == raw::STAR_OUTSIDE,
            None => value.refusal == raw::STAR_NOT_FOUND,
        };
        assert!(same, "{label}, seed {seed}, value {k} of {name_row}: {came:?}, {value:?}");
        if value.refusal != raw::STAR_OK {
            assert_eq!(walk.next(), None, "{label}, seed {seed}, value {k} of {name_row}");
            return;
        }
    }
}

/// Asks for every value of every name, and for more than there are.
fn ask_all(label: &str, seed: u64, handed: &Handed, counts: &mut [u64; SORTS.len()]) {
    let names = handed.counts.names.min(60);
    let last = handed.tables[4].len() / WIDTH + 1;
    let ks: Vec<u32> = (0..=last as u32).chain([1 << 30, u32::MAX]).collect();
    let (file, tables) = (&handed.file, Tables::of(&handed.tables));
    let mut questions = Vec::new();
    for name_row in 0..=names + 1 {
        walk_agrees(label, seed, handed, name_row);
        let own = (1..=handed.tables[4].len() / WIDTH)
            .filter(|&row| value_row(handed, row as u32)[0] == name_row)
            .count() as u32;
        // all up to two after its values, and some far above
        for &k in ks.iter().filter(|&&k| k <= own + 2 || k >= last as u32) {
            let (expected, part, sorts) = answer(handed, name_row, k);
            let value = star::value_at(file, tables, handed.counts, name_row, k);
            let span = star::value_span(file, tables, handed.counts, name_row, k);
            assert_eq!(
                (value, span),
                (expected, part),
                "{label}, seed {seed}, value {k} of {name_row}: {} {:?}",
                escaped(file),
                handed.tables[4]
            );
            for (count, held) in counts.iter_mut().zip(sorts) {
                *count += u64::from(held);
            }
            questions.push(question(name_row, k));
        }
    }
    // the same beside the reference, in guarded memory
    let rng = &mut Rng::new(seed);
    let some: Vec<Question> = (0..12.min(questions.len()))
        .map(|_| questions[rng.below(questions.len())].clone())
        .collect();
    check_values(label, seed, handed, &some);
}

#[test]
fn columns_in_readings() {
    let mut counts = [0; SORTS.len()];
    let mut short = 0;
    seeds("columns in readings", 6_000, 6, |seed| {
        let rng = &mut Rng::new(seed + 50_000_000);
        let file = if rng.once_in(3) { generate::valid(rng) } else { columns::file(rng) };
        let handed = accepted(&file);
        for row in 1..=handed.counts.values {
            let name = value_row(&handed, row)[0];
            let same = |&other: &u32| value_row(&handed, other)[0] == name;
            let next = (row + 1..=handed.counts.values).find(same);
            let link = value_row(&handed, row)[3];
            assert_eq!(link, next.unwrap_or(0), "seed {seed}, row {row}: {}", escaped(&file));
        }
        for name in 1..=handed.counts.names {
            let rows = 1..=handed.counts.values;
            let own: Vec<u32> = rows.filter(|&row| value_row(&handed, row)[0] == name).collect();
            let (file, tables) = (&handed.file, Tables::of(&handed.tables));
            let walk = star::column(file, tables, handed.counts, name);
            let walked: Vec<u32> = walk.map(|value| value.expect("inside").row).collect();
            assert_eq!(walked, own, "seed {seed}, name {name}: {}", escaped(file));
        }
        ask_all("columns in readings", seed, &handed, &mut counts);
        // less room than four words for each row: 7, and every word 0
        let rows = handed.counts.values as isize;
        for less in [1, 2, 4, rows, 4 * rows - 1] {
            let spare = [0, 0, 0, 0, -less];
            let reading = check("less room", seed, &file, |file| read(seed, file, spare));
            let too_short = reading.refusal == raw::STAR_TOO_SHORT && reading.place == 5;
            assert_eq!(too_short, rows > 0 && less > 0, "seed {seed}, {less} words less");
            short += u64::from(too_short);
        }
    });
    let named: Vec<_> = SORTS.into_iter().zip(counts).collect();
    let met = [1, 2, 3, 5, 6, 17, 18];
    let (met, never): (Vec<_>, Vec<_>) = (0..named.len()).partition(|at| met.contains(at));
    let sorts = |which: Vec<usize>| which.into_iter().map(|at| named[at]).collect::<Vec<_>>();
    require("columns in readings", &sorts(met), 50);
    require("less room", &[("7 for table 5", short)], 50);
    assert!(sorts(never.clone()).iter().all(|(_, count)| *count == 0), "{:?}", sorts(never));
}

#[test]
fn columns_in_spoiled_tables() {
    let mut counts = [0; SORTS.len()];
    seeds("columns in spoiled tables", 12_000, 6, |seed| {
        let rng = &mut Rng::new(seed + 51_000_000);
        let mut handed = handed(&columns::file(rng), rng.below(9));
        columns::spoil(rng, &mut handed);
        ask_all("columns in spoiled tables", seed, &handed, &mut counts);
    });
    let named: Vec<_> = SORTS.into_iter().zip(counts).collect();
    require("columns in spoiled tables", &named, 50);
}

#[test]
fn columns_in_random_tables() {
    let mut counts = [0; SORTS.len()];
    seeds("columns in random tables", 40_000, 6, |seed| {
        let rng = &mut Rng::new(seed + 52_000_000);
        let handed = if rng.once_in(4) { generate::junk(rng) } else { columns::junk(rng) };
        ask_all("columns in random tables", seed, &handed, &mut counts);
    });
    let named: Vec<_> = SORTS.into_iter().zip(counts).collect();
    require("columns in random tables", &named, 50);
}

/// Every four value rows of two names with every link, and every count.
#[test]
fn every_link() {
    const ROWS: u32 = 4;
    let tokens = (0..ROWS).flat_map(|row| [7, row, row + 1]).collect();
    let names = vec![1; 2 * raw::STAR_NAMES_WIDTH];
    let values = (1..=ROWS).flat_map(|row| [1, 10 + row, row, 0]).collect();
    let mut handed = Handed {
        file: b"abcd".to_vec(),
        tables: [tokens, Vec::new(), names, Vec::new(), values],
        counts: Default::default(),
    };
    handed.counts.tokens = ROWS;
    handed.counts.names = 2;
    let mut tally = Tally::default();
    // a row has two names and links from 0 to one above the rows
    let each = 2 * (ROWS + 2);
    for number in 0..each.pow(ROWS) {
        let mut rest = number;
        for row in handed.tables[4].chunks_exact_mut(WIDTH) {
            row[0] = 1 + rest % 2;
            row[3] = rest % each / 2;
            rest /= each;
        }
        for values in 0..=ROWS {
            handed.counts.values = values;
            let (file, tables, counts) = (&handed.file, Tables::of(&handed.tables), handed.counts);
            for (name_row, k) in [1, 2].into_iter().flat_map(|name| (0..=5).map(move |k| (name, k)))
            {
                let value = star::value_at(file, tables, counts, name_row, k);
                let span = star::value_span(file, tables, counts, name_row, k);
                let expected = reference::value_at(file, tables, counts, name_row, k);
                let expected_span = reference::value_span(file, tables, counts, name_row, k);
                assert_eq!(
                    (value, span),
                    (expected, expected_span),
                    "value {k} of {name_row}, {values} of {:?}",
                    handed.tables[4]
                );
                tally[value.refusal as usize] += 1;
            }
        }
    }
    println!("every link: answers by refusal {tally:?}");
    assert!([0, 13, 14].iter().all(|&refusal| tally[refusal] > 100_000), "{tally:?}");
}

// ------------------------------------------------------------ large files

/// Columns of the largest files: all links, and the values at their ends.
#[test]
fn largest_columns() {
    for (name, file) in generate::largest() {
        let mut tables = star::room(file.len()).map(|words| vec![7; words]);
        let reading = star::read(&file, raw::STAR_LAYOUT_TODAY, TablesMut::of(&mut tables));
        if reading.refusal != raw::STAR_OK || reading.values == 0 {
            continue;
        }
        let (tables, counts) = (Tables::of(&tables), reading.counts());
        let mut before = vec![0; counts.names as usize + 1];
        let values = tables.values.chunks_exact(WIDTH).take(counts.values as usize);
        for (value, row) in values.zip(1u32..) {
            let last = &mut before[value[0] as usize];
            if *last > 0 {
                assert_eq!(tables.values[WIDTH * *last as usize - 1], row, "{name}, row {last}");
            }
            *last = row;
        }
        for name_row in [1, counts.names.min(6)] {
            let walk = star::column(&file, tables, counts, name_row);
            let column: Vec<_> = walk.map(|value| value.expect("inside")).collect();
            let length = column.len() as u32;
            let last = before[name_row as usize];
            assert_eq!(column.last().map_or(0, |value| value.row), last, "{name}");
            if let Some(value) = column.last() {
                assert_eq!(tables.values[WIDTH * last as usize - 1], 0, "{name}");
                let found = star::value_at(&file, tables, counts, name_row, length);
                let expected = Value { refusal: 0, kind: value.kind, packet: value.packet };
                assert_eq!(found, expected, "{name}, value {length}");
                let part = star::value_part(&file, tables, counts, name_row, length);
                assert!(std::ptr::eq(part, value.part), "{name}, value {length}");
            }
            for k in [length + 1, u32::MAX] {
                let found = star::value_at(&file, tables, counts, name_row, k);
                assert_eq!(found.refusal, raw::STAR_NOT_FOUND, "{name}, value {k}");
            }
        }
    }
}

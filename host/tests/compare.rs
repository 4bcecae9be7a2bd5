//! The library beside the reference on many files, tables and questions.
//!
//! The groups and their settings are as `harness::seeds` has them.

mod harness;

use harness::{
    by_length, check, check_lookups, handed, read, round_trip, seeds, setting, write, Tally,
};
use tackturnel::raw;
use tackturnel_tests_support::generate::twins::{self, Plan, SORTS};
use tackturnel_tests_support::generate::{self, Rng};
use tackturnel_tests_support::reference;

/// Requires that each of these refusals was met, unless in a small part of a run,
/// and that 12 was not, which is not used.
fn require(group: &str, tally: &Tally, refusals: &[usize]) {
    println!("{group}: answers by refusal {tally:?}");
    assert_eq!(tally[12], 0, "{group}");
    if setting("STAR_COMPARE_TIMES", 1.0) < 0.1 {
        return;
    }
    for &refusal in refusals {
        assert!(tally[refusal] > 0, "{group}: refusal {refusal} was never met");
    }
}

#[test]
fn generated_files() {
    let mut tally = Tally::default();
    seeds("generated files", 200_000, 40, |seed| {
        let rng = &mut Rng::new(seed);
        let file = generate::any(rng);
        let mut spares = vec![[0; 5], [9; 5]];
        for table in 0..5 {
            let mut short = [1; 5];
            short[table] = -1;
            spares.push(short);
        }
        spares.push(
            [0; 5].map(|_: isize| rng.pick(&[-9999, -4, -3, -2, -1, 0, 0, 0, 1, 2, 3, 4, 30])),
        );
        for spare in spares {
            let answer = check("reading", seed, &file, |file| read(seed, file, spare));
            tally[answer.refusal as usize] += 1;
        }
        for spare_out in [0, -1, 20, rng.pick(&[-9999, -2, -7])] {
            let out = |file: &[u8]| write(seed, file, [2; 5], spare_out);
            let (answer, _) = check("writing", seed, &file, out);
            tally[answer.refusal as usize] += 1;
        }
        check("round trip", seed, &file, round_trip);
    });
    require("generated files", &tally, &[0, 2, 3, 4, 5, 6, 7, 8, 9, 10, 11, 16]);
}

#[test]
fn writing_into_every_room() {
    seeds("writing into every room", 8_000, 8, |seed| {
        let rng = &mut Rng::new(seed + 1_000_000);
        let file = generate::any(rng);
        let mut spare = [0; 5];
        spare[rng.below(5)] = rng.pick(&[-1, 0, 1]);
        for spare_out in -12..4 {
            check("writing", seed, &file, |file| write(seed, file, spare, spare_out));
        }
    });
}

#[test]
fn room_by_length() {
    let mut tally = Tally::default();
    seeds("room by length", 20_000, 8, |seed| {
        let rng = &mut Rng::new(seed + 6_000_000);
        let file = if rng.once_in(2) { generate::valid(rng) } else { generate::any(rng) };
        let answer = check("room by length", seed, &file, |file| by_length(seed, file));
        tally[answer.refusal as usize] += 1;
    });
    require("room by length", &tally, &[0, 2, 3, 4, 5, 6, 8, 9, 10, 11, 16]);
}

#[test]
fn room_by_length_of_largest_files() {
    for (name, file) in generate::largest() {
        check(name, 0, &file, |file| by_length(0, file));
    }
}

#[test]
fn tables_of_every_length() {
    let files = [
        "data_a _x 1 save_f loop_ _x 1 2 save_",
        "data_a loop_ _x loop_ _y 1 2 3 stop_ 4 stop_ data_b _x 'a'",
        "data_a loop_ _x loop_ _y 1 2 3",
        "data_a _x",
        "data_a data_a",
        "",
        "global_",
        "global_ _x 1 save_f loop_ _x 1 2 save_ global_ loop_ _x 1 data_a",
        "data_a save_f global_",
        "data_a loop_ _x _y 1 global_",
        "data_a loop_ _x loop_ _y stop_ 1 stop_",
    ];
    for file in files {
        let needed = reference::words_needed(file.as_bytes());
        for table in 0..5 {
            for spare in -(needed[table] as isize)..8 {
                for others in [0, 3, -1] {
                    let mut spares = [others; 5];
                    spares[table] = spare;
                    let read = |file: &[u8]| read(1, file, spares);
                    check("every length", 0, file.as_bytes(), read);
                }
            }
        }
    }
}

/// Every row of tokens from a list, up to a length, whose tokens but for the
/// last begin a file.
fn every_row(file: &mut Vec<u8>, tokens: &[&str], more: usize, tally: &mut Tally) {
    for token in tokens {
        let length = file.len();
        if length > 0 {
            file.push(b' ');
        }
        file.extend_from_slice(token.as_bytes());
        let answer = check("every row", 0, file, |file| read(1, file, [0; 5]));
        tally[answer.refusal as usize] += 1;
        let goes_on = answer.refusal == 0 || answer.place as usize == file.len();
        if goes_on && more > 1 {
            every_row(file, tokens, more - 1, tally);
        }
        file.truncate(length);
    }
}

#[test]
fn every_row_of_tokens() {
    let mut tally = Tally::default();
    // the last token, which may come any number of times, in shorter rows alone
    let tokens =
        ["data_a", "data_b", "save_f", "save_", "loop_", "stop_", "_x", "_y", "1", "global_"];
    every_row(&mut Vec::new(), &tokens[..9], 12, &mut tally);
    every_row(&mut Vec::new(), &tokens, 10, &mut tally);
    // loops: names of two levels, then what may come in their packets
    let inner = ["save_", "loop_", "stop_", "_x", "_z", "1", "data_b", "global_"];
    for head in [
        "data_a save_f loop_ _x loop_ _y",
        "data_a loop_ _x _y loop_ _v _w",
        "data_a loop_ _a loop_ _b loop_ _c",
        "data_a loop_ _a loop_ _b loop_ _c loop_ _d loop_ _e loop_ _f loop_ _g loop_ _h",
    ] {
        every_row(&mut head.into(), &inner[..7], 11, &mut tally);
        every_row(&mut head.into(), &inner, 10, &mut tally);
    }
    require("every row of tokens", &tally, &[0, 8, 9, 10, 11, 16]);
}

/// Every file made of a head and up to so many of these bytes.
fn every_file(file: &mut Vec<u8>, bytes: &[u8], more: usize, tally: &mut Tally) {
    let answer = check("every file", 0, file, |file| read(1, file, [0; 5]));
    check("every file", 0, file, |file| write(1, file, [0; 5], 0));
    check("every file", 0, file, round_trip);
    tally[answer.refusal as usize] += 1;
    if more > 0 {
        for &byte in bytes {
            file.push(byte);
            every_file(file, bytes, more - 1, tally);
            file.pop();
        }
    }
}

#[test]
fn every_short_file() {
    let mut tally = Tally::default();
    for head in ["", "data_a _x ", "data_a _x\n", "data_a loop_ _x\n"] {
        every_file(&mut head.into(), b";'\"#_$a \n", 4, &mut tally);
        every_file(&mut head.into(), b";'\n a", 6, &mut tally);
    }
    for head in ["data_a _x \"", "data_a _x '", "data_a _x\n;"] {
        every_file(&mut head.into(), b"'\"; \t\n\x0b\x0c\r", 4, &mut tally);
    }
    // every row of line ends, `;` and a letter in a text field and after it
    let line_ends = b"\n\x0c\r;a";
    for head in ["data_a _x\n;", "data_a loop_ _x\r\n;"] {
        every_file(&mut head.into(), line_ends, 8, &mut tally);
    }
    for letters in 1..20 {
        let head = "data_a _x\n;".to_owned() + &"t".repeat(letters);
        every_file(&mut head.into(), line_ends, 5, &mut tally);
    }
    // every byte in every place where one may matter
    for byte in 0..=255 {
        for head in
            ["", "data_a", "data_a _x ", "data_a _x 'a'", "data_a _x 'a", "data_a _x\n;a\n;", "#"]
        {
            every_file(&mut head.into(), &[byte], 1, &mut tally);
            every_file(&mut [head.as_bytes(), &[byte]].concat(), b";' a", 2, &mut tally);
        }
    }
    // every beginning of every keyword, and one byte more
    for keyword in ["data_", "loop_", "global_", "save_", "stop_", "_", "$"] {
        for length in 0..=keyword.len() {
            for head in ["", "data_a _x ", "data_a ", "global_ "] {
                let file = head.to_owned() + &keyword[..length];
                every_file(&mut file.into(), b"_axA1 ", 2, &mut tally);
            }
        }
    }
    require("every short file", &tally, &[0, 2, 3, 5, 6, 8]);
}

#[test]
fn largest_files() {
    let mut tally = Tally::default();
    let mut tallies = [Tally::default(); 4];
    let rng = &mut Rng::new(5_000_000);
    for (name, file) in generate::largest() {
        let at_once = |spare: [isize; 5], tally: &mut Tally| {
            let answer = check(name, 0, &file, |file| read(1, file, spare));
            tally[answer.refusal as usize] += 1;
        };
        at_once([0; 5], &mut tally);
        for table in [0, 4] {
            let mut spare = [5; 5];
            spare[table] = -1;
            at_once(spare, &mut tally);
        }
        for spare_out in [0, -1, 100] {
            let out = |file: &[u8]| write(1, file, [0; 5], spare_out);
            let (answer, _) = check(name, 0, &file, out);
            tally[answer.refusal as usize] += 1;
        }
        check(name, 0, &file, round_trip);
        let handed = handed(&file, 0);
        let mut questions: Vec<_> = (0..3).map(|_| generate::question(rng, &handed)).collect();
        for k in [handed.counts.values, handed.counts.values + 1] {
            questions.push(generate::Question { name_row: 1, k, ..questions[0].clone() });
        }
        check_lookups(name, 0, &handed, &questions, &mut tallies);
    }
    require("largest files", &tally, &[0, 1, 2, 5, 6, 7, 8, 9, 10]);
}

#[test]
fn many_names() {
    let mut tally = Tally::default();
    seeds("many names", 240, 15, |seed| {
        let rng = &mut Rng::new(seed);
        let count = match seed % 40 {
            0 => 12_000,
            1..=4 => 4_000,
            _ => rng.between(2, 400),
        };
        let file = generate::many_names(rng, count);
        let answer = check("many names", seed, &file, |file| read(seed, file, [0; 5]));
        tally[answer.refusal as usize] += 1;
    });
    require("many names", &tally, &[0, 9]);
}

/// Names and codes that the library tells apart by their bytes alone, or has to
/// seek in one bucket.
#[test]
fn names_of_one_hash() {
    // accepted and refused, by the sort and by what the hashes share
    let mut tally = [[[0u64; 2]; 3]; 4];
    seeds("names of one hash", 4_800, 8, |seed| {
        let rng = &mut Rng::new(seed + 7_000_000);
        let [answer, sort, share] = [seed % 2, seed / 2 % 4, seed / 8 % 3].map(|at| at as usize);
        // the whole hash, the bucket alone, the bucket and some more
        let bits = [20, 12, rng.between(13, 19) as u32][share];
        let count = if rng.once_in(40) { 400 } else { rng.between(1, 60) };
        let plan = Plan { sort: SORTS[sort], count, bits, repeats: answer == 1 };
        let file = twins::file(rng, plan);
        let reading = check("names of one hash", seed, &file, |file| read(seed, file, [0; 5]));
        let expected = [raw::STAR_OK, raw::STAR_TAKEN][answer];
        assert_eq!(reading.refusal, expected, "names of one hash, seed {seed}: {plan:?}");
        tally[sort][share][answer] += 1;
    });
    println!("names of one hash: accepted and refused {tally:?}");
    if setting("STAR_COMPARE_TIMES", 1.0) >= 0.1 {
        assert!(tally.iter().flatten().flatten().all(|&count| count > 5), "{tally:?}");
    }
}

#[test]
fn lookups_in_readings() {
    let mut tallies = [Tally::default(); 4];
    seeds("lookups in readings", 10_000, 8, |seed| {
        let rng = &mut Rng::new(seed + 2_000_000);
        let handed = handed(&generate::valid(rng), rng.below(5));
        let mut questions: Vec<_> = (0..20).map(|_| generate::question(rng, &handed)).collect();
        // every name row and every one of its values, and one more
        for row in 0..=handed.counts.names + 1 {
            let values = handed.tables[4].chunks_exact(4).filter(|value| value[0] == row).count();
            for k in 0..=values as u32 + 1 {
                let more = generate::question(rng, &handed);
                questions.push(generate::Question { name_row: row, k, ..more });
            }
        }
        check_lookups("lookups in readings", seed, &handed, &questions, &mut tallies);
    });
    for tally in tallies {
        require("lookups in readings", &tally, &[0, 13]);
    }
}

#[test]
fn lookups_in_spoiled_tables() {
    let mut tallies = [Tally::default(); 4];
    seeds("lookups in spoiled tables", 80_000, 15, |seed| {
        let rng = &mut Rng::new(seed + 3_000_000);
        let mut handed = handed(&generate::valid(rng), rng.below(9));
        generate::spoil(rng, &mut handed);
        let questions: Vec<_> = (0..20).map(|_| generate::question(rng, &handed)).collect();
        check_lookups("lookups in spoiled tables", seed, &handed, &questions, &mut tallies);
    });
    for tally in tallies {
        require("lookups in spoiled tables", &tally, &[0, 13, 14]);
    }
}

#[test]
fn lookups_in_random_tables() {
    let mut tallies = [Tally::default(); 4];
    seeds("lookups in random tables", 300_000, 15, |seed| {
        let rng = &mut Rng::new(seed + 4_000_000);
        let handed = generate::junk(rng);
        let questions: Vec<_> = (0..12).map(|_| generate::question(rng, &handed)).collect();
        check_lookups("lookups in random tables", seed, &handed, &questions, &mut tallies);
    });
    for tally in tallies {
        require("lookups in random tables", &tally, &[0, 13, 14]);
    }
}

//! Times reading and writing beside a plain copy of the same bytes, and lookups,
//! indexes, columns, layouts and numbers.
//!
//! `tackturnel-bench [case ...]` prints a table, each figure the best of
//! several runs in MB/s, a megabyte being 1,000,000 bytes.
//! `tackturnel-bench --numbers [case ...]` prints the time of a number beside that
//! of C's `strtod` on the same texts.
//! `tackturnel-bench --lookups [case ...]` prints the time of a name's lookup, and
//! of each name row that it passes.
//! `tackturnel-bench --indexes [case ...]` prints of a name the time to read it, to
//! read and build an index, to read and check it, and of its lookup through the index
//! and without it.
//! `tackturnel-bench --columns [case ...]` prints the time of a value of a column:
//! to read it, to come to it by its link, to ask for it by its number.
//! `tackturnel-bench --layouts [case ...]` prints how fast the same save frames are read
//! in today's layout and in that of 1991, written, and converted from either, in MB/s.
//! `tackturnel-bench --list` prints the cases, `--list numbers` those of numbers,
//! `--list lookups` those of lookups, `--list indexes` those of indexes, `--list
//! columns` those of columns, `--list layouts` those of layouts.
//! `tackturnel-bench --once case read|write|fits_32|drop_header_stops` makes everything
//! ready and makes one call, for counting its instructions; it prints the file's bytes.
//! `tackturnel-bench --once numbers-case number_of` makes one call for each text
//! and prints how many there are.
//! `tackturnel-bench --once lookup-case find_name` looks up each name of a case of
//! 1,000 names and each 100th of one of 30,000, and prints how many that are.
//! `tackturnel-bench --once index-case index_build|index_check|index_find|find_name`
//! builds an index, checks it or looks names up through it or without it, and prints
//! for how many names.
//! `tackturnel-bench --once column-case read|walk|value_part` reads a column, walks
//! down it or asks for each 1,000th of its values, and prints how many that are.
//! `tackturnel-bench --once layout-case read|read_1991|write|convert|convert_1991` makes
//! one call, on the file of 1991 where its name says so, and prints the file's bytes.

#![deny(unsafe_code)]

mod cases;
mod columns;
mod indexes;
mod layouts;
mod lookups;
mod numbers;
#[allow(unsafe_code)]
mod strtod;

use std::hint::black_box;
use std::time::{Duration, Instant};
use std::{env, process};

use cases::{Case, CASES};
use tackturnel::{raw, star, TablesMut};
use tackturnel_tests_support::reference::{self, Layout};

/// A file of a layout and what is lent to read and write it, no larger than it needs.
struct Ready {
    file: Vec<u8>,
    layout: u32,
    tables: [Vec<u32>; 5],
    out: Vec<u8>,
}

impl Ready {
    /// A file of today's layout.
    fn new(file: Vec<u8>) -> Self {
        Ready::of(file, raw::STAR_LAYOUT_TODAY)
    }

    /// Room for a file of a layout, found without a call of the library.
    fn of(file: Vec<u8>, layout: u32) -> Self {
        let tokens = reference::tokens(&file).expect("the file splits into tokens");
        let needed = reference::words_needed_as(&file, Layout::of(layout).expect("a layout"));
        let tables = needed.map(|words| vec![1; words]);
        let out = vec![1; reference::plain_form(&file, &tokens).len()];
        Ready { file, layout, tables, out }
    }

    fn tokens(&self) -> usize {
        self.tables[0].len() / 3
    }

    fn read(&mut self) {
        let tables = TablesMut::of(&mut self.tables);
        let reading = star::read(black_box(&self.file), self.layout, tables);
        assert_eq!(reading.refusal, 0, "refused at {}", reading.place);
        black_box(&self.tables);
    }

    fn write(&mut self) {
        let tables = TablesMut::of(&mut self.tables);
        let written = star::write(black_box(&self.file), tables, &mut self.out);
        assert_eq!(written.refusal, 0, "refused at {}", written.place);
        black_box(&self.out);
    }

    fn fits_32(&mut self) {
        let checked = star::fits_32(black_box(&self.file), TablesMut::of(&mut self.tables));
        assert_eq!(checked.refusal, 0, "refused at {}", checked.place);
        black_box(&self.tables);
    }

    fn drop_header_stops(&mut self) {
        let tables = TablesMut::of(&mut self.tables);
        let written = star::drop_header_stops(black_box(&self.file), tables, &mut self.out);
        assert_eq!(written.refusal, 0, "refused at {}", written.place);
        black_box(&self.out);
    }

    fn copy(&mut self, to: &mut [u8]) {
        to.copy_from_slice(black_box(&self.file));
        black_box(to);
    }
}

/// The best time of a call, which is made for half a second and up to 200 times.
fn best(mut call: impl FnMut()) -> Duration {
    let until = Instant::now() + Duration::from_millis(500);
    let mut best = Duration::MAX;
    for run in 0..200 {
        if run > 0 && Instant::now() > until {
            break;
        }
        let start = Instant::now();
        call();
        best = best.min(start.elapsed());
    }
    best
}

fn time(case: Case) {
    let (name, make) = case;
    let mut ready = Ready::new(make());
    let (bytes, tokens) = (ready.file.len(), ready.tokens());
    let mut copy = vec![1; bytes];
    let copied = best(|| ready.copy(&mut copy));
    let read = best(|| ready.read());
    let written = best(|| ready.write());
    let speed = |time: Duration| bytes as f64 / 1e6 / time.as_secs_f64();
    println!(
        "{name:<12} {bytes:>9} {tokens:>8} {:>10.2} {:>10.2} {:>10.0} {:>12.0}",
        speed(read),
        speed(written),
        speed(copied),
        read.as_secs_f64() / copied.as_secs_f64()
    );
}

fn once(case: Case, call: &str) {
    let mut ready = Ready::new(case.1());
    match call {
        "read" => ready.read(),
        "write" => ready.write(),
        "fits_32" => ready.fits_32(),
        "drop_header_stops" => ready.drop_header_stops(),
        _ => fail(&format!("no such call: {call}")),
    }
    println!("{}", ready.file.len());
}

fn fail(message: &str) -> ! {
    eprintln!("{message}");
    process::exit(2)
}

fn named(name: &str) -> Case {
    let case = CASES.into_iter().find(|case| case.0 == name);
    case.unwrap_or_else(|| fail(&format!("no such case: {name}")))
}

fn main() {
    let arguments: Vec<String> = env::args().skip(1).collect();
    let arguments: Vec<&str> = arguments.iter().map(String::as_str).collect();
    match arguments[..] {
        ["--list"] => CASES.iter().for_each(|case| println!("{}", case.0)),
        ["--list", "numbers"] => numbers::CASES.iter().for_each(|case| println!("{}", case.0)),
        ["--list", "lookups"] => lookups::CASES.iter().for_each(|case| println!("{}", case.name)),
        ["--list", "indexes"] => indexes::CASES.iter().for_each(|case| println!("{}", case.name)),
        ["--list", "columns"] => columns::CASES.iter().for_each(|case| println!("{}", case.0)),
        ["--list", "layouts"] => layouts::CASES.iter().for_each(|case| println!("{}", case.0)),
        ["--numbers", ref names @ ..] => numbers::times(names),
        ["--lookups", ref names @ ..] => lookups::times(names),
        ["--indexes", ref names @ ..] => indexes::times(names),
        ["--columns", ref names @ ..] => columns::times(names),
        ["--layouts", ref names @ ..] => layouts::times(names),
        ["--once", name, call] if name.starts_with("index-") => indexes::once(name, call),
        ["--once", name, "number_of"] => numbers::once(name),
        ["--once", name, "find_name"] => lookups::once(name),
        ["--once", name, call] if name.starts_with("column-") => columns::once(name, call),
        ["--once", name, call] if name.starts_with("layout-") => layouts::once(name, call),
        ["--once", name, call] => once(named(name), call),
        _ => {
            let chosen: Vec<Case> = match arguments.is_empty() {
                true => CASES.to_vec(),
                false => arguments.into_iter().map(named).collect(),
            };
            println!(
                "{:<12} {:>9} {:>8} {:>10} {:>10} {:>10} {:>12}",
                "case", "bytes", "tokens", "read MB/s", "write MB/s", "copy MB/s", "read / copy"
            );
            chosen.into_iter().for_each(time);
        }
    }
}

//! The time of a value of one long column: to read it, to come to it by its link, and
//! to ask for it by its number.

use std::hint::black_box;

use tackturnel::{raw, star, Counts, Tables, TablesMut};

use crate::{best, fail, Ready};

/// The values of the column.
const VALUES: usize = 150_000;

/// The value that is asked for by its number is one of so many, since the k-th is
/// found over k - 1 links.
const ONE_OF: usize = 1_000;

/// A name to call a case by, and the call whose instructions are counted.
pub type Case = (&'static str, &'static str);

/// All cases, each of the same file.
pub const CASES: [Case; 3] =
    [("column-read", "read"), ("column-links", "walk"), ("column-k", "value_part")];

/// A loop of one column of short numbers.
fn file() -> Vec<u8> {
    let value = |number: usize| format!("{}.{}\n", 100 + number % 900, number / 900 % 10);
    let values: String = (0..VALUES).map(value).collect();
    format!("data_column\nloop_\n_value\n{values}").into_bytes()
}

/// The file as it was read.
struct Read {
    file: Vec<u8>,
    tables: [Vec<u32>; 5],
    counts: Counts,
}

impl Read {
    fn new() -> Self {
        let file = file();
        let mut tables = star::room(file.len()).map(|words| vec![0; words]);
        let reading = star::read(&file, raw::STAR_LAYOUT_TODAY, TablesMut::of(&mut tables));
        assert_eq!((reading.refusal, reading.values as usize), (0, VALUES));
        Read { file, tables, counts: reading.counts() }
    }

    /// Walks down the column by its links; answers how many values that are.
    fn walk(&self) -> usize {
        let (values, bytes) = walk(black_box(Tables::of(&self.tables)), self.counts, 1);
        assert_eq!((values, bytes), (VALUES, VALUES * "100.0".len()));
        values
    }

    /// Asks for one of so many values, the middle one, by its number; answers how many
    /// that are.
    fn ask(&self, one_of: usize) -> usize {
        let tables = black_box(Tables::of(&self.tables));
        let numbers = (1..=VALUES).skip(one_of / 2).step_by(one_of);
        let ask = |k: usize| {
            let part = star::value_part(&self.file, tables, self.counts, 1, k as u32);
            assert_eq!(part.len(), "100.0".len(), "value {k}");
        };
        numbers.map(ask).count()
    }
}

/// How many values a name row has and how many bytes they have, by the links of the
/// value rows and by the token rows, as include/star.h shows it.
#[inline(never)]
pub fn walk(tables: Tables<'_>, counts: Counts, name_row: u32) -> (usize, usize) {
    let (tokens, _) = tables.tokens.as_chunks::<{ raw::STAR_TOKENS_WIDTH }>();
    let (values, _) = tables.values.as_chunks::<{ raw::STAR_VALUES_WIDTH }>();
    let mut names = values[..counts.values as usize].iter().map(|value| value[0]);
    let mut row = names.position(|name| name == name_row).map_or(0, |at| at as u32 + 1);
    let (mut count, mut bytes) = (0, 0);
    while row != 0 {
        let value = &values[row as usize - 1];
        let token = &tokens[value[2] as usize - 1];
        count += 1;
        bytes += (token[2] - token[1]) as usize;
        row = value[raw::STAR_VALUES_WIDTH - 1];
    }
    (count, bytes)
}

fn named(name: &str) -> Case {
    let case = CASES.into_iter().find(|case| case.0 == name);
    case.unwrap_or_else(|| fail(&format!("no such case: {name}")))
}

fn time(case: Case) {
    let (name, call) = case;
    let (time, values) = match call {
        "read" => {
            let mut ready = Ready::new(file());
            (best(|| ready.read()), VALUES)
        }
        "walk" => {
            let read = Read::new();
            let walk = || {
                black_box(read.walk());
            };
            (best(walk), VALUES)
        }
        _ => {
            let read = Read::new();
            let ask = || {
                black_box(read.ask(ONE_OF));
            };
            (best(ask), VALUES / ONE_OF)
        }
    };
    println!("{name:<17} {values:>9} {:>15.1}", time.as_secs_f64() * 1e9 / values as f64);
}

/// Prints the table of these cases, or of all where none is named.
pub fn times(names: &[&str]) {
    let chosen: Vec<Case> = match names.is_empty() {
        true => CASES.to_vec(),
        false => names.iter().map(|name| named(name)).collect(),
    };
    println!("{:<17} {:>9} {:>15}", "case", "values", "ns/value");
    chosen.into_iter().for_each(time);
}

/// Makes the calls of a case; prints for how many values.
pub fn once(name: &str, call: &str) {
    let values = match call {
        _ if named(name).1 != call => fail(&format!("no such call: {call}")),
        "read" => {
            Ready::new(file()).read();
            VALUES
        }
        "walk" => Read::new().walk(),
        _ => Read::new().ask(ONE_OF),
    };
    println!("{values}");
}

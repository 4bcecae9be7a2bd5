//! The cost of an index beside the names: to build it, to check it, and to look names up
//! through it and without it.

use std::hint::black_box;
use std::time::Duration;

use tackturnel::{index, raw, star, Counts, Tables, TablesMut};
use tackturnel_tests_support::generate::indexes::most_names;
use tackturnel_tests_support::{reference, MOST_BYTES};

use crate::cases::aniso_name;
use crate::{best, fail};

/// A file of names in one data block, and the slots of its index.
#[derive(Clone, Copy)]
pub struct Case {
    /// To call it by.
    pub name: &'static str,
    /// The making of the file.
    file: fn() -> Vec<u8>,
    /// How many slots there are for so many names.
    slots: fn(usize) -> usize,
    /// Where instructions are counted, one of so many names is looked up through the slots.
    find_one_of: usize,
    /// And one of so many without them.
    plain_one_of: usize,
}

/// Twice as many slots as names.
fn twice(names: usize) -> usize {
    2 * names
}

/// As few slots as may be.
fn one_more(names: usize) -> usize {
    names + 1
}

/// Single items, names that differ in their last bytes alone.
fn items(count: usize) -> Vec<u8> {
    let items: String = (0..count).map(|number| aniso_name(number) + " 1\n").collect();
    format!("data_index\n{items}").into_bytes()
}

const fn case(
    name: &'static str,
    file: fn() -> Vec<u8>,
    slots: fn(usize) -> usize,
    [find_one_of, plain_one_of]: [usize; 2],
) -> Case {
    Case { name, file, slots, find_one_of, plain_one_of }
}

/// All cases: three numbers of names and the largest file with as many as fit, each with
/// twice as many slots as names, then with one more.
pub const CASES: [Case; 8] = [
    case("index-1k", || items(1_000), twice, [1, 1]),
    case("index-10k", || items(10_000), twice, [1, 10]),
    case("index-30k", || items(30_000), twice, [1, 100]),
    case("index-most", || most_names(MOST_BYTES), twice, [1, 10_000]),
    case("index-1k-full", || items(1_000), one_more, [1, 1]),
    case("index-10k-full", || items(10_000), one_more, [1, 10]),
    case("index-30k-full", || items(30_000), one_more, [1, 100]),
    case("index-most-full", || most_names(MOST_BYTES), one_more, [100, 10_000]),
];

/// The file of a case, what is lent to read it, no larger than it needs, and its names.
struct Ready {
    file: Vec<u8>,
    tables: [Vec<u32>; 5],
    counts: Counts,
    slots: Vec<u32>,
    names: Vec<Vec<u8>>,
}

impl Ready {
    /// With the index built.
    fn new(case: Case) -> Self {
        let file = (case.file)();
        let (reading, tables) = reference::read(&file, reference::words_needed(&file));
        assert_eq!(reading.refusal, 0, "refused at {}", reading.place);
        let content = |row: &[u32]| {
            let token = &tables[0][3 * (row[1] as usize - 1)..];
            file[token[1] as usize..token[2] as usize].to_vec()
        };
        let names: Vec<Vec<u8>> = tables[2].chunks(4).map(content).collect();
        let slots = vec![1; (case.slots)(names.len())];
        let mut ready = Ready { file, tables, counts: reading.counts(), slots, names };
        ready.build();
        ready
    }

    fn read(&mut self) {
        let tables = TablesMut::of(&mut self.tables);
        let reading = star::read(black_box(&self.file), raw::STAR_LAYOUT_TODAY, tables);
        assert_eq!(reading.refusal, 0, "refused at {}", reading.place);
        black_box(&self.tables);
    }

    fn build(&mut self) {
        let tables = TablesMut::of(&mut self.tables);
        let reading = index::build(black_box(&self.file), tables, &mut self.slots);
        assert_eq!(reading.refusal, 0, "refused at {}", reading.place);
        black_box(&self.slots);
    }

    fn check(&mut self) {
        let tables = TablesMut::of(&mut self.tables);
        let reading = index::check(black_box(&self.file), tables, &self.slots);
        assert_eq!(reading.refusal, 0, "refused at {}", reading.place);
        black_box(&self.tables);
    }

    /// Looks up one of so many names, the middle one; answers how many that are.
    fn look(&self, one_of: usize, find: impl Fn(Tables<'_>, &[u8]) -> u32) -> usize {
        let tables = black_box(Tables::of(&self.tables));
        let chosen = self.names.iter().enumerate().skip(one_of / 2).step_by(one_of);
        let look = |(at, name): (usize, &Vec<u8>)| {
            assert_eq!(find(tables, name) as usize, at + 1, "name row {}", at + 1);
        };
        chosen.map(look).count()
    }

    /// Through the slots.
    fn find(&self, one_of: usize) -> usize {
        let (file, counts) = (&self.file, self.counts);
        self.look(one_of, |tables, name| {
            index::find(file, tables, counts, &self.slots, 1, name).row
        })
    }

    /// Without them.
    fn find_plain(&self, one_of: usize) -> usize {
        let (file, counts) = (&self.file, self.counts);
        self.look(one_of, |tables, name| star::find_name(file, tables, counts, 1, name).row)
    }
}

fn named(name: &str) -> Case {
    let case = CASES.into_iter().find(|case| case.name == name);
    case.unwrap_or_else(|| fail(&format!("no such case: {name}")))
}

fn time(case: Case) {
    let mut ready = Ready::new(case);
    let names = ready.names.len();
    let read = best(|| ready.read());
    let build = best(|| ready.build());
    let check = best(|| ready.check());
    let each = |time: Duration, count: usize| time.as_secs_f64() * 1e9 / count as f64;
    let mut looked = 0;
    let find = best(|| looked = ready.find(1));
    let find = each(find, looked);
    // every name, but for a file of which that would take minutes
    let plain_one_of = if names <= 30_000 { 1 } else { case.plain_one_of };
    let plain = best(|| looked = ready.find_plain(plain_one_of));
    let plain = each(plain, looked);
    println!(
        "{:<17} {names:>9} {:>9} {:>9.1} {:>9.1} {:>9.1} {find:>10.1} {plain:>10.1}",
        case.name,
        ready.slots.len(),
        each(read, names),
        each(build, names),
        each(check, names),
    );
}

/// Prints the table of these cases, or of all where none is named.
pub fn times(names: &[&str]) {
    let chosen: Vec<Case> = match names.is_empty() {
        true => CASES.to_vec(),
        false => names.iter().map(|name| named(name)).collect(),
    };
    println!(
        "{:<17} {:>9} {:>9} {:>9} {:>9} {:>9} {:>10} {:>10}",
        "case", "names", "slots", "read", "build", "check", "ns/lookup", "plain"
    );
    chosen.into_iter().for_each(time);
}

/// Makes one call of a case, or its lookups; prints for how many names.
pub fn once(name: &str, call: &str) {
    let case = named(name);
    let mut ready = Ready::new(case);
    let names = match call {
        "index_find" => ready.find(case.find_one_of),
        "find_name" => ready.find_plain(case.plain_one_of),
        "index_check" => {
            ready.check();
            ready.names.len()
        }
        // made already
        "index_build" => ready.names.len(),
        _ => fail(&format!("no such call: {call}")),
    };
    println!("{names}");
}

//! The cost of the two layouts: the same save frames closed by `save_` and by `stop_`, read,
//! written and converted.

use std::hint::black_box;

use tackturnel::{raw, star, TablesMut};
use tackturnel_tests_support::generate::layouts::of_1991;

use crate::cases::{filled, frames};
use crate::{best, fail, Ready};

/// A name to call a case by, and the making of its file in today's layout.
pub type Case = (&'static str, fn() -> Vec<u8>);

/// All cases: frames of single items, of a flat loop, and of a loop with an inner level.
pub const CASES: [Case; 3] = [
    ("layout-items", || frames(1_000_000)),
    ("layout-loops", || loops(1_000_000)),
    ("layout-nested", || nested(1_000_000)),
];

/// Save frames of a loop of two columns.
fn loops(bytes: usize) -> Vec<u8> {
    filled("data_loops\n", bytes, |number| {
        format!("save_f{number:05} loop_ _atom _charge C 0.12 N -0.31 O -0.40 save_\n")
    })
}

/// Save frames of atoms and the atoms' bonds.
fn nested(bytes: usize) -> Vec<u8> {
    filled("data_nested\n", bytes, |number| {
        let atoms = "1 2 single 3 double stop_ 2 1 single stop_ 3 stop_";
        format!("save_f{number:05} loop_ _atom loop_ _bond_to _bond_order {atoms} save_\n")
    })
}

/// The calls that are measured; those that end in 1991 are on the file of 1991.
const CALLS: [&str; 5] = ["read", "read_1991", "write", "convert", "convert_1991"];

/// A file of each layout, with what is lent to read, write and convert it.
struct Both {
    today: Ready,
    of_1991: Ready,
}

impl Both {
    fn new(case: Case) -> Self {
        let today = case.1();
        let of_1991 = Ready::of(of_1991(&today), raw::STAR_LAYOUT_1991);
        Both { today: Ready::new(today), of_1991 }
    }

    /// Makes one call.
    fn call(&mut self, call: &str) {
        match call {
            "read" => self.today.read(),
            "read_1991" => self.of_1991.read(),
            "write" => self.today.write(),
            "convert" => convert(&mut self.today),
            "convert_1991" => convert(&mut self.of_1991),
            _ => fail(&format!("no such call: {call}")),
        }
    }
}

/// Converts a file to the other layout.
fn convert(ready: &mut Ready) {
    let tables = TablesMut::of(&mut ready.tables);
    let written = star::convert(black_box(&ready.file), ready.layout, tables, &mut ready.out);
    assert_eq!(written.refusal, 0, "refused at {}", written.place);
    black_box(&ready.out);
}

fn named(name: &str) -> Case {
    let case = CASES.into_iter().find(|case| case.0 == name);
    case.unwrap_or_else(|| fail(&format!("no such case: {name}")))
}

fn time(case: Case) {
    let mut both = Both::new(case);
    let bytes = both.today.file.len();
    print!("{:<17} {bytes:>9} {:>8}", case.0, both.today.tokens());
    for call in CALLS {
        let time = best(|| both.call(call));
        print!(" {:>12.2}", bytes as f64 / 1e6 / time.as_secs_f64());
    }
    println!();
}

/// Prints the table of these cases, or of all where none is named.
pub fn times(names: &[&str]) {
    let chosen: Vec<Case> = match names.is_empty() {
        true => CASES.to_vec(),
        false => names.iter().map(|name| named(name)).collect(),
    };
    let calls: String = CALLS.iter().map(|call| format!(" {call:>12}")).collect();
    println!("{:<17} {:>9} {:>8}{calls}", "case", "bytes", "tokens");
    chosen.into_iter().for_each(time);
}

/// Makes one call of a case; prints the file's bytes.
pub fn once(name: &str, call: &str) {
    let mut both = Both::new(named(name));
    both.call(call);
    println!("{}", both.today.file.len());
}

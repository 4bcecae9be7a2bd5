//! The time of looking a name up, and of each name row that it passes.

use std::hint::black_box;

use tackturnel::{raw, star, Counts, Tables, TablesMut};

use crate::cases::aniso_name;
use crate::numbers::scattered;
use crate::{best, fail};

/// Single items whose names are looked up from a data block.
#[derive(Clone, Copy)]
pub struct Case {
    /// To call it by.
    pub name: &'static str,
    /// How many names there are.
    names: usize,
    /// How many global blocks stand before the data block, the first of them with
    /// the names and the others empty; 0 where it has the names itself.
    globals: usize,
    /// Where the calls are counted, one of so many names is looked up.
    one_of: usize,
    /// The making of a name by number.
    make: fn(usize) -> String,
}

/// All cases: names that differ in their last bytes alone, then names of various
/// lengths and first parts, then the first thousand in a global block.
pub const CASES: [Case; 6] = [
    Case { name: "lookup-1k", names: 1_000, globals: 0, one_of: 1, make: aniso_name },
    Case { name: "lookup-30k", names: 30_000, globals: 0, one_of: 100, make: aniso_name },
    Case { name: "lookup-mixed-1k", names: 1_000, globals: 0, one_of: 1, make: mixed_name },
    Case { name: "lookup-mixed-30k", names: 30_000, globals: 0, one_of: 100, make: mixed_name },
    Case { name: "lookup-global-1", names: 1_000, globals: 1, one_of: 1, make: aniso_name },
    Case { name: "lookup-global-10", names: 1_000, globals: 10, one_of: 1, make: aniso_name },
];

/// _cell_17, _refln_4_meas, _exptl_crystal_29999_sigma
fn mixed_name(number: usize) -> String {
    const FIRST: [&str; 8] = [
        "_cell_",
        "_atom_site_",
        "_refln_",
        "_diffrn_",
        "_symmetry_",
        "_publ_",
        "_chemical_formula_",
        "_exptl_crystal_",
    ];
    const LAST: [&str; 5] = ["", "_h", "_max", "_meas", "_sigma"];
    let first = FIRST[scattered(number, FIRST.len())];
    format!("{first}{number}{}", LAST[scattered(number ^ 0x5555, LAST.len())])
}

/// The names of a case, and the file that has them with its tables.
struct Ready {
    names: Vec<String>,
    file: Vec<u8>,
    tables: [Vec<u32>; 5],
    counts: Counts,
}

impl Ready {
    fn new(case: Case) -> Self {
        let names: Vec<String> = (0..case.names).map(case.make).collect();
        let items: String = names.iter().map(|name| format!("{name} 1\n")).collect();
        let file = match case.globals {
            0 => format!("data_lookup\n{items}"),
            _ => format!("global_\n{items}{}data_lookup\n", "global_\n".repeat(case.globals - 1)),
        };
        let file = file.into_bytes();
        let mut tables = star::room(file.len()).map(|words| vec![0; words]);
        let reading = star::read(&file, raw::STAR_LAYOUT_TODAY, TablesMut::of(&mut tables));
        assert_eq!(reading.refusal, 0, "refused at {}", reading.place);
        Ready { names, file, tables, counts: reading.counts() }
    }

    /// Looks up one of so many names, the middle one; answers how many that are.
    fn find(&self, one_of: usize) -> usize {
        let (file, tables) = (black_box(&self.file), Tables::of(&self.tables));
        // the data block, which stands last
        let set = self.counts.sets;
        let mut count = 0;
        for (at, name) in self.names.iter().enumerate().skip(one_of / 2).step_by(one_of) {
            let found = star::find_name(file, tables, self.counts, set, name.as_bytes());
            assert_eq!(found.row as usize, at + 1, "{name}");
            count += 1;
        }
        count
    }
}

fn named(name: &str) -> Case {
    let case = CASES.into_iter().find(|case| case.name == name);
    case.unwrap_or_else(|| fail(&format!("no such case: {name}")))
}

fn time(case: Case) {
    let ready = Ready::new(case);
    let time = best(|| {
        black_box(ready.find(1));
    });
    // the lookup of the i-th name of the data block passes i rows, that of a global
    // block all rows for the data block and again for the global blocks before it
    let rows = match case.globals {
        0 => case.names * (case.names + 1) / 2,
        _ => 2 * case.names * case.names,
    };
    let each = |count: usize| time.as_secs_f64() * 1e9 / count as f64;
    println!("{:<17} {:>9} {:>15.1} {:>15.3}", case.name, case.names, each(case.names), each(rows));
}

/// Prints the table of these cases, or of all where none is named.
pub fn times(names: &[&str]) {
    let chosen: Vec<Case> = match names.is_empty() {
        true => CASES.to_vec(),
        false => names.iter().map(|name| named(name)).collect(),
    };
    println!("{:<17} {:>9} {:>15} {:>15}", "case", "names", "ns/lookup", "ns/row");
    chosen.into_iter().for_each(time);
}

/// Looks up the names of a case whose calls are counted; prints how many.
pub fn once(name: &str) {
    let case = named(name);
    println!("{}", Ready::new(case).find(case.one_of));
}

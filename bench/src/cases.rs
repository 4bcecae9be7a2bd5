//! The files that are measured.

use tackturnel_tests_support::generate::twins::{bucket, four_between, hash, hashed, pairs, Sort};

/// A name to call a case by, and the making of its file.
pub type Case = (&'static str, fn() -> Vec<u8>);

/// All cases: five sorts of a million bytes, then names and codes that are
/// compared with one another, in growing numbers and of each sort.
pub const CASES: [Case; 15] = [
    ("loop", || numbers(1_000_000)),
    ("items", || items(1_000_000)),
    ("items-values", || items_as_values(1_000_000)),
    ("text", || text(1_000_000)),
    ("nested", || nested(1_000_000)),
    ("items-10k", || items(10_000)),
    ("items-100k", || items(100_000)),
    ("aniso", || aniso(1_000_000)),
    ("header", || header(1_000_000)),
    ("frames", || frames(1_000_000)),
    ("blocks", || blocks(1_000_000)),
    ("globals", || globals(1_000_000)),
    ("bucket-100k", || one_bucket(100_000)),
    ("bucket", || one_bucket(1_000_000)),
    ("twins-100k", || twins(100_000)),
];

/// A head and then pieces by number, up to about so many bytes.
pub fn filled(head: &str, bytes: usize, piece: impl Fn(usize) -> String) -> Vec<u8> {
    let mut file = head.to_owned();
    for number in 0.. {
        let piece = piece(number);
        if file.len() + piece.len() > bytes {
            break;
        }
        file.push_str(&piece);
    }
    file.into_bytes()
}

/// A loop of six columns of numbers: reflections.
fn numbers(bytes: usize) -> Vec<u8> {
    let head = "data_loop\nloop_\n_refln_h\n_refln_k\n_refln_l\n_refln_F2_calc\n_refln_F2_meas\n_refln_F2_sigma\n";
    filled(head, bytes, |number| {
        let (h, k, l) = (number % 37, number / 37 % 41, number / 1517);
        let (calc, meas) = (number * 7919 % 99_991, number * 7907 % 99_991);
        let (sigma, h) = (number * 31 % 997, h as i64 - 18);
        format!(
            "{h} {k} {l} {}.{:02} {}.{:02} {}.{:02}\n",
            calc / 100,
            calc % 100,
            meas / 100,
            meas % 100,
            sigma / 100,
            sigma % 100
        )
    })
}

/// Single items, some 35,000 in a million bytes, their names unique.
fn items(bytes: usize) -> Vec<u8> {
    filled("data_items\n", bytes, |number| {
        format!("_item_name_{number:08} {}.25\n", 1000 + number % 9000)
    })
}

/// The bytes of those items as the values of a loop.
fn items_as_values(bytes: usize) -> Vec<u8> {
    let items = String::from_utf8(items(bytes)).expect("names and numbers are ASCII");
    let lines = items.split_once('\n').map_or("", |(_, lines)| lines);
    format!("data_items\nloop_\n_value\n{}", lines.replace('_', ".")).into_bytes()
}

/// Text fields of some twenty lines each.
fn text(bytes: usize) -> Vec<u8> {
    let line = "The crystal was mounted in a loop; its faces (#1 to #6) are 'well formed'.\n";
    let head = "data_text\nloop_\n_remark\n";
    filled(head, bytes, |number| format!(";remark {number}\n{}\n;\n", line.repeat(20)))
}

/// Loops nested three deep: molecules, their atoms, the atoms' bonds.
fn nested(bytes: usize) -> Vec<u8> {
    let head =
        "data_nested\nloop_\n_molecule\nloop_\n_atom\n_symbol\nloop_\n_bond_to\n_bond_order\n";
    filled(head, bytes, |number| {
        let mut molecule = format!("mol{number}\n");
        for atom in 0..6 {
            let bonds = format!("{} single {} double", (atom + 1) % 6, (atom + 5) % 6);
            molecule += &format!("  {atom} C {bonds} stop_\n");
        }
        molecule + "stop_\n"
    })
}

/// Single items whose names are of one length and share all but their last bytes.
fn aniso(bytes: usize) -> Vec<u8> {
    filled("data_aniso\n", bytes, |number| {
        format!("{} 0.0{}\n", aniso_name(number), 100 + number % 900)
    })
}

/// A name of 24 bytes, 19 of them common to all.
pub fn aniso_name(number: usize) -> String {
    format!("_atom_site_aniso_U_{number:05}")
}

/// One loop of many names, and one packet.
fn header(bytes: usize) -> Vec<u8> {
    let name = |number: usize| format!("_column_name_{number:08}\n");
    let value = "1\n";
    let count = bytes / (name(0).len() + value.len());
    let names: String = (0..count).map(name).collect();
    format!("data_header\nloop_\n{names}{}", value.repeat(count)).into_bytes()
}

/// Save frames of three names.
pub fn frames(bytes: usize) -> Vec<u8> {
    let frame = |number: usize| format!("save_f{number:05} _x 1 _y 2 _z 3 save_\n");
    filled("data_frames\n", bytes, frame)
}

/// Data blocks of one name.
fn blocks(bytes: usize) -> Vec<u8> {
    filled("", bytes, |number| format!("data_b{number:05} _x 1\n"))
}

/// Global blocks of one name.
fn globals(bytes: usize) -> Vec<u8> {
    filled("", bytes, |number| format!("global_ _x {number:05}\n"))
}

/// A single item, the bytes of its name being a head and an end.
fn item(head: &str, end: &[u8]) -> String {
    let end: String = end.iter().map(|&byte| byte as char).collect();
    format!("{head}{end} 1\n")
}

/// Single items whose names all lie in one bucket.
fn one_bucket(bytes: usize) -> Vec<u8> {
    filled("data_bucket\n", bytes, |number| {
        let name = format!("_n{number:07}");
        let hash = hash(Sort::BlockName, name.as_bytes());
        // two bytes more lead to bucket 0
        let end = pairs().find(|end| bucket(hashed(hash, end)) == 0);
        end.map_or(String::new(), |end| item(&name, &end))
    })
}

/// Single items whose names all have the same hash and the same last byte, as long
/// as those of one bucket.
fn twins(bytes: usize) -> Vec<u8> {
    filled("data_twins\n", bytes, |number| {
        let name = format!("_t{number:04}");
        let hash = hash(Sort::BlockName, name.as_bytes());
        // four bytes more lead to hash 0, from which the last goes on
        let end = four_between(hash, 0, pairs());
        end.map_or(String::new(), |[a, b, c, d]| item(&name, &[a, b, c, d, b'x']))
    })
}

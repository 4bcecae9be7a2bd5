//! The index beside the names, written from the specification alone: its hash, what it
//! is, how it is built, and lookup through slots that are not trusted.

use tackturnel::{Counts, Found, Reading, Tables};

use crate::reference::{
    compare, counts_hold, own_or_global, padded, read, refused, token_part, within, Refusal,
};

/// 32-bit FNV-1a.
pub fn fnv_1a(bytes: impl IntoIterator<Item = u8>) -> u32 {
    let mut hash: u64 = 2_166_136_261;
    for byte in bytes {
        hash = (hash ^ u64::from(byte)) * 16_777_619 % (1 << 32);
    }
    hash as u32
}

/// The home of a name of a set among so many slots, which are not 0: the hash of the four
/// bytes of the set's number, lowest first, and the name, modulo the slots.
pub fn home(slots: usize, set: u32, name: &[u8]) -> usize {
    let bytes = [0, 8, 16, 24].map(|shift| (set >> shift) as u8);
    fnv_1a(bytes.into_iter().chain(name.iter().copied())) as usize % slots
}

/// The homes of the name rows of a reading among so many slots.
fn homes(file: &[u8], tables: &[Vec<u32>; 5], counts: Counts, slots: usize) -> Vec<usize> {
    let of = |row: &[u32]| {
        let (_, start, end) =
            token_part(file, Tables::of(tables), counts, row[1]).expect("a reading's own token");
        home(slots, row[0], &file[start..end])
    };
    tables[2].chunks_exact(4).take(counts.names as usize).map(of).collect()
}

/// The slots from a home to a row's own, round the end if needed.
fn from_home(slots: usize, home: usize, own: usize) -> impl Iterator<Item = usize> {
    let steps = (own + slots - home) % slots;
    (0..=steps).map(move |step| (home + step) % slots)
}

/// What an index is refused for: not more slots than names, a name row that is not in
/// just one slot, another number, a 0 between a row's home and its own slot.
pub type Faults = [bool; 4];

/// Which of the four conditions slots fail, for a file that is accepted with these tables.
pub fn faults(file: &[u8], tables: &[Vec<u32>; 5], counts: Counts, slots: &[u32]) -> Faults {
    let names = counts.names;
    let mut times = vec![0u32; names as usize + 1];
    let mut other = false;
    for &row in slots {
        match times.get_mut(row as usize) {
            Some(times) => *times += 1,
            None => other = true,
        }
    }
    let gap = !slots.is_empty() && {
        let homes = homes(file, tables, counts, slots.len());
        let zero_between =
            |home, own| from_home(slots.len(), home, own).any(|slot| slots[slot] == 0);
        let fails = |(own, &row): (usize, &u32)| {
            within(row, names) && zero_between(homes[row as usize - 1], own)
        };
        slots.iter().enumerate().any(fails)
    };
    [slots.len() <= names as usize, times[1..].iter().any(|&times| times != 1), other, gap]
}

/// The slots in which these name rows stand after they were put there in order, each in
/// the first 0 from its home.
pub fn filled(
    file: &[u8],
    tables: &[Vec<u32>; 5],
    counts: Counts,
    slots: usize,
    rows: impl IntoIterator<Item = u32>,
) -> Vec<u32> {
    let homes = homes(file, tables, counts, slots);
    let mut index = vec![0; slots];
    for row in rows {
        let home = homes[row as usize - 1];
        let free = (home..home + slots).map(|at| at % slots).find(|&at| index[at] == 0);
        index[free.expect("more slots than names")] = row;
    }
    index
}

/// What is answered and left in tables of these lengths where an accepted reading is
/// refused all the same.
fn refused_after(room: [usize; 5], number: u32, place: usize) -> (Reading, [Vec<u32>; 5]) {
    (refused(Refusal { number, place }), padded(Default::default(), room))
}

/// Reads a file into tables of these lengths and builds an index in so many slots: the
/// answer, every word and every slot.
pub fn build(file: &[u8], room: [usize; 5], slots: usize) -> (Reading, [Vec<u32>; 5], Vec<u32>) {
    let (reading, tables) = read(file, room);
    if reading.refusal != 0 {
        return (reading, tables, vec![0; slots]);
    }
    if slots <= reading.names as usize {
        let (reading, tables) = refused_after(room, 7, 8);
        return (reading, tables, vec![0; slots]);
    }
    let index = filled(file, &tables, reading.counts(), slots, 1..=reading.names);
    (reading, tables, index)
}

/// Reads a file into tables of these lengths and checks that the slots are an index: the
/// answer and every word.
pub fn check(file: &[u8], room: [usize; 5], slots: &[u32]) -> (Reading, [Vec<u32>; 5]) {
    let (reading, tables) = read(file, room);
    // choice: several faults are one refusal
    match reading.refusal == 0 && faults(file, &tables, reading.counts(), slots) != [false; 4] {
        true => refused_after(room, 15, 0),
        false => (reading, tables),
    }
}

/// Finds a name of a set or, for a data block, of an earlier global block, through the
/// slots.
pub fn find(
    file: &[u8],
    tables: Tables<'_>,
    counts: Counts,
    slots: &[u32],
    set: u32,
    name: &[u8],
) -> Found {
    if !counts_hold(tables, counts) || !within(set, counts.sets) {
        return Found { refusal: 14, row: 0 };
    }
    let of = |set: u32| {
        // choice: without slots none is left
        let home = if slots.is_empty() { 0 } else { home(slots.len(), set, name) };
        for &row in slots[home..].iter().chain(&slots[..home]) {
            if row == 0 {
                break;
            }
            if row > counts.names {
                return Found { refusal: 14, row: 0 };
            }
            let words = &tables.names[4 * (row as usize - 1)..4 * row as usize];
            // choice: of a row of another set the token is not looked at
            if words[0] != set {
                continue;
            }
            match token_part(file, tables, counts, words[1]) {
                None => return Found { refusal: 14, row: 0 },
                Some((_, start, end)) if compare(&file[start..end], name).equal => {
                    return Found { refusal: 0, row };
                }
                Some(_) => {}
            }
        }
        Found { refusal: 13, row: 0 }
    };
    own_or_global(tables.sets, set, of)
}

#[cfg(test)]
mod tests {
    use super::*;

    const ROOM: [usize; 5] = [200; 5];

    /// Strings of the authors' test suite with their hashes.
    #[test]
    fn known_hashes() {
        let known: [(&[u8], u32); 24] = [
            (b"", 0x811c_9dc5),
            (b"a", 0xe40c_292c),
            (b"b", 0xe70c_2de5),
            (b"c", 0xe60c_2c52),
            (b"d", 0xe10c_2473),
            (b"e", 0xe00c_22e0),
            (b"f", 0xe30c_2799),
            (b"fo", 0x6222_e842),
            (b"foo", 0xa9f3_7ed7),
            (b"foob", 0x3f50_76ef),
            (b"fooba", 0x39aa_a18a),
            (b"foobar", 0xbf9c_f968),
            (b"\0", 0x050c_5d1f),
            (b"a\0", 0x2b24_d044),
            (b"foobar\0", 0x0c1c_9eb8),
            (b"ch", 0x5f29_9f4e),
            (b"cho", 0xef85_80f3),
            (b"chongo was here!\n", 0xd499_30d5),
            (b"chongo was here!\n\0", 0x8227_df4f),
            (b"hi", 0x683a_f69a),
            (b"curds and whey\n", 0x19a1_470c),
            (b"64.81.78.68", 0x1d56_36a7),
            (b"http://www.isthe.com/chongo/index.html", 0x9506_6709),
            (b"\xff\x00\x00\x01", 0xc48f_b86d),
        ];
        for (bytes, hash) in known {
            assert_eq!(fnv_1a(bytes.iter().copied()), hash, "{bytes:?}");
        }
    }

    /// The set goes in by four bytes, the lowest first, and by all of them.
    #[test]
    fn known_homes() {
        for (set, bytes) in [
            (0, *b"\0\0\0\0_x"),
            (1, *b"\x01\0\0\0_x"),
            (256, *b"\0\x01\0\0_x"),
            (0x0403_0201, *b"\x01\x02\x03\x04_x"),
            (u32::MAX, *b"\xff\xff\xff\xff_x"),
        ] {
            assert_eq!(home(1 << 32, set, b"_x"), fnv_1a(bytes) as usize, "{set}");
            assert_eq!(home(7, set, b"_x"), fnv_1a(bytes) as usize % 7, "{set}");
            assert_eq!(home(1, set, b"_x"), 0, "{set}");
        }
    }

    #[test]
    fn known_faults() {
        let file = b"data_a _x 1 _y 2";
        let (reading, tables) = read(file, ROOM);
        let counts = reading.counts();
        // of three slots the home of row 1 is slot 1 and that of row 2 is slot 2 or 1
        let [x, y] = [b"_x", b"_y"].map(|name| home(3, 1, name));
        assert_eq!((x, filled(file, &tables, counts, 3, [1, 2])), (1, vec![0, 1, 2]), "{y}");
        let known: [(&[u32], Faults); 11] = [
            (&[0, 1, 2], [false, false, false, false]),
            (&[1, 2], [true, false, false, false]),
            (&[], [true, true, false, false]),
            (&[1, 2, 3], [false, false, true, false]),
            (&[1, 2, u32::MAX], [false, false, true, false]),
            (&[1, 2, 0], [false, false, false, true]),
            (&[0, 1, 0], [false, true, false, false]),
            (&[0, 0, 0], [false, true, false, false]),
            (&[1, 1, 2], [false, true, false, false]),
            (&[1, 1, 0], [false, true, false, true]),
            (&[3, 3], [true, true, true, false]),
        ];
        for (slots, expected) in known {
            assert_eq!(faults(file, &tables, counts, slots), expected, "{slots:?}");
            let refusal = if expected == [false; 4] { 0 } else { 15 };
            let (answer, left) = check(file, ROOM, slots);
            assert_eq!((answer.refusal, answer.place), (refusal, 0), "{slots:?}");
            assert_eq!(left == tables, refusal == 0, "{slots:?}");
        }
        assert_eq!(check(b"data_a _x", ROOM, &[0]).0.refusal, 8);
        assert_eq!(check(b"", ROOM, &[]).0.refusal, 15);
        assert_eq!(check(b"", ROOM, &[0]).0.refusal, 0);
        let (answer, tables, slots) = build(file, ROOM, 2);
        assert_eq!((answer.refusal, answer.place, slots), (7, 8, vec![0; 2]));
        assert!(tables.iter().flatten().all(|&word| word == 0));
    }

    /// Slots of any sort are looked at from the home round once, and no further than a 0.
    #[test]
    fn known_lookups() {
        let file = b"global_ _x 1 data_a _y 2 save_f _x 3 save_";
        let (reading, tables) = read(file, ROOM);
        let (lent, counts) = (Tables::of(&tables), reading.counts());
        let asked = |slots: &[u32], set: u32, name: &[u8]| {
            let Found { refusal, row } = find(file, lent, counts, slots, set, name);
            (refusal, row)
        };
        for slots in 4..20 {
            let (_, _, index) = build(file, ROOM, slots);
            for set in 0..=4 {
                for name in [b"_x", b"_y", b"_z"] {
                    let plain = crate::reference::find_name(file, lent, counts, set, name);
                    let found = find(file, lent, counts, &index, set, name);
                    assert_eq!(found, plain, "{slots} slots, set {set}");
                }
            }
        }
        assert_eq!(asked(&[], 2, b"_y"), (13, 0));
        assert_eq!(asked(&[], 4, b"_y"), (14, 0));
        assert_eq!(asked(&[1, 2, 3], 2, b"_z"), (13, 0));
        assert_eq!(asked(&[2, 2, 2], 2, b"_y"), (0, 2));
        assert_eq!(asked(&[2, 2, 2], 1, b"_x"), (13, 0));
        // the block passes them all over, the global block finds its own
        assert_eq!(asked(&[1, 1, 1], 2, b"_x"), (0, 1));
        assert_eq!(asked(&[4; 5], 2, b"_x"), (14, 0));
        assert_eq!(asked(&[u32::MAX; 5], 2, b"_x"), (14, 0));
        // a row that points outside: of the set, and of another
        let mut spoiled = tables.clone();
        spoiled[2][4 + 1] = 0;
        let lent = Tables::of(&spoiled);
        assert_eq!(find(file, lent, counts, &[2; 3], 2, b"_x").refusal, 14);
        assert_eq!(find(file, lent, counts, &[2; 3], 3, b"_x").refusal, 13);
    }
}

//! Files of long columns, their tables with other links, and tables of links that no
//! reading made.

use super::{laid_out, telling, value, Handed, Piece, Rng};

/// About how many tokens these files have at most.
const SIZE: usize = 300;

/// An accepted file of items and of loops of up to eight levels, whose inner levels
/// are empty in some packets or in all, in data and global blocks and in frames.
pub fn file(rng: &mut Rng) -> Vec<u8> {
    let mut pieces = Vec::new();
    for number in 0..rng.pick(&[0, 1, 1, 1, 2, 3]) {
        let global = rng.once_in(4);
        pieces.push(Piece::word(if global { "global_".into() } else { format!("data_{number}") }));
        set(rng, &mut pieces);
        if rng.once_in(3) {
            pieces.push(Piece::word("save_f"));
            set(rng, &mut pieces);
            pieces.push(Piece::word("save_"));
        }
    }
    laid_out(rng, &pieces)
}

/// Items and loops, their names numbered; at times items alone.
fn set(rng: &mut Rng, pieces: &mut Vec<Piece>) {
    let loops = rng.pick(&[0, 3, 3, 3]);
    let mut names = 0;
    let mut name = || {
        names += 1;
        Piece::word(format!("_{names}"))
    };
    for _ in 0..rng.below(5) {
        if rng.below(4) < loops {
            let depth = rng.pick(&[1, 1, 2, 2, 3, 4, 5, 6, 7, 8]);
            let levels: Vec<usize> = (0..depth).map(|_| rng.pick(&[1, 1, 2, 3])).collect();
            for &count in &levels {
                pieces.push(Piece::word("loop_"));
                pieces.extend((0..count).map(|_| name()));
            }
            for _ in 0..rng.pick(&[1, 2, 3, 5, 9]) {
                packet(rng, pieces, &levels);
            }
        } else {
            pieces.extend([name(), word(rng)]);
        }
    }
}

/// The values of a packet and, if there is a deeper level, its packets and `stop_`.
fn packet(rng: &mut Rng, pieces: &mut Vec<Piece>, levels: &[usize]) {
    pieces.extend((0..levels[0]).map(|_| word(rng)));
    let deeper = &levels[1..];
    if deeper.is_empty() {
        return;
    }
    for _ in 0..rng.pick(&[0, 0, 1, 2, 4]) {
        if pieces.len() < SIZE {
            packet(rng, pieces, deeper);
        }
    }
    pieces.push(Piece::word("stop_"));
}

/// A value, most often a short number.
fn word(rng: &mut Rng) -> Piece {
    if rng.once_in(8) {
        value(rng)
    } else {
        Piece::word(format!("{}", rng.below(100)))
    }
}

// --------------------------------------------------------------- tables

/// Another link for a value row, with the count of rows.
fn link(rng: &mut Rng, handed: &Handed, row: u32, count: u32) -> u32 {
    let name = |row: u32| handed.tables[4][4 * (row as usize - 1)];
    let own: Vec<u32> = (1..=count).filter(|&other| name(other) == name(row)).collect();
    match rng.below(9) {
        0 => 0,
        1 => row,
        2 => rng.below(row as usize) as u32,
        // of the same name, before and after
        3 | 4 => rng.pick(&own),
        5 => rng.between(row as usize, count as usize + 1) as u32,
        6 => count + 1 + rng.below(3) as u32,
        // rows whose words come round in 32 bits
        7 => rng.pick(&own) + rng.pick(&[1 << 30, 1 << 31, 3 << 30]),
        _ => telling(rng, handed),
    }
}

/// Changes links, and names and tokens of values; once in a while the counts.
pub fn spoil(rng: &mut Rng, handed: &mut Handed) {
    let Handed { counts, .. } = *handed;
    let often = rng.pick(&[2, 6, 30, 200]);
    for row in 1..=counts.values {
        let at = 4 * (row as usize - 1);
        if rng.once_in(often) {
            handed.tables[4][at + 3] = link(rng, handed, row, counts.values);
        }
        if rng.once_in(4 * often) {
            handed.tables[4][at] = rng.below(counts.names as usize + 2) as u32;
        }
        if rng.once_in(3 * often) {
            handed.tables[4][at + 2] = rng.pick(&[0, counts.tokens.wrapping_add(1), u32::MAX]);
        }
    }
    match rng.below(24) {
        0..=5 => handed.counts.values = rng.below(counts.values as usize + 1) as u32,
        6 => handed.counts.values += rng.between(1, 9) as u32,
        7 => handed.counts.names = rng.below(counts.names as usize + 2) as u32,
        8 => handed.counts.tokens = rng.below(counts.tokens as usize + 2) as u32,
        _ => {}
    }
}

/// A file of as many bytes as there are value rows, each the token of one row, and
/// value rows of a few names with links of any sort, most of them upwards.
pub fn junk(rng: &mut Rng) -> Handed {
    let rows = rng.below(13) as u32;
    let names = rng.between(1, 3) as u32;
    let file = (0..rows).map(|row| b'a' + row as u8).collect();
    let mut handed = Handed { file, tables: Default::default(), counts: Default::default() };
    let [tokens, _, name_rows, _, values] = &mut handed.tables;
    tokens.extend((0..rows).flat_map(|row| [7, row, row + 1]));
    name_rows.extend((0..names).flat_map(|_| [1, 1, 1, 1]));
    values.extend((1..=rows).flat_map(|row| {
        let link = match rng.below(8) {
            0 => rng.below(rows as usize + 2) as u32,
            1 => 0,
            _ => row + 1 + rng.below(3) as u32,
        };
        [rng.between(1, names as usize) as u32, 100 + row, row, link]
    }));
    // a table may end within a row
    values.resize(values.len() + rng.below(4), 1);
    handed.counts.tokens = rows;
    handed.counts.names = names;
    handed.counts.values = rows;
    if rng.once_in(2) {
        spoil(rng, &mut handed);
    }
    handed
}

#[cfg(test)]
mod tests {
    use super::*;
    use crate::notation::escaped;
    use crate::reference;

    /// Columns of every sort, and every level's, come often.
    #[test]
    fn columns_are_varied() {
        const SORTS: [&str; 9] = [
            "a single item",
            "a name without values",
            "a value alone in its column",
            "links to the next row",
            "links over the other names of the packet",
            "links over inner packets",
            "links over an outer packet without inner ones",
            "of a frame",
            "of a global block",
        ];
        let mut counts = [0u32; SORTS.len()];
        // columns of two values or more, by level
        let mut levels = [0u32; 9];
        for seed in 0..2000 {
            let file = file(&mut Rng::new(seed));
            let (answer, tables) = reference::read(&file, reference::words_needed(&file));
            assert_eq!(answer.refusal, 0, "seed {seed}: {}", escaped(&file));
            let [_, sets, names, packets, values] = &tables;
            let value = |row: u32| &values[4 * (row as usize - 1)..][..4];
            let level_of = |row: u32| names[4 * (value(row)[0] as usize - 1) + 3];
            for (name, number) in names.chunks(4).zip(1u32..) {
                let rows = 1..=answer.values;
                let own: Vec<u32> = rows.filter(|&row| value(row)[0] == number).collect();
                let level = name[3];
                levels[level as usize] += u32::from(own.len() > 1);
                let between = |what: &dyn Fn(u32) -> bool| {
                    own.windows(2).any(|pair| (pair[0] + 1..pair[1]).any(what))
                };
                let parent = |row: u32| packets.get(3 * (value(row)[1] as usize - 1) + 2);
                // the packet around that of the next value is not the next one
                let skips = |pair: &[u32]| {
                    parent(pair[1]) > parent(pair[0]) && {
                        let outer =
                            (pair[0] + 1..pair[1]).filter(|&row| level_of(row) == level - 1);
                        let outer: std::collections::HashSet<u32> =
                            outer.map(|row| value(row)[1]).collect();
                        outer.len() > 1
                    }
                };
                let of_set = sets[3 * (name[0] as usize - 1)];
                let holds = [
                    level == 0,
                    own.is_empty(),
                    level > 0 && own.len() == 1,
                    own.windows(2).any(|pair| pair[1] == pair[0] + 1),
                    between(&|row| level_of(row) == level),
                    between(&|row| level_of(row) > level),
                    level > 1 && own.windows(2).any(skips),
                    own.len() > 1 && of_set == 2,
                    own.len() > 1 && of_set == 3,
                ];
                for (count, holds) in counts.iter_mut().zip(holds) {
                    *count += u32::from(holds);
                }
            }
        }
        for (sort, count) in SORTS.iter().zip(counts) {
            assert!(count > 50, "{sort}: {counts:?}");
        }
        assert_eq!(levels[0], 0, "{levels:?}");
        assert!(levels[1..].iter().all(|&count| count > 50), "{levels:?}");
    }
}

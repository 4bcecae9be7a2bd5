//! Files of many small global blocks, and their tables with other kinds of sets.

use super::{laid_out, telling, value, Handed, Piece, Rng};

/// The names that these files have.
pub const NAMES: [&str; 5] = ["_a", "_b", "_ab", "_c", "_B"];

/// An accepted file of data and global blocks and frames with few names, so that
/// most come again: in a data block and in global blocks before and after it.
pub fn file(rng: &mut Rng) -> Vec<u8> {
    let mut pieces = Vec::new();
    for number in 0..rng.between(1, 9) {
        let data = rng.once_in(2);
        pieces.push(Piece::word(if data { format!("data_{number}") } else { "global_".into() }));
        set(rng, &mut pieces);
        for code in ["f", "g"] {
            if rng.once_in(4) {
                pieces.push(Piece::word(format!("save_{code}")));
                set(rng, &mut pieces);
                pieces.push(Piece::word("save_"));
            }
        }
    }
    laid_out(rng, &pieces)
}

/// Some of the names, in single items and in a loop at the end.
fn set(rng: &mut Rng, pieces: &mut Vec<Piece>) {
    let mut looped = Vec::new();
    for name in NAMES {
        match rng.below(6) {
            0 => pieces.extend([Piece::word(name), value(rng)]),
            1 => looped.push(name),
            _ => {}
        }
    }
    if !looped.is_empty() {
        pieces.push(Piece::word("loop_"));
        pieces.extend(looped.iter().map(|&name| Piece::word(name)));
        for _ in 0..looped.len() * rng.between(1, 2) {
            let value = value(rng);
            pieces.push(value);
        }
    }
}

/// A file with a `global_` somewhere among its tokens.
pub fn inserted(rng: &mut Rng) -> Vec<u8> {
    let mut pieces = super::pieces(rng);
    let at = rng.below(pieces.len() + 1);
    pieces.insert(at, Piece::word("global_"));
    laid_out(rng, &pieces)
}

/// Kinds of sets, some of them 1 or 3 in their lowest bits alone.
const KINDS: [u32; 14] =
    [1, 1, 1, 3, 3, 3, 2, 0, 4, 257, 259, (1 << 16) | 1, (1 << 31) | 3, u32::MAX];

/// Changes the kinds of sets, and the sets and the tokens of names.
pub fn spoil(rng: &mut Rng, handed: &mut Handed) {
    for at in (0..handed.tables[1].len()).step_by(3) {
        if rng.once_in(4) {
            handed.tables[1][at] = rng.pick(&KINDS);
        }
        // what a lookup of a name does not look at
        if rng.once_in(8) {
            let other = at + rng.between(1, 2);
            if other < handed.tables[1].len() {
                handed.tables[1][other] = telling(rng, handed);
            }
        }
    }
    let (sets, tokens) = (handed.counts.sets as usize, handed.counts.tokens);
    for at in (0..handed.tables[2].len().saturating_sub(1)).step_by(4) {
        match rng.below(10) {
            0 => handed.tables[2][at] = rng.below(sets + 2) as u32,
            1 => handed.tables[2][at + 1] = rng.pick(&[0, tokens.wrapping_add(1), u32::MAX]),
            2 => handed.tables[2][at + 1] = rng.between(1, tokens.max(1) as usize) as u32,
            _ => {}
        }
    }
}

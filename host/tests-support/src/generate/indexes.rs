//! Slots of an index with changes, slots of any contents, and files of many names.

use super::{columns, globals, valid, Rng};
use crate::{index, MOST_BYTES};
use tackturnel::Counts;

/// An accepted file, most often of many names in few sets or of few names in many.
pub fn file(rng: &mut Rng) -> Vec<u8> {
    match rng.below(4) {
        0 | 1 => globals::file(rng),
        2 => columns::file(rng),
        _ => valid(rng),
    }
}

/// How many slots to lend for so many names: at times not enough, most often a few more.
pub fn count(rng: &mut Rng, names: usize) -> usize {
    match rng.below(12) {
        0 => rng.below(names + 1),
        1 => names,
        2..=5 => names + 1,
        6 | 7 => names + 2 + rng.below(3),
        8 | 9 => 2 * names + 1,
        10 => names + 1 + rng.below(3 * names + 8),
        _ => (names + 1).next_power_of_two(),
    }
}

/// An index of a reading's names, its rows put in any order.
pub fn in_any_order(
    rng: &mut Rng,
    file: &[u8],
    tables: &[Vec<u32>; 5],
    counts: Counts,
    slots: usize,
) -> Vec<u32> {
    let mut rows: Vec<u32> = (1..=counts.names).collect();
    for at in (1..rows.len()).rev() {
        rows.swap(at, rng.below(at + 1));
    }
    index::filled(file, tables, counts, slots, rows)
}

/// A number for a slot where there are so many names.
fn number(rng: &mut Rng, names: u32) -> u32 {
    match rng.below(8) {
        0 | 1 => 0,
        2 => names + 1,
        3 => names + 1 + rng.below(4) as u32,
        // a row in its lowest bits alone
        4 => rng.below(names as usize + 1) as u32 | rng.pick(&[1 << 8, 1 << 16, 1 << 30, 1 << 31]),
        5 => rng.pick(&[u32::MAX, u32::MAX - 1, 1 << 31, (1 << 31) - 1]),
        _ => rng.below(names as usize + 1) as u32,
    }
}

/// Changes one word of the slots or exchanges two, if there are any.
pub fn spoil(rng: &mut Rng, slots: &mut [u32], names: u32) {
    if slots.is_empty() {
        return;
    }
    let (one, other) = (rng.below(slots.len()), rng.below(slots.len()));
    let zero = slots.iter().position(|&row| row == 0);
    match (rng.below(6), zero) {
        (0, _) => slots[one] = 0,
        (1, _) => slots[one] = slots[other],
        (2, _) => slots.swap(one, other),
        // a row moves to a free slot, or comes into it once more
        (3, Some(zero)) => slots.swap(one, zero),
        (4, Some(zero)) => slots[zero] = number(rng, names),
        _ => slots[one] = number(rng, names),
    }
}

/// Slots of any contents, most of them rows.
pub fn junk(rng: &mut Rng, count: usize, names: u32) -> Vec<u32> {
    let zeros = rng.pick(&[2, 5, 40, usize::MAX]);
    let others = rng.pick(&[4, 30, usize::MAX]);
    let slot = |_| match () {
        _ if rng.once_in(zeros) => 0,
        _ if rng.once_in(others) => number(rng, names),
        _ => rng.between(1, names.max(1) as usize) as u32,
    };
    (0..count).map(slot).collect()
}

/// The name of a number, as short as may be, with its underscore.
fn short_name(number: usize) -> Vec<u8> {
    let mut left = number + 1;
    let mut name = vec![b'_'];
    while left > 0 {
        left -= 1;
        name.push(b'!' + (left % 94) as u8);
        left /= 94;
    }
    name
}

/// A file of so many bytes, or a few less, with as many names of one data block as fit:
/// those of an inner level that has no packet.
pub fn most_names(bytes: usize) -> Vec<u8> {
    let (head, tail): (&[u8], &[u8]) = (b"data_a loop_ _! loop_", b" 1 stop_");
    let mut file = head.to_vec();
    for number in 1.. {
        let name = short_name(number);
        if file.len() + 1 + name.len() + tail.len() > bytes.min(MOST_BYTES) {
            break;
        }
        file.push(b' ');
        file.extend(name);
    }
    file.extend_from_slice(tail);
    file
}

/// A file of so many bytes, or less by a block, with as many names as fit: global blocks
/// that have all names of one byte after the underscore.
pub fn most_names_of_blocks(bytes: usize) -> Vec<u8> {
    let mut block = b"global_ loop_ _! loop_".to_vec();
    for number in 1..94 {
        block.push(b' ');
        block.extend(short_name(number));
    }
    block.extend_from_slice(b" 1 stop_ ");
    block.repeat(bytes.min(MOST_BYTES) / block.len())
}

#[cfg(test)]
mod tests {
    use super::*;
    use crate::reference;

    #[test]
    fn most_names_are_as_many_as_fit() {
        for (bytes, names) in [(32, 2), (34, 2), (35, 3), (1_000, 267), (MOST_BYTES, 211_514)] {
            let file = most_names(bytes);
            let reading = reference::read(&file, reference::words_needed(&file)).0;
            assert!(file.len() <= bytes && bytes < file.len() + 5, "{bytes}");
            assert_eq!((reading.refusal, reading.names), (0, names), "{bytes}");
        }
        let file = most_names_of_blocks(MOST_BYTES);
        let reading = reference::read(&file, reference::words_needed(&file)).0;
        assert!(MOST_BYTES - file.len() < 400);
        assert_eq!((reading.refusal, reading.names), (0, 94 * reading.sets));
        assert!(reading.names > 315_000, "{}", reading.names);
    }

    /// Indexes in any order are accepted, and changed ones are refused for each condition
    /// alone.
    #[test]
    fn indexes_are_varied() {
        let mut faults = [0u32; 16];
        for seed in 0..4000 {
            let rng = &mut Rng::new(seed);
            let file = file(rng);
            let (reading, tables) = reference::read(&file, reference::words_needed(&file));
            let (names, counts) = (reading.names, reading.counts());
            let slots = names as usize + rng.between(1, 9);
            let mut index = in_any_order(rng, &file, &tables, counts, slots);
            assert_eq!(index::faults(&file, &tables, counts, &index), [false; 4], "seed {seed}");
            match rng.below(4) {
                // full, and not more slots than names
                0 => index.retain(|&row| row != 0),
                _ => spoil(rng, &mut index, names),
            }
            let found = index::faults(&file, &tables, counts, &index);
            let bits = found.iter().rev().fold(0, |bits, &fault| 2 * bits + usize::from(fault));
            faults[bits] += 1;
        }
        for alone in [0, 1, 2, 4, 8] {
            assert!(faults[alone] > 100, "{alone}: {faults:?}");
        }
        assert!(faults[2 + 8] > 50, "{faults:?}");
    }
}

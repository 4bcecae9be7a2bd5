//! Safe wrappers around the calls for an index beside the names.
//!
//! An index is slots, each of which holds a name row or 0. A name's row stands at its
//! home, its hash modulo the number of slots, or in one of the slots that follow, round
//! the end if needed, with no 0 before it.

use crate::raw::{self, Counts, Found, Reading};
use crate::star::{fill, look, Tables, TablesMut};

/// The slots to lend for a file of so many bytes: more than it has names, whatever it
/// holds, and twice as many as it may have.
pub const fn room(bytes: usize) -> usize {
    raw::star_slots_words(bytes)
}

/// Reads a file into the tables and builds an index of its names in the slots.
///
/// ```
/// use tackturnel::{index, raw, star, Tables, TablesMut};
///
/// let file = b"data_a _x 1 _y 2";
/// let mut tables = star::room(file.len()).map(|words| vec![0; words]);
/// let mut slots = vec![0; 3];
/// let reading = index::build(file, TablesMut::of(&mut tables), &mut slots);
/// assert_eq!((reading.refusal, &slots[..]), (raw::STAR_OK, &[0, 1, 2][..]));
///
/// // kept beside the file, and checked before it is used again
/// let reading = index::check(file, TablesMut::of(&mut tables), &slots);
/// assert_eq!(reading.refusal, raw::STAR_OK);
/// let (tables, counts) = (Tables::of(&tables), reading.counts());
/// assert_eq!(index::find(file, tables, counts, &slots, 1, b"_y").row, 2);
/// ```
pub fn build(file: &[u8], tables: TablesMut<'_>, slots: &mut [u32]) -> Reading {
    fill!(star_index_build, file, tables, slots.as_mut_ptr(), slots.len())
}

/// Reads a file into the tables and checks that the slots are an index of its names.
pub fn check(file: &[u8], tables: TablesMut<'_>, slots: &[u32]) -> Reading {
    fill!(star_index_check, file, tables, slots.as_ptr(), slots.len())
}

/// Finds the name row of a set with this name, underscore included, through the slots.
/// With an index that [`build`] made or [`check`] accepted, and the tables that it left,
/// the answer is that of [`find_name`](crate::star::find_name).
pub fn find(
    file: &[u8],
    tables: Tables<'_>,
    counts: Counts,
    slots: &[u32],
    set: u32,
    name: &[u8],
) -> Found {
    let (start, length) = (slots.as_ptr(), slots.len());
    look!(star_index_find, file, tables, counts, start, length, set, name.as_ptr(), name.len())
}

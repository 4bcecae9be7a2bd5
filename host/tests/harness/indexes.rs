//! Calls for an index beside the names, compared with the reference.

use tackturnel::{index, Reading};
use tackturnel_tests_support as support;
use tackturnel_tests_support::generate::{Handed, Question, Rng};
use tackturnel_tests_support::notation::escaped;

use super::{fail, junk_words, lend, lend_mut, lent_bytes, lent_words, Differences, Tally, TABLES};

/// Builds an index by both, with tables of these lengths and so many slots.
pub fn build(
    seed: u64,
    file: &[u8],
    room: [usize; 5],
    slots: usize,
) -> Result<(Reading, Vec<u32>), String> {
    let rng = &mut Rng::new(seed);
    let lent_file = lent_bytes(rng, file);
    let mut tables = room.map(|length| junk_words(rng, length));
    let mut lent_slots = junk_words(rng, slots);
    let answer = index::build(lent_file.range(), lend_mut(&mut tables), lent_slots.range_mut());
    let (expected, expected_tables, expected_slots) = support::index::build(file, room, slots);
    let mut differences = Differences::default();
    let call = format!("building into {room:?} words and {slots} slots");
    differences.answer(&call, answer, expected);
    differences.tables(&tables, &expected_tables);
    differences.words("slots", lent_slots.range(), &expected_slots);
    differences.guards("slots", &lent_slots);
    differences.unchanged("file", &lent_file, file);
    differences.end((expected, expected_slots))
}

/// Checks slots by both, with tables of these lengths.
pub fn check(seed: u64, file: &[u8], room: [usize; 5], slots: &[u32]) -> Result<Reading, String> {
    let rng = &mut Rng::new(seed);
    let lent_file = lent_bytes(rng, file);
    let mut tables = room.map(|length| junk_words(rng, length));
    let lent_slots = lent_words(rng, slots);
    let answer = index::check(lent_file.range(), lend_mut(&mut tables), lent_slots.range());
    let (expected, expected_tables) = support::index::check(file, room, slots);
    let mut differences = Differences::default();
    let cut = &slots[..slots.len().min(200)];
    let call = format!("checking into {room:?} words of {} slots {cut:?}", slots.len());
    differences.answer(&call, answer, expected);
    differences.tables(&tables, &expected_tables);
    differences.unchanged("slots", &lent_slots, slots);
    differences.unchanged("file", &lent_file, file);
    differences.end(expected)
}

/// Asks each question's set for its name through the slots by both; adds to the tally of
/// refusals. Fails with all that was handed in where they differ.
pub fn check_finds(
    label: &str,
    seed: u64,
    handed: &Handed,
    slots: &[u32],
    questions: &[Question],
    tally: &mut Tally,
) {
    let rng = &mut Rng::new(seed);
    let lent_file = lent_bytes(rng, &handed.file);
    let lent_tables = handed.tables.each_ref().map(|table| lent_words(rng, table));
    let lent_slots = lent_words(rng, slots);
    let (file, tables, counts) = (lent_file.range(), lend(&lent_tables), handed.counts);
    let mut differences = Differences::default();
    for Question { set, sought, .. } in questions {
        let lent_sought = lent_bytes(rng, sought);
        let name = lent_sought.range();
        let answer = index::find(file, tables, counts, lent_slots.range(), *set, name);
        let expected = support::index::find(file, tables, counts, slots, *set, sought);
        let call = format!("find, set {set}, sought {}", escaped(sought));
        differences.answer(&call, answer, expected);
        differences.unchanged("name", &lent_sought, sought);
        tally[expected.refusal as usize] += 1;
    }
    differences.unchanged("file", &lent_file, &handed.file);
    differences.unchanged("slots", &lent_slots, slots);
    for (table, name) in TABLES.into_iter().enumerate() {
        differences.unchanged(name, &lent_tables[table], &handed.tables[table]);
    }
    differences.end(()).unwrap_or_else(|difference| {
        let cut = &slots[..slots.len().min(300)];
        fail(label, seed, handed, &format!("  slots: {cut:?}\n{difference}"))
    })
}

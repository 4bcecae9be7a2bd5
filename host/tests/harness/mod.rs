//! Calls the library with guarded memory and compares it with the reference.

// each of the tests uses a part of this
#![allow(dead_code)]

pub mod indexes;
pub mod layouts;
pub mod stops;

use std::env;
use std::fmt::{Debug, Write};
use std::sync::OnceLock;
use std::time::{Duration, Instant};

use tackturnel::{
    raw, star, Checked, Compared, Counts, Number, Part, Reading, Tables, TablesMut, Written,
};
use tackturnel_tests_support::generate::{Handed, Question, Rng};
use tackturnel_tests_support::notation::escaped;
use tackturnel_tests_support::{number, reference, WIDTHS};

const TABLES: [&str; 5] = ["tokens", "sets", "names", "packets", "values"];

// --------------------------------------------------------------- groups

/// A number that the environment sets.
pub fn setting(name: &str, otherwise: f64) -> f64 {
    match env::var(name) {
        Ok(text) => text.parse().unwrap_or_else(|_| panic!("{name} is no number: {text}")),
        Err(_) => otherwise,
    }
}

/// Runs a group's seeds within its time: its first tenth in any case, and on
/// until either runs out. STAR_COMPARE_TIMES=n takes n times as many seeds and
/// as long; STAR_COMPARE_SEED=s begins at seed s.
pub fn seeds(group: &str, count: u64, seconds: u64, mut run: impl FnMut(u64)) {
    let times = setting("STAR_COMPARE_TIMES", 1.0);
    assert!(times > 0.0, "STAR_COMPARE_TIMES is to be above 0");
    let first = setting("STAR_COMPARE_SEED", 0.0) as u64;
    let count = (count as f64 * times).ceil() as u64;
    let until = Instant::now() + Duration::from_secs(seconds).mul_f64(times);
    let mut done = 0;
    while done < count && (done < count.div_ceil(10) || Instant::now() < until) {
        run(first + done);
        done += 1;
    }
    println!("{group}: {done} of {count} seeds from {first}");
}

// ---------------------------------------------------------- lent memory

/// A range to lend, with guards before and after it. STAR_COMPARE_BARE=1 lends
/// ranges without guards, each an allocation of its own size, so that a memory
/// checker sees every access outside.
struct Lent<T> {
    all: Vec<T>,
    from: usize,
    to: usize,
    guard: T,
}

impl<T: Copy + PartialEq> Lent<T> {
    /// Lends a copy of these elements, from a start of any alignment.
    fn of(rng: &mut Rng, elements: &[T], guard: T) -> Self {
        let guards = if bare() { 0 } else { 16 };
        let from = if bare() { 0 } else { guards + rng.below(8) };
        let to = from + elements.len();
        let mut all = vec![guard; to + guards];
        all[from..to].copy_from_slice(elements);
        Lent { all, from, to, guard }
    }

    fn range(&self) -> &[T] {
        &self.all[self.from..self.to]
    }

    fn range_mut(&mut self) -> &mut [T] {
        &mut self.all[self.from..self.to]
    }

    fn guards_hold(&self) -> bool {
        let outside = self.all[..self.from].iter().chain(&self.all[self.to..]);
        outside.copied().all(|element| element == self.guard)
    }
}

fn bare() -> bool {
    static BARE: OnceLock<bool> = OnceLock::new();
    *BARE.get_or_init(|| env::var_os("STAR_COMPARE_BARE").is_some())
}

fn lent_bytes(rng: &mut Rng, bytes: &[u8]) -> Lent<u8> {
    Lent::of(rng, bytes, 0xc3)
}

fn lent_words(rng: &mut Rng, words: &[u32]) -> Lent<u32> {
    Lent::of(rng, words, 0xa5a5_5a5a)
}

/// Words, none of them 0, that a call has to write over.
fn junk_words(rng: &mut Rng, length: usize) -> Lent<u32> {
    let words: Vec<u32> = (0..length).map(|_| rng.number() as u32 | 1).collect();
    lent_words(rng, &words)
}

fn lend_mut(tables: &mut [Lent<u32>; 5]) -> TablesMut<'_> {
    let [tokens, sets, names, packets, values] = tables;
    TablesMut {
        tokens: tokens.range_mut(),
        sets: sets.range_mut(),
        names: names.range_mut(),
        packets: packets.range_mut(),
        values: values.range_mut(),
    }
}

fn lend(tables: &[Lent<u32>; 5]) -> Tables<'_> {
    let [tokens, sets, names, packets, values] = tables;
    Tables {
        tokens: tokens.range(),
        sets: sets.range(),
        names: names.range(),
        packets: packets.range(),
        values: values.range(),
    }
}

// ---------------------------------------------------------- differences

/// What differed between the library and the reference, one line each.
#[derive(Default)]
struct Differences(String);

impl Differences {
    fn line(&mut self, line: String) {
        let _ = writeln!(self.0, "  {line}");
    }

    fn answer<T: Debug + PartialEq>(&mut self, call: &str, library: T, reference: T) {
        if library != reference {
            self.line(format!("{call} by the library:   {library:?}"));
            self.line(format!("{call} by the reference: {reference:?}"));
        }
    }

    fn words<T: Debug + PartialEq>(&mut self, range: &str, library: &[T], reference: &[T]) {
        let pairs = library.iter().zip(reference);
        if let Some(at) = pairs.into_iter().position(|(one, other)| one != other) {
            let first = self.0.is_empty();
            let (one, other) = (&library[at], &reference[at]);
            self.line(format!("{range}, element {at}: library {one:?}, reference {other:?}"));
            // whole ranges only where nothing before them tells more
            if first {
                let shown = |words: &[T]| format!("{:?}", &words[..words.len().min(200)]);
                self.line(format!("{range} by the library:   {}", shown(library)));
                self.line(format!("{range} by the reference: {}", shown(reference)));
            }
        }
    }

    fn tables(&mut self, library: &[Lent<u32>; 5], reference: &[Vec<u32>; 5]) {
        for (table, name) in TABLES.into_iter().enumerate() {
            self.words(name, library[table].range(), &reference[table]);
            self.guards(name, &library[table]);
        }
    }

    fn guards<T: Copy + PartialEq>(&mut self, range: &str, lent: &Lent<T>) {
        if !lent.guards_hold() {
            self.line(format!("{range}: written outside the lent range"));
        }
    }

    fn unchanged<T: Copy + PartialEq>(&mut self, range: &str, lent: &Lent<T>, before: &[T]) {
        if lent.range() != before {
            self.line(format!("{range}: changed by the call"));
        }
        self.guards(range, lent);
    }

    fn end<T>(self, answer: T) -> Result<T, String> {
        match self.0.is_empty() {
            true => Ok(answer),
            false => Err(self.0),
        }
    }
}

/// Compares on a file; where they differ, tells on which file and on which
/// smaller one, and fails.
pub fn check<T>(
    label: &str,
    seed: u64,
    file: &[u8],
    compare: impl Fn(&[u8]) -> Result<T, String>,
) -> T {
    compare(file).unwrap_or_else(|difference| {
        let small = smaller(file, |file| compare(file).is_err());
        let its = compare(&small).err().unwrap_or_default();
        let cut = &file[..file.len().min(4000)];
        let more = if cut.len() < file.len() { " (its first 4000 bytes)" } else { "" };
        panic!(
            "{label}, seed {seed}, {} bytes{more}:\n{}\n{difference}\n\
             the same on a smaller file:\n{}\n{its}",
            file.len(),
            escaped(cut),
            escaped(&small[..small.len().min(4000)]),
        )
    })
}

/// The file with as much cut out as still differs, within a few seconds.
fn smaller(file: &[u8], differs: impl Fn(&[u8]) -> bool) -> Vec<u8> {
    let mut small = file.to_vec();
    let until = Instant::now() + Duration::from_secs(5);
    let mut step = small.len().div_ceil(2);
    while step > 0 {
        let mut at = 0;
        let before = small.len();
        while at < small.len() && Instant::now() < until {
            let end = (at + step).min(small.len());
            let cut = [&small[..at], &small[end..]].concat();
            if differs(&cut) {
                small = cut;
            } else {
                at = end;
            }
        }
        // single bytes are tried until none can go
        step = if step == 1 && small.len() < before { 1 } else { step / 2 };
    }
    small
}

// ---------------------------------------------------- reading and writing

/// The lengths of tables with this many words more, or less, than needed.
pub fn room(file: &[u8], spare: [isize; 5]) -> [usize; 5] {
    let mut room = reference::words_needed(file);
    for (words, spare) in room.iter_mut().zip(spare) {
        *words = words.saturating_add_signed(spare);
    }
    room
}

/// Reads a file by both, with tables of this many words more, or less, than
/// needed.
pub fn read(seed: u64, file: &[u8], spare: [isize; 5]) -> Result<Reading, String> {
    read_into(seed, file, room(file, spare))
}

/// Reads a file by both, with tables of these lengths.
pub fn read_into(seed: u64, file: &[u8], room: [usize; 5]) -> Result<Reading, String> {
    layouts::read_into(seed, file, raw::STAR_LAYOUT_TODAY, room)
}

/// Writes a file by both, with tables of this many words more, or less, than
/// needed, and an output of this many bytes more, or less, than the plain form.
pub fn write(
    seed: u64,
    file: &[u8],
    spare: [isize; 5],
    spare_out: isize,
) -> Result<(Written, Vec<u8>), String> {
    let plain = reference::tokens(file).map(|tokens| reference::plain_form(file, &tokens).len());
    let out_length = plain.unwrap_or(0).saturating_add_signed(spare_out);
    write_into(seed, file, room(file, spare), out_length)
}

/// Writes a file by both, with tables and an output of these lengths.
pub fn write_into(
    seed: u64,
    file: &[u8],
    room: [usize; 5],
    out_length: usize,
) -> Result<(Written, Vec<u8>), String> {
    let expected = reference::write(file, room, out_length);
    written_into("writing", seed, file, expected, star::write)
}

/// Calls what reads a file and writes one by the library, where the answer and what is left
/// in the tables and the output, of the same lengths, are to be these.
fn written_into(
    call: &str,
    seed: u64,
    file: &[u8],
    expected: (Written, [Vec<u32>; 5], Vec<u8>),
    write: impl Fn(&[u8], TablesMut<'_>, &mut [u8]) -> Written,
) -> Result<(Written, Vec<u8>), String> {
    let (expected, expected_tables, expected_out) = expected;
    let room = expected_tables.each_ref().map(Vec::len);
    let out_length = expected_out.len();
    let rng = &mut Rng::new(seed);
    let lent_file = lent_bytes(rng, file);
    let mut tables = room.map(|length| junk_words(rng, length));
    let junk: Vec<u8> = (0..out_length).map(|_| rng.number() as u8 | 1).collect();
    let mut out = lent_bytes(rng, &junk);
    let answer = write(lent_file.range(), lend_mut(&mut tables), out.range_mut());
    let mut differences = Differences::default();
    let call = format!("{call} into {room:?} words and {out_length} bytes");
    differences.answer(&call, answer, expected);
    differences.tables(&tables, &expected_tables);
    differences.words("output", out.range(), &expected_out);
    differences.guards("output", &out);
    differences.unchanged("file", &lent_file, file);
    differences.end((expected, expected_out))
}

/// Writes a file, reads the plain form back and writes it again, all by the
/// library: the same rows but for offsets, the same contents, the same bytes.
pub fn round_trip(file: &[u8]) -> Result<(), String> {
    let room = room(file, [0; 5]);
    let tables_for = || room.map(|length| vec![7u32; length]);
    let (mut tables, mut out) = (tables_for(), vec![7u8; 2 * file.len() + 2]);
    let written = star::write(file, TablesMut::of(&mut tables), &mut out);
    if written.refusal != 0 {
        return Ok(());
    }
    let plain = &out[..written.length as usize];
    let mut plain_tables = tables_for();
    let again = star::read(plain, raw::STAR_LAYOUT_TODAY, TablesMut::of(&mut plain_tables));
    let mut differences = Differences::default();
    differences.answer("reading the plain form back", again, written.reading());
    for table in 1..5 {
        differences.words(TABLES[table], &plain_tables[table], &tables[table]);
    }
    let contents = |file: &[u8], tokens: &[u32]| -> Vec<(u32, Vec<u8>)> {
        let content = |row: &[u32]| (row[0], file[row[1] as usize..row[2] as usize].to_vec());
        tokens.chunks_exact(WIDTHS[0]).map(content).collect()
    };
    if again.refusal == 0 {
        let (before, after) = (contents(file, &tables[0]), contents(plain, &plain_tables[0]));
        differences.words("tokens of the plain form (library) and the file", &after, &before);
    }
    let mut twice = vec![7u8; plain.len()];
    let rewritten = star::write(plain, TablesMut::of(&mut tables_for()), &mut twice);
    differences.answer("writing the plain form", rewritten, written);
    differences.words("the plain form of the plain form", &twice, plain);
    differences.end(())
}

/// Reads and writes a file by both, with the room that its length asks for:
/// nothing may be too short, and no table may have more rows than are said.
pub fn by_length(seed: u64, file: &[u8]) -> Result<Reading, String> {
    let bytes = file.len();
    let reading = read_into(seed, file, star::room(bytes))?;
    let (written, _) = write_into(seed, file, star::room(bytes), star::plain_room(bytes))?;
    for (call, refusal, place) in
        [("reading", reading.refusal, reading.place), ("writing", written.refusal, written.place)]
    {
        if refusal == raw::STAR_TOO_SHORT {
            return Err(format!("  {call}: {place} is too short by the length"));
        }
    }
    let most = [
        raw::star_most_tokens(bytes),
        raw::star_most_sets(bytes),
        raw::star_most_names(bytes),
        raw::star_most_packets(bytes),
        raw::star_most_values(bytes),
    ];
    let Counts { tokens, sets, names, packets, values } = reading.counts();
    let counts = [tokens, sets, names, packets, values];
    for (table, name) in TABLES.into_iter().enumerate() {
        if counts[table] as usize > most[table] {
            return Err(format!("  {name}: {} rows, not {} or fewer", counts[table], most[table]));
        }
    }
    Ok(reading)
}

// ----------------------------------------------------------------- checks

/// Asks whether a file fits the old limit by both, with tables of this many words
/// more, or less, than needed.
pub fn fits(seed: u64, file: &[u8], spare: [isize; 5]) -> Result<Checked, String> {
    fits_into(seed, file, room(file, spare))
}

/// Asks whether a file fits the old limit by both, with tables of these lengths.
/// All but yes is as the library's own reading has it.
pub fn fits_into(seed: u64, file: &[u8], room: [usize; 5]) -> Result<Checked, String> {
    let rng = &mut Rng::new(seed);
    let lent_file = lent_bytes(rng, file);
    let mut tables = room.map(|length| junk_words(rng, length));
    let answer = star::fits_32(lent_file.range(), lend_mut(&mut tables));
    let (expected, expected_tables) = reference::fits_32(file, room);
    let mut differences = Differences::default();
    differences.answer(&format!("fits_32 into {room:?} words"), answer, expected);
    differences.tables(&tables, &expected_tables);
    differences.unchanged("file", &lent_file, file);
    let mut read_tables = room.map(|length| vec![7; length]);
    let reading = star::read(file, raw::STAR_LAYOUT_TODAY, TablesMut::of(&mut read_tables));
    let same_words = tables.iter().zip(&read_tables).all(|(one, other)| one.range() == other);
    if answer.reading() != reading || !same_words {
        differences
            .line(format!("fits_32 and read by the library differ: {answer:?}, {reading:?}"));
    }
    differences.end(expected)
}

// ---------------------------------------------------------------- lookups

/// How often each refusal was answered.
pub type Tally = [u64; 17];

/// Requires that each of these was met so often, in a part of a run as many times less, and
/// not at all in a small one.
pub fn require(group: &str, counts: &[(&str, u64)], least: u64) {
    println!("{group}: {counts:?}");
    let times = setting("STAR_COMPARE_TIMES", 1.0);
    if times >= 0.1 {
        let least = (least as f64 * times.min(1.0)).ceil() as u64;
        for (sort, count) in counts {
            assert!(*count >= least, "{group}: {sort} {count} times");
        }
    }
}

/// Requires that each of these refusals was met, unless in a small part of a run.
pub fn require_refusals(group: &str, tally: &Tally, refusals: &[usize]) {
    println!("{group}: answers by refusal {tally:?}");
    if setting("STAR_COMPARE_TIMES", 1.0) >= 0.1 {
        for &refusal in refusals {
            assert!(tally[refusal] > 0, "{group}: refusal {refusal} was never met");
        }
    }
}

/// A file and its tables as the reference reads them, with words to spare.
pub fn handed(file: &[u8], spare: usize) -> Handed {
    let room = reference::words_needed(file).map(|words| words + spare);
    let (answer, tables) = reference::read(file, room);
    Handed { file: file.to_vec(), tables, counts: answer.counts() }
}

/// Asks every lookup each question by both; adds to the tallies of blocks,
/// frames, names and values.
pub fn lookups(
    seed: u64,
    handed: &Handed,
    questions: &[Question],
    tallies: &mut [Tally; 4],
) -> Result<(), String> {
    let rng = &mut Rng::new(seed);
    let lent_file = lent_bytes(rng, &handed.file);
    let lent_tables = handed.tables.each_ref().map(|table| lent_words(rng, table));
    let (file, tables, counts) = (lent_file.range(), lend(&lent_tables), handed.counts);
    let mut differences = Differences::default();
    for question in questions {
        let Question { set, name_row, k, sought } = question;
        let (set, name_row, k) = (*set, *name_row, *k);
        let lent_sought = lent_bytes(rng, sought);
        let code = lent_sought.range();
        let answers = [
            star::find_block(file, tables, counts, code),
            star::find_frame(file, tables, counts, set, code),
            star::find_name(file, tables, counts, set, code),
        ];
        let expected = [
            reference::find_block(file, tables, counts, code),
            reference::find_frame(file, tables, counts, set, code),
            reference::find_name(file, tables, counts, set, code),
        ];
        let calls = ["find_block", "find_frame", "find_name"];
        for (at, call) in calls.into_iter().enumerate() {
            let call = format!("{call}, set {set}, sought {}", escaped(code));
            differences.answer(&call, answers[at], expected[at]);
            tallies[at][expected[at].refusal as usize] += 1;
        }
        let value = star::value_at(file, tables, counts, name_row, k);
        let expected = reference::value_at(file, tables, counts, name_row, k);
        differences.answer(&format!("value_at {name_row}, {k}"), value, expected);
        tallies[3][expected.refusal as usize] += 1;
        let span = star::value_span(file, tables, counts, name_row, k);
        let expected = reference::value_span(file, tables, counts, name_row, k);
        differences.answer(&format!("value_part {name_row}, {k}"), span, expected);
        if span == expected {
            let Part { start, end } = span;
            let part = star::value_part(file, tables, counts, name_row, k);
            if !std::ptr::eq(part, &file[start..end]) {
                differences.line(format!("value_part {name_row}, {k}: no part of the lent file"));
            }
        }
        differences.unchanged("code or name", &lent_sought, sought);
    }
    differences.unchanged("file", &lent_file, &handed.file);
    for (table, name) in TABLES.into_iter().enumerate() {
        differences.unchanged(name, &lent_tables[table], &handed.tables[table]);
    }
    differences.end(())
}

/// As `lookups`, failing with all that was handed in.
pub fn check_lookups(
    label: &str,
    seed: u64,
    handed: &Handed,
    questions: &[Question],
    tallies: &mut [Tally; 4],
) {
    let compared = lookups(seed, handed, questions, tallies);
    compared.unwrap_or_else(|difference| fail(label, seed, handed, &difference))
}

/// Fails with all that was handed in.
fn fail(label: &str, seed: u64, handed: &Handed, difference: &str) -> ! {
    let mut shown = String::new();
    for (name, table) in TABLES.iter().zip(&handed.tables) {
        let _ = writeln!(shown, "  {name}: {:?}", &table[..table.len().min(300)]);
    }
    panic!(
        "{label}, seed {seed}:\n{}\n{shown}  {:?}\n{difference}",
        escaped(&handed.file),
        handed.counts
    )
}

// ------------------------------------------------------------- comparing

/// Compares two contents by both, in each order; fails where they differ.
pub fn check_compare(label: &str, rng: &mut Rng, a: &[u8], b: &[u8]) -> Compared {
    let (lent_a, lent_b) = (lent_bytes(rng, a), lent_bytes(rng, b));
    let answer = star::compare(lent_a.range(), lent_b.range());
    let turned = star::compare(lent_b.range(), lent_a.range());
    let expected = reference::compare(a, b);
    let mut differences = Differences::default();
    differences.answer("compare", answer, expected);
    differences.answer("compare the other way round", turned, expected);
    differences.unchanged("first content", &lent_a, a);
    differences.unchanged("second content", &lent_b, b);
    differences.end(expected).unwrap_or_else(|difference| {
        let cut = |content: &[u8]| escaped(&content[..content.len().min(2000)]);
        let (bytes_a, bytes_b) = (a.len(), b.len());
        panic!("{label}, {bytes_a} and {bytes_b} bytes:\n{}\n{}\n{difference}", cut(a), cut(b))
    })
}

/// Compares each two parts of one lent range by both; fails where they differ.
pub fn check_parts(label: &str, rng: &mut Rng, bytes: &[u8]) {
    let lent = lent_bytes(rng, bytes);
    let all = lent.range();
    let ends = |start: usize| (start..=all.len()).map(move |end| &all[start..end]);
    let parts: Vec<&[u8]> = (0..=all.len()).flat_map(ends).collect();
    let mut differences = Differences::default();
    for a in &parts {
        for b in &parts {
            differences.answer("compare", star::compare(a, b), reference::compare(a, b));
        }
    }
    differences.unchanged("the range of both", &lent, bytes);
    let ended = differences.end(());
    ended.unwrap_or_else(|difference| panic!("{label}:\n{}\n{difference}", escaped(bytes)))
}

// ---------------------------------------------------------------- numbers

/// How often each form was answered, 0 being that of a refused number.
pub type Forms = [u64; 7];

/// A number's form and the bits of its floats.
pub fn bits(number: Number) -> (u32, u64, u64) {
    (number.form, number.value.to_bits(), number.uncertainty.to_bits())
}

/// Answers a content as a number by both, bit by bit; fails where they differ.
pub fn check_number(label: &str, rng: &mut Rng, kind: u32, content: &[u8]) -> Number {
    let lent = lent_bytes(rng, content);
    let answer = star::number_of(kind, lent.range());
    let expected = number::number_of(kind, content);
    let mut differences = Differences::default();
    differences.answer("number_of", bits(answer), bits(expected));
    differences.unchanged("content", &lent, content);
    differences.end(expected).unwrap_or_else(|difference| {
        let cut = &content[..content.len().min(4000)];
        let bytes = content.len();
        panic!("{label}, kind {kind}, {bytes} bytes:\n{}\n{difference}", escaped(cut))
    })
}

/// Asks for each question's value as a number by both; adds to the tallies of
/// refusals and of forms.
fn numbers(
    seed: u64,
    handed: &Handed,
    questions: &[Question],
    tally: &mut Tally,
    forms: &mut Forms,
) -> Result<(), String> {
    let rng = &mut Rng::new(seed);
    let lent_file = lent_bytes(rng, &handed.file);
    let lent_tables = handed.tables.each_ref().map(|table| lent_words(rng, table));
    let (file, tables, counts) = (lent_file.range(), lend(&lent_tables), handed.counts);
    let mut differences = Differences::default();
    for &Question { name_row, k, .. } in questions {
        let answer = star::value_number(file, tables, counts, name_row, k);
        let expected = reference::value_number(file, tables, counts, name_row, k);
        let call = format!("value_number {name_row}, {k}");
        let one = (answer.refusal, bits(answer.number()));
        differences.answer(&call, one, (expected.refusal, bits(expected.number())));
        tally[expected.refusal as usize] += 1;
        forms[expected.form as usize] += 1;
    }
    differences.unchanged("file", &lent_file, &handed.file);
    for (table, name) in TABLES.into_iter().enumerate() {
        differences.unchanged(name, &lent_tables[table], &handed.tables[table]);
    }
    differences.end(())
}

/// As `numbers`, failing with all that was handed in.
pub fn check_numbers(
    label: &str,
    seed: u64,
    handed: &Handed,
    questions: &[Question],
    tally: &mut Tally,
    forms: &mut Forms,
) {
    let compared = numbers(seed, handed, questions, tally, forms);
    compared.unwrap_or_else(|difference| fail(label, seed, handed, &difference))
}

//! Reading and conversion by layout, compared with the reference.

use tackturnel::{raw, star, Counts, Reading, TablesMut, Written};
use tackturnel_tests_support::generate::{Handed, Rng};
use tackturnel_tests_support::reference::{self, Layout};

use super::{junk_words, lend_mut, lent_bytes, written_into, Differences, TABLES};

/// Both layouts.
pub const LAYOUTS: [u32; 2] = [raw::STAR_LAYOUT_TODAY, raw::STAR_LAYOUT_1991];

/// The other of the two layouts.
pub fn other(layout: u32) -> u32 {
    LAYOUTS[1] - layout
}

/// The lengths of tables with this many words more, or less, than a file of a layout
/// needs. A number that is no layout's needs what today's does.
pub fn room(file: &[u8], layout: u32, spare: [isize; 5]) -> [usize; 5] {
    let layout = Layout::of(layout).unwrap_or(Layout::Today);
    let mut room = reference::words_needed_as(file, layout);
    for (words, spare) in room.iter_mut().zip(spare) {
        *words = words.saturating_add_signed(spare);
    }
    room
}

/// The bytes of a file's plain form, in either layout; 0 if it does not split into tokens.
pub fn plain_length(file: &[u8]) -> usize {
    reference::tokens(file).map_or(0, |tokens| reference::plain_form(file, &tokens).len())
}

/// Reads a file of a layout by both, with tables of these lengths.
pub fn read_into(seed: u64, file: &[u8], layout: u32, room: [usize; 5]) -> Result<Reading, String> {
    let rng = &mut Rng::new(seed);
    let lent_file = lent_bytes(rng, file);
    let mut tables = room.map(|length| junk_words(rng, length));
    let answer = star::read(lent_file.range(), layout, lend_mut(&mut tables));
    let (expected, expected_tables) = reference::read_as(file, layout, room);
    let mut differences = Differences::default();
    let call = format!("reading layout {layout} into {room:?} words");
    differences.answer(&call, answer, expected);
    differences.tables(&tables, &expected_tables);
    differences.unchanged("file", &lent_file, file);
    differences.end(expected)
}

/// Converts a file of a layout by both, with tables and an output of these lengths.
pub fn convert_into(
    seed: u64,
    file: &[u8],
    layout: u32,
    room: [usize; 5],
    out_length: usize,
) -> Result<(Written, Vec<u8>), String> {
    let expected = reference::convert(file, layout, room, out_length);
    let call = format!("converting layout {layout}");
    written_into(&call, seed, file, expected, |file, tables, out| {
        star::convert(file, layout, tables, out)
    })
}

/// A file of a layout and its tables as the library reads them; the counts are 0 where it
/// is refused.
pub fn handed(file: &[u8], layout: u32) -> (Reading, Handed) {
    let mut tables = room(file, layout, [0; 5]).map(|words| vec![7; words]);
    let reading = star::read(file, layout, TablesMut::of(&mut tables));
    (reading, Handed { file: file.to_vec(), tables, counts: reading.counts() })
}

/// What conversion by the library answers and writes, with the room that is needed.
pub fn converted(file: &[u8], layout: u32) -> (Written, [Vec<u32>; 5], Vec<u8>) {
    let mut tables = room(file, layout, [0; 5]).map(|words| vec![7; words]);
    let mut out = vec![7; plain_length(file)];
    let written = star::convert(file, layout, TablesMut::of(&mut tables), &mut out);
    out.truncate(written.length as usize);
    (written, tables, out)
}

/// Converts a file, reads what is written in the other layout and converts it back and over
/// again, all by the library: the tables are those of reading; the same rows but for offsets
/// and for the kinds of what closes a frame; every other token with the same content; back
/// in its own layout the file's plain form; and the same bytes when it goes over again.
/// Answers how many frames there are, none if the file is refused.
pub fn over_and_back(file: &[u8], layout: u32) -> Result<Option<u32>, String> {
    let (written, tables, over) = converted(file, layout);
    let (reading, as_read) = handed(file, layout);
    let mut differences = Differences::default();
    if written.refusal != raw::STAR_OK {
        // all but the plain form's own size is reading's refusal
        if reading.refusal != raw::STAR_OK {
            differences.answer("converting and reading", written.reading(), reading);
        }
        return differences.end(None);
    }
    differences.answer("converting and reading", written.reading(), reading);
    for table in 0..5 {
        differences.words(TABLES[table], &tables[table], &as_read.tables[table]);
    }
    let (again, over_read) = handed(&over, other(layout));
    differences.answer("reading what was written", again, reading);
    for table in 1..5 {
        differences.words(TABLES[table], &over_read.tables[table], &tables[table]);
    }
    let frames = tables[1].chunks_exact(3).filter(|row| row[0] == raw::STAR_SET_FRAME).count();
    if again.refusal == raw::STAR_OK {
        let turned = turned(&as_read, &over_read, layout);
        differences.answer(
            "tokens that close a frame (one) and frames (other)",
            turned,
            Ok(frames),
        );
    }
    let (returned, _, back) = converted(&over, other(layout));
    differences.answer("converting back", returned, written);
    let plain = reference::tokens(file).map(|tokens| reference::plain_form(file, &tokens));
    differences.words("the file's own plain form", &back, &plain.unwrap_or_default());
    let (_, _, twice) = converted(&back, layout);
    differences.words("over once more", &twice, &over);
    if layout == raw::STAR_LAYOUT_TODAY {
        let mut out = vec![7; back.len()];
        let mut tables = as_read.tables.each_ref().map(|table| vec![7; table.len()]);
        let written = star::write(file, TablesMut::of(&mut tables), &mut out);
        differences.answer("writing and converting back", written, returned);
        differences.words("what writing writes (one) and back (other)", &out, &back);
    }
    differences.end(Some(frames as u32))
}

/// How many tokens differ in kind between a file of a layout and what conversion made of
/// it; or the first that is no frame's end, or differs in content otherwise.
fn turned(file: &Handed, over: &Handed, layout: u32) -> Result<usize, usize> {
    let ends = [raw::STAR_TOKEN_FRAME_END, raw::STAR_TOKEN_STOP];
    let (one, other) = (ends[layout as usize], ends[1 - layout as usize]);
    let Counts { tokens, .. } = file.counts;
    let rows = |handed: &Handed| -> Vec<(u32, Vec<u8>)> {
        let content = |row: &[u32]| handed.file[row[1] as usize..row[2] as usize].to_vec();
        let rows = handed.tables[0].chunks_exact(3).take(tokens as usize);
        rows.map(|row| (row[0], content(row))).collect()
    };
    let mut count = 0;
    for (at, (before, after)) in rows(file).iter().zip(&rows(over)).enumerate() {
        if before != after {
            if (before.0, after.0) != (one, other) {
                return Err(at);
            }
            count += 1;
        }
    }
    Ok(count)
}

//! Old files and their header stops, compared with the reference.

use tackturnel::{raw, star, Counts, Reading, TablesMut, Written};
use tackturnel_tests_support::generate::Handed;
use tackturnel_tests_support::reference;

use super::{layouts, written_into, Differences, TABLES};

/// The lengths of tables with this many words more, or less, than an old file needs.
pub fn room(file: &[u8], spare: [isize; 5]) -> [usize; 5] {
    let mut room = reference::words_needed_by(file, reference::old_rules());
    for (words, spare) in room.iter_mut().zip(spare) {
        *words = words.saturating_add_signed(spare);
    }
    room
}

/// The bytes of an old file's plain form without its header stops; those of its plain form
/// where it is refused, 0 if it does not split into tokens.
pub fn dropped_length(file: &[u8]) -> usize {
    let dropped = reference::plain_form_dropped(file);
    dropped.map_or_else(|| layouts::plain_length(file), |plain| plain.len())
}

/// Drops the header stops of a file by both, with tables and an output of these lengths.
pub fn drop_into(
    seed: u64,
    file: &[u8],
    room: [usize; 5],
    out_length: usize,
) -> Result<(Written, Vec<u8>), String> {
    let expected = reference::drop_header_stops(file, room, out_length);
    written_into("dropping header stops", seed, file, expected, star::drop_header_stops)
}

/// What dropping the header stops by the library answers, leaves and writes, with the room
/// that is needed.
pub fn dropped(file: &[u8]) -> (Written, Handed, Vec<u8>) {
    let mut tables = room(file, [0; 5]).map(|words| vec![7; words]);
    let mut out = vec![7; dropped_length(file)];
    let written = star::drop_header_stops(file, TablesMut::of(&mut tables), &mut out);
    out.truncate(written.length as usize);
    (written, Handed { file: file.to_vec(), tables, counts: written.counts() }, out)
}

/// What writing by the library answers, leaves and writes, with this room.
fn written(file: &[u8], room: [usize; 5], out_length: usize) -> (Written, [Vec<u32>; 5], Vec<u8>) {
    let (mut tables, mut out) = (room.map(|words| vec![7; words]), vec![7; out_length]);
    let written = star::write(file, TablesMut::of(&mut tables), &mut out);
    (written, tables, out)
}

/// Drops the header stops of a file, reads and writes what was written and drops once more,
/// all by the library: what is written is accepted with the same sets, names, packets and
/// values, in the same order and with the same contents, and no other tokens are gone;
/// writing it and dropping once more give the same bytes. Beside reading and writing the
/// file itself: refused alike but for header stops, and all the same without any. Answers
/// how many header stops there are, none if the file is refused.
pub fn drops_and_reads(file: &[u8]) -> Result<Option<u32>, String> {
    let (answer, old, out) = dropped(file);
    let mut differences = Differences::default();
    let (reading, read) = layouts::handed(file, raw::STAR_LAYOUT_TODAY);
    let retired = reading.refusal == raw::STAR_HEADER_STOP;
    if !retired {
        // without header stops before what is refused, and in an accepted file
        let plain = layouts::plain_length(file);
        let room = old.tables.each_ref().map(Vec::len);
        let (written, tables, plain) = written(file, room, plain);
        differences.answer("dropping (one) and writing (other)", answer, written);
        for table in 0..5 {
            differences.words(TABLES[table], &old.tables[table], &tables[table]);
        }
        differences.words("what is written", &out, &plain[..written.length as usize]);
        if reading.refusal == raw::STAR_OK {
            differences.words("tokens", &old.tables[0], &read.tables[0]);
        }
    } else if answer.refusal != raw::STAR_OK && answer.place != 0 && answer.place <= reading.place {
        differences.line(format!("dropping refuses before reading: {answer:?}, {reading:?}"));
    }
    if answer.refusal == raw::STAR_HEADER_STOP {
        differences.line(format!("dropping refuses a header stop: {answer:?}"));
    }
    if answer.refusal != raw::STAR_OK {
        return differences.end(None);
    }
    let (again, new) = layouts::handed(&out, raw::STAR_LAYOUT_TODAY);
    let stops = answer.tokens.wrapping_sub(again.tokens);
    let expected = Reading { tokens: again.tokens, ..answer.reading() };
    differences.answer("reading what was written", again, expected);
    if again.refusal == raw::STAR_OK {
        same_contents(&mut differences, &old, &new);
        differences.answer("whether there are header stops", stops > 0, retired);
        let room = new.tables.each_ref().map(Vec::len);
        let (rewritten, tables, plain) = written(&out, room, out.len());
        let same = Written { tokens: again.tokens, ..answer };
        differences.answer("writing what was written", rewritten, same);
        differences.words("what was written (other), once more", &plain, &out);
        let (twice, once_more, plain) = dropped(&out);
        differences.answer("dropping once more", twice, rewritten);
        differences.words("what was written (other), dropped once more", &plain, &out);
        for table in 0..5 {
            differences.words(TABLES[table], &once_more.tables[table], &tables[table]);
        }
    }
    differences.end(Some(stops))
}

/// A token's kind and content.
type Content = (u32, Vec<u8>);

/// The kind and content of a token row.
fn token(handed: &Handed, row: u32) -> Content {
    let words = &handed.tables[0][3 * (row as usize - 1)..3 * row as usize];
    (words[0], handed.file[words[1] as usize..words[2] as usize].to_vec())
}

/// The tokens of both but for `stop_` are the same, and the rows of tables 2 to 5 are, with
/// the kinds and contents of their tokens in place of token rows.
fn same_contents(differences: &mut Differences, old: &Handed, new: &Handed) {
    let kept = |handed: &Handed| -> Vec<Content> {
        let Counts { tokens, .. } = handed.counts;
        let tokens = (1..=tokens).map(|row| token(handed, row));
        tokens.filter(|token| token.0 != raw::STAR_TOKEN_STOP).collect()
    };
    differences.answer("tokens but for stop_, of the new file and the old", kept(new), kept(old));
    // in each table which word is a token row, if one is
    for (table, width, at) in [(1, 3, Some(1)), (2, 4, Some(1)), (3, 3, None), (4, 4, Some(2))] {
        let rows = |handed: &Handed| -> Vec<(Vec<u32>, Content)> {
            let row = |row: &[u32]| {
                let (mut words, mut content) = (row.to_vec(), Content::default());
                if let Some(at) = at {
                    (words[at], content) = (0, token(handed, words[at]));
                }
                (words, content)
            };
            handed.tables[table].chunks_exact(width).map(row).collect()
        };
        let (of_new, of_old) = (rows(new), rows(old));
        differences.answer("rows, of the new file and the old", of_new.len(), of_old.len());
        differences.words(TABLES[table], &of_new, &of_old);
    }
}

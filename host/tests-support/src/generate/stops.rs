//! Old files: with header stops, which the rules for old files accept and today's refuse.

use super::{filled, laid_out, layouts, value, Piece, Rng};
use crate::reference;

/// How many header stops to give a loop of so many levels: none, one, as many as may be,
/// or any number between.
pub(super) fn count(rng: &mut Rng, depth: usize) -> usize {
    let any = rng.below(depth);
    rng.pick(&[0, 1.min(depth - 1), any, depth - 1])
}

/// An old file, at times without header stops after all.
pub fn file(rng: &mut Rng) -> Vec<u8> {
    let [old, _] = pair(rng);
    old
}

/// An old file, and the same with blanks in place of the header stops, which today's rules
/// accept.
pub fn pair(rng: &mut Rng) -> [Vec<u8>; 2] {
    let pieces = pieces(rng);
    let old = laid_out(rng, &pieces);
    let tokens = reference::tokens(&old).expect("an old file splits into tokens");
    let mut today = old.clone();
    for at in stops(&pieces) {
        today[tokens[at].start..tokens[at].end].fill(b' ');
    }
    [old, today]
}

/// An old file with something changed at a header stop or near it, or with any tokens
/// changed.
pub fn changed(rng: &mut Rng) -> Vec<u8> {
    let mut pieces = pieces(rng);
    for _ in 0..rng.pick(&[1, 1, 1, 2]) {
        change(rng, &mut pieces);
    }
    if rng.once_in(8) {
        super::damage_tokens(rng, &mut pieces);
    }
    laid_out(rng, &pieces)
}

/// The header stops among the tokens of an old file: `stop_` after a name or after another
/// one.
fn stops(pieces: &[Piece]) -> Vec<usize> {
    let mut stops: Vec<usize> = Vec::new();
    for at in 1..pieces.len() {
        let after_name = is_name(&pieces[at - 1]);
        let after_stop = stops.last() == Some(&(at - 1));
        if pieces[at].bytes == b"stop_" && (after_name || after_stop) {
            stops.push(at);
        }
    }
    stops
}

fn is_name(piece: &Piece) -> bool {
    piece.bytes[0] == b'_'
}

fn change(rng: &mut Rng, pieces: &mut Vec<Piece>) {
    let stops = stops(pieces);
    if stops.is_empty() {
        let at = rng.below(pieces.len() + 1);
        pieces.insert(at, Piece::word("stop_"));
        return;
    }
    let at = rng.pick(&stops);
    let names: Vec<usize> = (0..at).filter(|&at| is_name(&pieces[at])).collect();
    let name = pieces[rng.pick(&names)].clone();
    match rng.below(20) {
        // one more
        0 | 1 => pieces.insert(at, Piece::word("stop_")),
        // after it: a name, taken or not, a level, and what ends a loop
        2 => pieces.insert(at + 1, name),
        3 => pieces.insert(at + 1, Piece::word("_new")),
        4 => pieces.insert(at + 1, Piece::word("loop_")),
        5 => {
            pieces.insert(at + 1, Piece::word("loop_"));
            pieces.insert(at + 2, Piece::word("_new"));
        }
        6..=8 => {
            let words = ["data_-", "save_-", "save_", "global_"];
            pieces.insert(at + 1, Piece::word(rng.pick(&words)));
        }
        9 => pieces.truncate(at + 1),
        // no packet, or one value less
        10 if at + 1 < pieces.len() => drop(pieces.remove(at + 1)),
        // somewhere else, near it or not
        11 => pieces.swap(at, at - 1),
        12 if at + 1 < pieces.len() => pieces.swap(at, at + 1),
        13 => {
            let stop = pieces.remove(at);
            let to = rng.below(pieces.len() + 1);
            pieces.insert(to, stop);
        }
        // before it: a taken name, no name, a level, a value
        14 => pieces.insert(at, name),
        15 => drop(pieces.remove(at - 1)),
        16 => pieces.insert(at, Piece::word("loop_")),
        17 => pieces.insert(at, value(rng)),
        // the code of the first block once more, if it has one
        18 => pieces.push(pieces[0].clone()),
        _ => super::damage_tokens(rng, pieces),
    }
}

// ---------------------------------------------------------------- tokens

/// The tokens of an old file: loops of one level to eight in data and global blocks and in
/// frames, most of them with header stops, or a file of any sort.
fn pieces(rng: &mut Rng) -> Vec<Piece> {
    if rng.once_in(2) {
        return layouts::pieces(rng, true);
    }
    let mut pieces = Vec::new();
    for number in 0..rng.pick(&[1, 1, 2, 3]) {
        let global = rng.once_in(3);
        pieces.push(Piece::word(if global { "global_".into() } else { format!("data_{number}") }));
        set(rng, &mut pieces);
        if rng.once_in(2) {
            pieces.push(Piece::word("save_f"));
            set(rng, &mut pieces);
            pieces.push(Piece::word("save_"));
        }
    }
    pieces
}

/// Up to three loops, their names numbered.
fn set(rng: &mut Rng, pieces: &mut Vec<Piece>) {
    let mut names = 0;
    for _ in 0..rng.below(4) {
        let depth = rng.between(1, 8);
        let levels: Vec<usize> = (0..depth).map(|_| rng.pick(&[1, 1, 1, 2])).collect();
        for &count in &levels {
            pieces.push(Piece::word("loop_"));
            for _ in 0..count {
                names += 1;
                pieces.push(Piece::word(format!("_{names}")));
            }
        }
        pieces.extend((0..count(rng, depth)).map(|_| Piece::word("stop_")));
        for _ in 0..rng.between(1, 2) {
            layouts::packet(rng, pieces, &levels);
        }
    }
}

// ----------------------------------------------------------- large files

/// Files of the largest size, of one byte more, and with plain forms there, with and
/// without their header stops.
pub fn largest() -> Vec<(&'static str, Vec<u8>)> {
    const BLOCK: &[u8] = b"global_ loop_ _x loop_ _y stop_ 1 stop_\n";
    const GROWING: &[u8] = b"global_ loop_ _x loop_ _y stop_ ; stop_\n";
    const DEEP: &[u8] = b"global_ loop_ _a loop_ _b loop_ _c loop_ _d loop_ _e loop_ _f loop_ _g \
        loop_ _h stop_ stop_ stop_ stop_ stop_ stop_ stop_ 1 stop_\n";
    const ONE: &[u8] = b"data_a loop_ _x loop_ _y stop_ 1 ";
    let most = crate::MOST_BYTES;
    vec![
        ("blocks of one header stop", filled(b"", BLOCK, b"", most)),
        ("blocks of one header stop, one more", filled(b"", BLOCK, b"", most + 1)),
        ("blocks of seven header stops", filled(b"", DEEP, b"", most)),
        ("one header stop and many packets", filled(ONE, b"2 ", b"stop_", most)),
        ("one header stop and an open level", filled(ONE, b"2 ", b"", most)),
        (
            "a header stop at the end",
            filled(b"data_a loop_ _v ", b"1 ", b"loop_ _x loop_ _y stop_", most),
        ),
        (
            "two header stops at the end",
            filled(b"data_a loop_ _v ", b"1 ", b"loop_ _x loop_ _y stop_ stop_ 1 stop_", most),
        ),
        ("a plain form over the limit by its header stops", filled(b"", GROWING, b"", most)),
        (
            "words that just fit in the plain form",
            filled(b"data_a loop_ _xy loop_ _y stop_ 1 ", b"; ", b"stop_\n", 699_068),
        ),
        (
            "words one byte over in the plain form",
            filled(b"data_a loop_ _xyz loop_ _y stop_ 1 ", b"; ", b"stop_\n", 699_069),
        ),
    ]
}

#[cfg(test)]
mod tests {
    use super::*;
    use crate::notation::escaped;
    use crate::reference::{
        drop_header_stops, old_rules, plain_form, plain_form_dropped, read, read_as,
        read_with_header_stops, rows, tokens, words_needed, words_needed_as, words_needed_by,
        Layout,
    };
    use crate::MOST_BYTES;

    /// The rows of header stops of an old file.
    fn header_stops(file: &[u8]) -> Vec<u32> {
        let tokens = tokens(file).expect("an old file splits into tokens");
        rows(file, &tokens, old_rules()).expect("an old file is accepted").header_stops
    }

    /// Old files are accepted by their rules and refused by today's, in both layouts, at the
    /// first header stop; there are headers with one to seven of them, in every sort of set.
    #[test]
    fn old_files_are_accepted_and_varied() {
        // by how many header stops there are of a loop, and by the kind of its set
        let [mut counts, mut kinds] = [[0u32; 8]; 2];
        let mut without = 0;
        for seed in 0..3000 {
            let file = file(&mut Rng::new(seed));
            let (answer, tables) =
                read_with_header_stops(&file, words_needed_by(&file, old_rules()));
            assert_eq!(answer.refusal, 0, "seed {seed}: {}", escaped(&file));
            let stops = header_stops(&file);
            let at = |row: u32| tokens(&file).expect("it splits")[row as usize - 1].at as u32;
            let first = stops.first().map_or((0, 0), |&row| (16, at(row)));
            let today = read(&file, words_needed(&file)).0;
            assert_eq!((today.refusal, today.place), first, "seed {seed}: {}", escaped(&file));
            let of_1991 = layouts::of_1991(&file);
            let today = read_as(&of_1991, 1, words_needed_as(&of_1991, Layout::Of1991)).0;
            assert_eq!((today.refusal, today.place), first, "seed {seed}: {}", escaped(&of_1991));
            without += u32::from(stops.is_empty());
            for run in stops.chunk_by(|one, other| one + 1 == *other) {
                counts[run.len()] += 1;
                let name = tables[2].chunks(4).find(|row| row[1] == run[0] - 1);
                let set = name.expect("a name before a header stop")[0];
                kinds[tables[1][3 * (set as usize - 1)] as usize] += 1;
            }
        }
        assert!(counts[1..].iter().all(|&count| count > 100), "{counts:?}");
        assert!(kinds[1..4].iter().all(|&count| count > 100), "{kinds:?}");
        assert!(without > 100, "{without}");
    }

    /// Of a pair the old file has, without its header stops, the plain form of the other,
    /// and the same rows but for those of tokens.
    #[test]
    fn pairs_are_the_same_without_header_stops() {
        for seed in 0..3000 {
            let [old, today] = pair(&mut Rng::new(seed));
            let plain = plain_form(&today, &tokens(&today).expect("it splits"));
            let needed = words_needed_by(&old, old_rules());
            let (written, tables, out) = drop_header_stops(&old, needed, plain.len());
            assert_eq!((written.refusal, written.length), (0, plain.len() as u32), "seed {seed}");
            assert_eq!(escaped(&out), escaped(&plain), "seed {seed}");
            assert_eq!(plain_form_dropped(&old), Some(plain), "seed {seed}");
            let (reading, of_today) = read(&today, words_needed(&today));
            assert_eq!(reading.refusal, 0, "seed {seed}");
            let stops = header_stops(&old);
            // the row of a token of the old file among those that are kept
            let kept = |row: u32| row - stops.partition_point(|&stop| stop < row) as u32;
            let moved = |table: usize, width: usize, at: usize| {
                let mut words = tables[table].clone();
                words.iter_mut().skip(at).step_by(width).for_each(|row| *row = kept(*row));
                words
            };
            assert_eq!(of_today[1], moved(1, 3, 1), "seed {seed}");
            assert_eq!(of_today[2], moved(2, 4, 1), "seed {seed}");
            assert_eq!(of_today[3], tables[3], "seed {seed}");
            assert_eq!(of_today[4], moved(4, 4, 2), "seed {seed}");
        }
    }

    /// Changed files are refused for every reason by both rules, and some are accepted.
    #[test]
    fn changed_files_are_varied() {
        let [mut today, mut old] = [[0u32; 17]; 2];
        for seed in 0..6000 {
            let file = changed(&mut Rng::new(seed));
            today[read(&file, words_needed(&file)).0.refusal as usize] += 1;
            let room = words_needed_by(&file, old_rules());
            old[read_with_header_stops(&file, room).0.refusal as usize] += 1;
        }
        for tally in [today, old] {
            assert!([8, 9, 10].iter().all(|&refusal| tally[refusal] > 50), "{tally:?}");
            assert!([0, 4, 11].iter().all(|&refusal| tally[refusal] > 5), "{tally:?}");
        }
        assert!(today[16] > 1000, "{today:?}");
        assert_eq!(old[16], 0, "{old:?}");
    }

    #[test]
    fn largest_files_are_as_named() {
        for (name, file) in largest() {
            let over = name.ends_with("one more");
            assert_eq!(file.len() > MOST_BYTES, over, "{name}");
            let today = read(&file, words_needed(&file)).0.refusal;
            assert_eq!(today, if over { 1 } else { 16 }, "{name}");
            let needed = words_needed_by(&file, old_rules());
            let reading = read_with_header_stops(&file, needed).0;
            let refusal = match name {
                "one header stop and an open level" => 10,
                "a header stop at the end" | "two header stops at the end" => 8,
                _ => u32::from(over),
            };
            assert_eq!(reading.refusal, refusal, "{name}, {}", reading.place);
            let whole = plain_form(&file, &tokens(&file).expect("it splits")).len();
            let dropped = plain_form_dropped(&file).map(|plain| plain.len());
            let sizes = match name {
                "a plain form over the limit by its header stops" => {
                    let fits = dropped.is_some_and(|bytes| bytes < MOST_BYTES);
                    assert!(whole > MOST_BYTES && fits, "{name}: {whole}, {dropped:?}");
                    continue;
                }
                "words that just fit in the plain form" => (MOST_BYTES + 6, Some(MOST_BYTES)),
                "words one byte over in the plain form" => (MOST_BYTES + 7, Some(MOST_BYTES + 1)),
                _ => continue,
            };
            assert_eq!((whole, dropped), sizes, "{name}");
        }
    }
}

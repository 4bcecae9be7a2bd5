//! Files of many save frames as each layout has them: closed by `save_`, and by `stop_`.

use super::{filled, laid_out, stops, value, Piece, Rng};
use crate::reference;

/// A file that is accepted in today's layout, and the same bytes as the layout of 1991
/// has them, accepted there: `stop_` for each `save_` alone.
pub fn pair(rng: &mut Rng) -> [Vec<u8>; 2] {
    let today = pieces(rng, false);
    let mut of_1991 = today.clone();
    of_1991.iter_mut().filter(|piece| is(piece, "save_")).for_each(turn);
    // the words are of one length, and so is all that stands between
    let mut same = rng.clone();
    [laid_out(rng, &today), laid_out(&mut same, &of_1991)]
}

/// The bytes of a file that splits into tokens, with `stop_` for each `save_` alone.
pub fn of_1991(file: &[u8]) -> Vec<u8> {
    let tokens = reference::tokens(file).expect("the file splits into tokens");
    let mut old = file.to_vec();
    for token in tokens.iter().filter(|token| token.kind == 3) {
        old[token.start..token.end].copy_from_slice(b"stop_");
    }
    old
}

/// A file accepted in the layout of 1991 or, at times, in today's.
pub fn file(rng: &mut Rng) -> Vec<u8> {
    let [today, of_1991] = pair(rng);
    if rng.once_in(4) {
        today
    } else {
        of_1991
    }
}

/// A file of either layout, at times with header stops, with a few of its `stop_` and
/// `save_` changed, left out or put somewhere else, or with any tokens changed.
pub fn changed(rng: &mut Rng) -> Vec<u8> {
    let stops = rng.once_in(4);
    let mut pieces = pieces(rng, stops);
    if !rng.once_in(3) {
        pieces.iter_mut().filter(|piece| is(piece, "save_")).for_each(turn);
    }
    for _ in 0..rng.pick(&[1, 1, 1, 2, 4]) {
        change(rng, &mut pieces);
    }
    if rng.once_in(8) {
        super::damage_tokens(rng, &mut pieces);
    }
    laid_out(rng, &pieces)
}

fn is(piece: &Piece, word: &str) -> bool {
    piece.bytes == word.as_bytes()
}

/// Gives a closing word for the other.
fn turn(piece: &mut Piece) {
    *piece = Piece::word(if is(piece, "save_") { "stop_" } else { "save_" });
}

fn change(rng: &mut Rng, pieces: &mut Vec<Piece>) {
    let closes = |piece: &Piece| is(piece, "stop_") || is(piece, "save_");
    let places: Vec<usize> = (0..pieces.len()).filter(|&at| closes(&pieces[at])).collect();
    let anywhere = rng.below(pieces.len() + 1);
    let word = Piece::word(rng.pick(&["stop_", "stop_", "save_"]));
    if places.is_empty() {
        pieces.insert(anywhere, word);
        return;
    }
    let at = rng.pick(&places);
    match rng.below(7) {
        0 => turn(&mut pieces[at]),
        1 => drop(pieces.remove(at)),
        2 => pieces.insert(at, word),
        3 => pieces.truncate(at),
        4 => {
            // a frame or an inner level ends earlier or later
            let moved = pieces.remove(at);
            let to = (at + rng.below(5)).saturating_sub(2).min(pieces.len());
            pieces.insert(to, moved);
        }
        5 if at > 0 => drop(pieces.remove(at - 1)),
        _ => pieces.insert(anywhere, word),
    }
}

// ---------------------------------------------------------------- tokens

/// About how many tokens these files have at most.
const SIZE: usize = 200;

/// The tokens of an accepted file of today's layout, or of an old one that may have header
/// stops: data and global blocks with frames, and items and loops before, between and after
/// them.
pub(super) fn pieces(rng: &mut Rng, stops: bool) -> Vec<Piece> {
    if rng.once_in(4) {
        return super::built(rng, stops);
    }
    let mut pieces = Vec::new();
    for number in 0..rng.pick(&[1, 1, 1, 2, 3]) {
        let global = rng.once_in(4);
        pieces.push(Piece::word(if global { "global_".into() } else { format!("data_{number}") }));
        let mut names = 0;
        for code in 0..rng.below(6) {
            if rng.once_in(3) {
                member(rng, &mut pieces, &mut names, stops);
            } else if pieces.len() < SIZE {
                frame(rng, &mut pieces, code, stops);
            }
        }
    }
    pieces
}

/// A frame of up to three items and loops; its names come again in others and in the block.
fn frame(rng: &mut Rng, pieces: &mut Vec<Piece>, code: usize, stops: bool) {
    pieces.push(Piece::word(format!("save_{code}")));
    let mut names = 0;
    for _ in 0..rng.pick(&[0, 0, 1, 1, 1, 2, 3]) {
        member(rng, pieces, &mut names, stops);
    }
    pieces.push(Piece::word("save_"));
}

/// An item or a loop of one level or more, their names numbered.
fn member(rng: &mut Rng, pieces: &mut Vec<Piece>, names: &mut usize, stops: bool) {
    let mut name = || {
        *names += 1;
        Piece::word(format!("_{names}"))
    };
    if rng.once_in(4) {
        pieces.extend([name(), word(rng)]);
        return;
    }
    let depth = rng.pick(&[1, 1, 1, 2, 2, 2, 3, 3, 4, 8]);
    let levels: Vec<usize> = (0..depth).map(|_| rng.pick(&[1, 1, 2])).collect();
    for &count in &levels {
        pieces.push(Piece::word("loop_"));
        pieces.extend((0..count).map(|_| name()));
    }
    if stops {
        pieces.extend((0..stops::count(rng, depth)).map(|_| Piece::word("stop_")));
    }
    for _ in 0..rng.pick(&[1, 1, 2, 3]) {
        packet(rng, pieces, &levels);
    }
}

/// The values of a packet and, if there is a deeper level, its packets and `stop_`.
pub(super) fn packet(rng: &mut Rng, pieces: &mut Vec<Piece>, levels: &[usize]) {
    pieces.extend((0..levels[0]).map(|_| word(rng)));
    let deeper = &levels[1..];
    if deeper.is_empty() {
        return;
    }
    for _ in 0..rng.pick(&[0, 1, 1, 2]) {
        if pieces.len() < SIZE {
            packet(rng, pieces, deeper);
        }
    }
    pieces.push(Piece::word("stop_"));
}

/// A value, most often a short number.
fn word(rng: &mut Rng) -> Piece {
    if rng.once_in(8) {
        value(rng)
    } else {
        Piece::word(format!("{}", rng.below(100)))
    }
}

// ----------------------------------------------------------- large files

/// Files of the largest size, of one byte more, and with plain forms there, as the layout
/// of 1991 has them.
pub fn largest() -> Vec<(&'static str, Vec<u8>)> {
    const FRAME: &[u8] = b"global_ save_f stop_ ";
    const LOOP: &[u8] = b"global_ save_f loop_ _x loop_ _y 1 2 stop_ 3 stop_ stop_\n";
    let most = crate::MOST_BYTES;
    vec![
        ("empty frames", filled(b"", FRAME, b"", most)),
        ("empty frames, one more", filled(b"", FRAME, b"", most + 1)),
        ("frames of nested loops", filled(b"", LOOP, b"", most)),
        ("frames of nested loops, one more", filled(b"", LOOP, b"", most + 1)),
        ("one frame of one loop", filled(b"data_a save_f loop_ _x ", b"1 ", b" stop_", most)),
        ("one frame that is not closed", filled(b"data_a save_f loop_ _x ", b"1 ", b"", most)),
        (
            "one frame after an inner level",
            filled(b"data_a save_f loop_ _x loop_ _y 1 ", b"2 ", b"stop_ stop_", most),
        ),
        (
            "an inner level that takes the last stop_",
            filled(b"data_a save_f loop_ _x loop_ _y 1 ", b"2 ", b"      stop_", most),
        ),
        ("save_ at the end", filled(b"data_a save_f loop_ _x ", b"1 ", b" save_", most)),
        ("save_ in a packet", filled(b"data_a save_f loop_ _x _y 1 ", b"2 3 ", b"save_", most)),
        ("frames of items", filled(b"", b"global_ save_f _x 1 stop_ _x 2 ", b"", most)),
        (
            "words that grow in the plain form",
            filled(b"data_a save_f loop_ _x ", b"; ", b"stop_", most),
        ),
        (
            "words that just fit in the plain form",
            filled(b"data_a save_f loop_ _xyz ", b"; ", b"stop_\n", 699_061),
        ),
        (
            "words one byte over in the plain form",
            filled(b"data_a save_f loop_ _wxyz ", b"; ", b"stop_\n", 699_062),
        ),
    ]
}

#[cfg(test)]
mod tests {
    use super::*;
    use crate::notation::escaped;
    use crate::reference::{
        convert, plain_form, read, read_as, tokens, words_needed, words_needed_as, Layout,
    };
    use crate::MOST_BYTES;

    /// Both files of a pair are accepted with the same rows but for the kinds of what closes
    /// a frame, and there are frames of every sort.
    #[test]
    fn pairs_are_accepted_and_varied() {
        const SORTS: [&str; 10] = [
            "an empty frame",
            "after an item",
            "after a flat loop",
            "after an inner level",
            "after two inner levels or more",
            "after an inner level that is empty",
            "frame after frame",
            "a block's own after a frame",
            "a block after a frame",
            "of a global block",
        ];
        let mut counts = [0u32; SORTS.len()];
        for seed in 0..3000 {
            let [today, of_1991] = pair(&mut Rng::new(seed));
            let (answer, mut tables) = read(&today, words_needed(&today));
            assert_eq!(answer.refusal, 0, "seed {seed}: {}", escaped(&today));
            let kinds: Vec<u32> = tables[0].chunks(3).map(|row| row[0]).collect();
            let closes = (0..kinds.len()).filter(|&at| kinds[at] == 3);
            let of_global: Vec<bool> = tables[1]
                .chunks(3)
                .filter(|row| row[0] == 2)
                .map(|row| tables[1][3 * (row[2] as usize - 1)] == 3)
                .collect();
            for (at, global) in closes.clone().zip(of_global) {
                let value = |at: usize| (7..=11).contains(&kinds[at]);
                let item = value(at - 1) && kinds[at - 2] == 6 && {
                    // the only name of a header has its `loop_` before it
                    kinds[at - 3] != 4 && kinds[at - 3] != 6
                };
                let next = kinds.get(at + 1).copied().unwrap_or(0);
                let holds = [
                    kinds[at - 1] == 2,
                    item,
                    value(at - 1) && !item,
                    kinds[at - 1] == 5,
                    kinds[at - 1] == 5 && kinds[at - 2] == 5,
                    kinds[at - 1] == 5 && value(at - 2) && kinds[at - 3] != 5,
                    next == 2,
                    matches!(next, 4 | 6),
                    matches!(next, 1 | 12),
                    global,
                ];
                for (count, holds) in counts.iter_mut().zip(holds) {
                    *count += u32::from(holds);
                }
            }
            let closes: Vec<usize> = closes.collect();
            closes.into_iter().for_each(|at| tables[0][3 * at] = 5);
            assert_eq!(of_1991, super::of_1991(&today), "seed {seed}");
            let read_old = read_as(&of_1991, 1, words_needed_as(&of_1991, Layout::Of1991));
            assert_eq!(read_old, (answer, tables), "seed {seed}: {}", escaped(&of_1991));
        }
        for (sort, count) in SORTS.iter().zip(counts) {
            assert!(count > 100, "{sort}: {counts:?}");
        }
    }

    /// The plain form of a file that is accepted in a layout, in the other one.
    fn converted(file: &[u8], layout: u32) -> Vec<u8> {
        let room = words_needed_as(file, Layout::of(layout).expect("a layout"));
        let (written, _, mut out) = convert(file, layout, room, 2 * file.len() + 2);
        assert_eq!(written.refusal, 0, "{layout}: {}", escaped(file));
        out.truncate(written.length as usize);
        out
    }

    /// Conversion makes the plain form of one of a pair of the other, and back.
    #[test]
    fn conversion_goes_over_and_back() {
        for seed in 0..3000 {
            let pair = pair(&mut Rng::new(seed));
            let plain = |file: &[u8]| plain_form(file, &tokens(file).expect("it splits"));
            let plain = [plain(&pair[0]), plain(&pair[1])];
            for (layout, other) in [(0, 1), (1, 0)] {
                let over = converted(&pair[layout], layout as u32);
                assert_eq!(escaped(&over), escaped(&plain[other]), "seed {seed}");
                let back = converted(&over, other as u32);
                assert_eq!(escaped(&back), escaped(&plain[layout]), "seed {seed}");
            }
        }
    }

    /// Changed files are refused in either layout for every reason that a closing word may
    /// give, and some are accepted.
    #[test]
    fn changed_files_are_varied() {
        let mut tally = [[0u32; 17]; 2];
        for seed in 0..6000 {
            let file = changed(&mut Rng::new(seed));
            for (layout, tally) in tally.iter_mut().enumerate() {
                let room = words_needed_as(&file, Layout::of(layout as u32).expect("a layout"));
                tally[read_as(&file, layout as u32, room).0.refusal as usize] += 1;
            }
        }
        for tally in tally {
            assert!([0, 8, 10, 16].iter().all(|&refusal| tally[refusal] > 200), "{tally:?}");
            assert!(tally[9] > 5, "{tally:?}");
        }
    }

    #[test]
    fn largest_files_are_as_named() {
        for (name, file) in largest() {
            let over = name.ends_with("one more");
            let needed = words_needed_as(&file, Layout::Of1991);
            let reading = read_as(&file, 1, needed).0;
            assert_eq!(file.len() > MOST_BYTES, over, "{name}");
            let refusal = match name {
                "one frame that is not closed" => 8,
                "an inner level that takes the last stop_" => 8,
                "save_ at the end" => 8,
                "save_ in a packet" => 10,
                _ => u32::from(over),
            };
            assert_eq!(reading.refusal, refusal, "{name}, {}", reading.place);
            let plain = plain_form(&file, &tokens(&file).expect("it splits")).len();
            if name.ends_with("just fit in the plain form") {
                assert_eq!(plain, MOST_BYTES, "{name}");
            } else if name.ends_with("one byte over in the plain form") {
                assert_eq!(plain, MOST_BYTES + 1, "{name}");
            }
        }
    }
}

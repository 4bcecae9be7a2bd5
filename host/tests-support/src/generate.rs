//! Files, tables and slots to compare readers on, all from seeds.

pub mod columns;
pub mod globals;
pub mod indexes;
pub mod layouts;
pub mod numbers;
pub mod pairs;
pub mod stops;
pub mod twins;

use std::collections::HashSet;

use tackturnel::Counts;

use crate::{MOST_BYTES, MOST_NAME_BYTES, OLD_NAME_BYTES, WIDTHS};

// -------------------------------------------------------------- numbers

/// A small generator of numbers (splitmix64).
#[derive(Clone, Debug)]
pub struct Rng(u64);

impl Rng {
    /// The generator of a seed.
    pub fn new(seed: u64) -> Self {
        Rng(seed.wrapping_mul(0xd134_2543_de82_ef95) ^ 0x5354_4152)
    }

    /// The next number.
    pub fn number(&mut self) -> u64 {
        self.0 = self.0.wrapping_add(0x9e37_79b9_7f4a_7c15);
        let mut mixed = self.0;
        mixed = (mixed ^ (mixed >> 30)).wrapping_mul(0xbf58_476d_1ce4_e5b9);
        mixed = (mixed ^ (mixed >> 27)).wrapping_mul(0x94d0_49bb_1331_11eb);
        mixed ^ (mixed >> 31)
    }

    /// A number below `limit`, which is not 0.
    pub fn below(&mut self, limit: usize) -> usize {
        (self.number() % limit as u64) as usize
    }

    /// A number from `least` up to `most`.
    pub fn between(&mut self, least: usize, most: usize) -> usize {
        least + self.below(most - least + 1)
    }

    /// True once in `times`.
    pub fn once_in(&mut self, times: usize) -> bool {
        self.below(times) == 0
    }

    /// One of a list.
    pub fn pick<T: Copy>(&mut self, list: &[T]) -> T {
        list[self.below(list.len())]
    }
}

/// One of the words of a list.
fn one_of<'a>(rng: &mut Rng, list: &'a str) -> &'a str {
    let words: Vec<&str> = list.split_whitespace().collect();
    rng.pick(&words)
}

// --------------------------------------------------------------- tokens

/// The bytes of one token. A word that begins with `;` is no text field.
#[derive(Clone, Debug)]
struct Piece {
    bytes: Vec<u8>,
    text_field: bool,
}

impl Piece {
    fn word(bytes: impl Into<Vec<u8>>) -> Self {
        Piece { bytes: bytes.into(), text_field: false }
    }

    fn text(rng: &mut Rng) -> Self {
        let (content, end) = (text(rng), rng.pick(&LINE_ENDS));
        let bytes = [b";", content.as_slice(), end, b";"].concat();
        Piece { bytes, text_field: true }
    }
}

const BLANKS: [u8; 3] = [9, 11, 32];
const TERMINATES: [u8; 3] = [10, 12, 13];
const LINE_ENDS: [&[u8]; 4] = [b"\n", b"\x0c", b"\r", b"\r\n"];
/// Lengths of names and codes: the limits, old and new, and one byte more.
const AT_LIMITS: [usize; 4] =
    [OLD_NAME_BYTES, OLD_NAME_BYTES + 1, MOST_NAME_BYTES, MOST_NAME_BYTES + 1];
/// Bytes at which readers slip.
const SHARP: &[u8] = b";;;'\"'\"#_$$ \n\t\r\x0b\x0c01az";

/// A byte of white space, or 13, 10.
fn white(rng: &mut Rng) -> &'static [u8] {
    let kinds: [&[u8]; 10] =
        [b" ", b"\n", b" ", b"\n", b"\r\n", b"\r\n", b"\t", b"\x0b", b"\x0c", b"\r"];
    rng.pick(&kinds)
}

/// A byte that a word may hold.
fn letter(rng: &mut Rng) -> u8 {
    match rng.below(4) {
        0 => rng.between(33, 126) as u8,
        1 => rng.pick(b";'\"#_$"),
        _ => rng.pick(b"abcxyz0123456789.-"),
    }
}

fn letters(rng: &mut Rng, most: usize) -> Vec<u8> {
    (0..rng.below(most + 1)).map(|_| letter(rng)).collect()
}

/// What follows the lead of a name or code: often one letter, at times as
/// long as it may be.
fn code(rng: &mut Rng, most: usize) -> Vec<u8> {
    match rng.below(8) {
        0..=4 => vec![rng.pick(b"abcdexyzABXY")],
        5 => (0..most).map(|_| letter(rng)).collect(),
        _ => (0..rng.between(1, most)).map(|_| letter(rng)).collect(),
    }
}

/// What follows `$`: at times as long as a limit of names and codes, which does
/// not hold for it.
fn referred(rng: &mut Rng) -> Vec<u8> {
    let count = if rng.once_in(4) { rng.pick(&AT_LIMITS) } else { rng.between(1, 50) };
    (0..count).map(|_| letter(rng)).collect()
}

/// A word of kind 7, which may begin with `;`.
fn plain_word(rng: &mut Rng) -> Vec<u8> {
    const WORDS: &str = "1 -0.5 8.53(1) ? . C#N $ a'b DATA_x Loop_ data stop sa've_ x_ ; ;b ;; ;'";
    match rng.below(4) {
        0 | 1 => return one_of(rng, WORDS).into(),
        2 => return numbers::word(rng),
        _ => {}
    }
    let mut word = vec![rng.pick(b"abcdeglsABC019.+-?*;()[]!")];
    word.extend(letters(rng, 9));
    let keyword = ["data_", "loop_", "global_", "save_", "stop_"];
    if keyword.iter().any(|keyword| word.starts_with(keyword.as_bytes())) {
        word[4] = b'-';
    }
    word
}

/// What stands between two equal quotes: no terminate, and the quote before no blank.
fn quotable(rng: &mut Rng, quote: u8) -> Vec<u8> {
    let mut content: Vec<u8> = Vec::new();
    for _ in 0..rng.below(9) {
        let byte = match rng.below(4) {
            0 => quote,
            1 => rng.pick(&BLANKS),
            2 => rng.pick(b"'\";#_$"),
            _ => letter(rng),
        };
        if !(BLANKS.contains(&byte) && content.last() == Some(&quote)) {
            content.push(byte);
        }
    }
    content
}

/// What a text field may hold: anything but a terminate before a `;`. It often
/// has line ends in it and at its end, and may be nothing else.
fn text(rng: &mut Rng) -> Vec<u8> {
    const LINES: [&[u8]; 8] = [b"\n", b"\x0c", b"\r", b"\r", b"\r\n", b"\n\r", b"\r\r", b"\r\x0c"];
    let mut content: Vec<u8> = Vec::new();
    let most = rng.pick(&[1, 6, 6, 60]);
    for _ in 0..rng.below(most) {
        let byte = if rng.once_in(2) { rng.pick(SHARP) } else { letter(rng) };
        let after_line = content.last().is_some_and(|last| TERMINATES.contains(last));
        if rng.once_in(6) {
            content.extend_from_slice(rng.pick(&LINES));
        } else if !(byte == b';' && after_line) {
            content.push(byte);
        }
    }
    if rng.once_in(2) {
        content.extend_from_slice(rng.pick(&LINES));
    }
    content
}

fn value(rng: &mut Rng) -> Piece {
    match rng.below(16) {
        0..=7 => Piece::word(plain_word(rng)),
        8 | 9 => Piece::word([b"$".to_vec(), referred(rng)].concat()),
        10 | 11 => Piece::word([b"'".to_vec(), quotable(rng, b'\''), b"'".to_vec()].concat()),
        12 | 13 => Piece::word([b"\"".to_vec(), quotable(rng, b'"'), b"\"".to_vec()].concat()),
        _ => Piece::text(rng),
    }
}

// ---------------------------------------------------------------- files

type Taken = HashSet<Vec<u8>>;

struct Builder<'r> {
    rng: &'r mut Rng,
    pieces: Vec<Piece>,
    /// About how many tokens there may be.
    size: usize,
    /// How many bytes a name or code may have.
    longest: usize,
    /// Whether headers may have header stops.
    stops: bool,
}

impl Builder<'_> {
    fn room(&self) -> bool {
        self.pieces.len() < self.size
    }

    fn word(&mut self, word: impl Into<Vec<u8>>) {
        self.pieces.push(Piece::word(word));
    }

    fn value(&mut self) {
        let value = value(self.rng);
        self.pieces.push(value);
    }

    /// A lead and a code that is not taken yet.
    fn unique(&mut self, lead: &str, taken: &mut Taken) {
        // the underscore of a name counts
        let most = self.longest - usize::from(lead == "_");
        loop {
            let code = code(self.rng, most);
            if taken.insert(code.clone()) {
                self.word([lead.as_bytes(), code.as_slice()].concat());
                return;
            }
        }
    }

    fn file(&mut self) {
        let mut codes = Taken::new();
        // of four blocks so many are global, about
        let globals = self.rng.pick(&[0, 0, 1, 3]);
        for _ in 0..self.rng.pick(&[0, 1, 1, 2, 2, 3, 5]) {
            if self.rng.below(4) < globals {
                self.word("global_");
            } else {
                self.unique("data_", &mut codes);
            }
            self.set(true);
        }
    }

    /// Items, loops and, in a data or global block, save frames.
    fn set(&mut self, block: bool) {
        let mut names = Taken::new();
        let mut codes = Taken::new();
        for _ in 0..self.rng.below(6) {
            if !self.room() {
                return;
            }
            match self.rng.below(6) {
                0 | 1 => {
                    self.unique("_", &mut names);
                    self.value();
                }
                2 if block => {
                    self.unique("save_", &mut codes);
                    self.set(false);
                    self.word("save_");
                }
                _ => self.data_loop(&mut names),
            }
        }
    }

    fn data_loop(&mut self, names: &mut Taken) {
        let depth = self.rng.pick(&[1, 1, 1, 2, 2, 2, 3, 3, 4, 5, 6, 7, 8]);
        let levels: Vec<usize> = (0..depth).map(|_| self.rng.pick(&[1, 1, 2, 3])).collect();
        for &count in &levels {
            self.word("loop_");
            for _ in 0..count {
                self.unique("_", names);
            }
        }
        if self.stops {
            for _ in 0..stops::count(self.rng, depth) {
                self.word("stop_");
            }
        }
        for _ in 0..self.rng.between(1, 4) {
            self.packet(&levels);
        }
    }

    fn packet(&mut self, levels: &[usize]) {
        for _ in 0..levels[0] {
            self.value();
        }
        let deeper = &levels[1..];
        if deeper.is_empty() {
            return;
        }
        for _ in 0..self.rng.pick(&[0, 1, 1, 2, 3]) {
            if self.room() {
                self.packet(deeper);
            }
        }
        self.word("stop_");
    }
}

/// The tokens of an accepted file.
fn pieces(rng: &mut Rng) -> Vec<Piece> {
    built(rng, false)
}

/// The tokens of an old file, which may have header stops.
fn old_pieces(rng: &mut Rng) -> Vec<Piece> {
    built(rng, true)
}

fn built(rng: &mut Rng, stops: bool) -> Vec<Piece> {
    let size = rng.pick(&[10, 30, 100, 300]);
    let longest = rng.pick(&[OLD_NAME_BYTES, OLD_NAME_BYTES, OLD_NAME_BYTES + 1, MOST_NAME_BYTES]);
    let mut builder = Builder { rng, pieces: Vec::new(), size, longest, stops };
    builder.file();
    builder.pieces
}

/// White space of all six bytes and comments, beginning with white space.
fn gap(rng: &mut Rng, file: &mut Vec<u8>) {
    file.extend_from_slice(white(rng));
    while rng.once_in(3) {
        if rng.once_in(3) {
            comment(rng, file);
            file.extend_from_slice(rng.pick(&LINE_ENDS));
        } else {
            file.extend_from_slice(white(rng));
        }
    }
}

fn comment(rng: &mut Rng, file: &mut Vec<u8>) {
    file.push(b'#');
    for _ in 0..rng.below(8) {
        let byte = if rng.once_in(3) { rng.pick(&BLANKS) } else { letter(rng) };
        file.push(byte);
    }
}

/// The file with 13, 10 for each of its line ends.
fn windows(file: &[u8]) -> Vec<u8> {
    let mut lines = Vec::new();
    for (at, &byte) in file.iter().enumerate() {
        if !TERMINATES.contains(&byte) {
            lines.push(byte);
        } else if !file[at..].starts_with(b"\r\n") {
            lines.extend_from_slice(b"\r\n");
        }
    }
    lines
}

/// The tokens with white space and comments between them, at times with 13, 10
/// as the only line end.
fn laid_out(rng: &mut Rng, pieces: &[Piece]) -> Vec<u8> {
    let mut file = Vec::new();
    let neat = rng.once_in(4);
    for (at, piece) in pieces.iter().enumerate() {
        let begins_with_semicolon = piece.bytes.first() == Some(&b';');
        if at > 0 && neat {
            file.push(b' ');
        } else if at > 0 || rng.once_in(3) {
            gap(rng, &mut file);
        }
        if piece.text_field {
            file.extend_from_slice(rng.pick(&LINE_ENDS));
        } else if begins_with_semicolon {
            file.push(rng.pick(&BLANKS));
        }
        file.extend_from_slice(&piece.bytes);
    }
    if rng.once_in(2) {
        gap(rng, &mut file);
        if rng.once_in(3) {
            comment(rng, &mut file);
        }
    }
    if rng.once_in(6) {
        windows(&file)
    } else {
        file
    }
}

/// A file that is accepted: data and global blocks, frames, items and loops of all
/// levels.
pub fn valid(rng: &mut Rng) -> Vec<u8> {
    let pieces = pieces(rng);
    laid_out(rng, &pieces)
}

/// A file that was accepted before header stops were retired.
pub fn old(rng: &mut Rng) -> Vec<u8> {
    let pieces = old_pieces(rng);
    laid_out(rng, &pieces)
}

/// A valid or old file with a few tokens or bytes changed.
pub fn damaged(rng: &mut Rng) -> Vec<u8> {
    let mut pieces = if rng.once_in(4) { old_pieces(rng) } else { pieces(rng) };
    if rng.once_in(2) {
        for _ in 0..rng.between(1, 2) {
            damage_tokens(rng, &mut pieces);
        }
        return laid_out(rng, &pieces);
    }
    let mut file = laid_out(rng, &pieces);
    for _ in 0..rng.pick(&[1, 1, 2, 5]) {
        damage_bytes(rng, &mut file);
    }
    file
}

fn damage_tokens(rng: &mut Rng, pieces: &mut Vec<Piece>) {
    let at = rng.below(pieces.len() + 1);
    if pieces.is_empty() || rng.once_in(4) {
        pieces.insert(at, soup_piece(rng));
        return;
    }
    let (one, other) = (rng.below(pieces.len()), rng.below(pieces.len()));
    match rng.below(6) {
        0 => pieces.swap(one, other),
        1 if one + 1 < pieces.len() => pieces.swap(one, one + 1),
        2 => pieces.insert(at, pieces[one].clone()),
        3 => pieces[one] = soup_piece(rng),
        4 => lengthen(rng, pieces, one),
        _ => drop(pieces.remove(one)),
    }
}

/// Gives a name or code a length at the limits: the first from this token on, else
/// the first of all.
fn lengthen(rng: &mut Rng, pieces: &mut [Piece], from: usize) {
    let (before, after) = pieces.split_at_mut(from);
    let found = after.iter_mut().chain(before).find_map(|piece| match piece.bytes[..] {
        [b'_', ..] => Some((piece, 0)),
        [b'd', b'a', b't', b'a', b'_', _, ..] => Some((piece, 5)),
        [b's', b'a', b'v', b'e', b'_', _, ..] => Some((piece, 5)),
        _ => None,
    });
    if let Some((piece, lead)) = found {
        let length = lead + rng.pick(&AT_LIMITS);
        piece.bytes.truncate(length);
        while piece.bytes.len() < length {
            piece.bytes.push(letter(rng));
        }
    }
}

fn damage_bytes(rng: &mut Rng, file: &mut Vec<u8>) {
    let at = rng.below(file.len() + 1);
    let byte = if rng.once_in(12) { rng.number() as u8 } else { rng.pick(SHARP) };
    if at == file.len() || rng.once_in(4) {
        file.insert(at, byte);
        return;
    }
    match rng.below(6) {
        0 => file[at] ^= 1 << rng.below(8),
        1 | 2 => file[at] = byte,
        3 => file.truncate(at),
        4 => {
            let to = (at + rng.between(1, 12)).min(file.len());
            file.drain(at..to);
        }
        _ => drop(file.remove(at)),
    }
}

/// A token from a list that has every kind, faults and repeated names.
fn soup_piece(rng: &mut Rng) -> Piece {
    const WORDS: &str = "data_a data_b data_c save_f save_g save_a save_ save_ save_ \
        loop_ loop_ loop_ loop_ loop_ stop_ stop_ stop_ stop_ _x _y _z _a _b _c _d _e _f \
        1 2 3 4 5 6 7 ? . $f $ ;b 'q' \"it's\" ''' '' C#N # DATA_b GLOBAL_ _data_ a global_ global_";
    const FAULTS: &str = "data_ _ loop_x stop_1 global_a 'open \"a'";
    const OPEN: [&str; 4] = ["\n;open", "\n;a\n;b", "\r\n;open\r", "\r\n;a\r\n;b"];
    match rng.below(60) {
        0 if rng.once_in(5) => Piece::word(rng.pick(&OPEN)),
        0 => Piece::word(one_of(rng, FAULTS)),
        1 => Piece::text(rng),
        2 => value(rng),
        3 => Piece::word(at_limit(rng)),
        _ => Piece::word(one_of(rng, WORDS)),
    }
}

/// A name, heading or reference with a length at the limits.
fn at_limit(rng: &mut Rng) -> Vec<u8> {
    let (lead, counted) = rng.pick(&[("_", 1), ("data_", 0), ("save_", 0), ("$", 0)]);
    let letters = rng.pick(&AT_LIMITS) - counted;
    [lead.as_bytes(), &vec![b'n'; letters]].concat()
}

/// A row of tokens of any kinds.
pub fn soup(rng: &mut Rng) -> Vec<u8> {
    let mut pieces = Vec::new();
    match rng.below(8) {
        0 => {}
        1 => pieces.push(Piece::word("global_")),
        _ => pieces.push(Piece::word("data_a")),
    }
    if rng.once_in(2) {
        pieces.push(Piece::word("loop_"));
    } else if rng.once_in(4) {
        for level in 1..rng.between(6, 10) {
            pieces.extend([Piece::word("loop_"), Piece::word(format!("_{level}"))]);
        }
    }
    for _ in 0..rng.pick(&[2, 5, 10, 20]) {
        pieces.push(soup_piece(rng));
    }
    laid_out(rng, &pieces)
}

/// Bytes without order, most of them allowed.
pub fn bytes(rng: &mut Rng) -> Vec<u8> {
    let refused = rng.once_in(4);
    let mut file = if rng.once_in(2) { b"data_a _x\n".to_vec() } else { Vec::new() };
    for _ in 0..rng.pick(&[1, 4, 12, 40, 200]) {
        let byte = match rng.below(8) {
            0 if refused => rng.number() as u8,
            0 | 1 => rng.between(32, 126) as u8,
            2 => rng.between(9, 13) as u8,
            3 => rng.pick(b"data_loopsvetg"),
            _ => rng.pick(SHARP),
        };
        if byte == b'\n' && rng.once_in(2) {
            file.push(b'\r');
        }
        file.push(byte);
    }
    file
}

/// A file of any sort: accepted, now or before header stops were retired, damaged, of
/// tokens or bytes without order.
pub fn any(rng: &mut Rng) -> Vec<u8> {
    match rng.below(16) {
        0..=2 => valid(rng),
        3 => old(rng),
        4..=9 => damaged(rng),
        10..=13 => soup(rng),
        _ => bytes(rng),
    }
}

// ---------------------------------------------------------- large files

/// A line end and a text field with the content 13, which gets 13, 10 before its
/// closing `;` in the plain form.
const GROWING: &[u8] = b"\n;\r\x0c;";

/// Files of the largest size, of one byte more, and with plain forms there.
pub fn largest() -> Vec<(&'static str, Vec<u8>)> {
    let padded = |head: &[u8], fill: &[u8], tail: &[u8], length: usize| {
        let mut file = head.to_vec();
        while file.len() + fill.len() + tail.len() <= length {
            file.extend_from_slice(fill);
        }
        file.resize(length - tail.len(), b' ');
        file.extend_from_slice(tail);
        file
    };
    let most = MOST_BYTES;
    vec![
        ("blanks", padded(b"", b" ", b"", most)),
        ("blanks, one more", padded(b"", b" ", b"", most + 1)),
        ("terminates", padded(b"", b"\n", b"", most)),
        ("line ends of two bytes", padded(b"", b"\r\n", b"", most)),
        ("one word", padded(b"data_a _x ", b"v", b"", most)),
        ("one word, one more", padded(b"data_a _x ", b"v", b"", most + 1)),
        ("one word, its plain form just fits", padded(b"data_a _x ", b"v", b"", most - 1)),
        ("one word and a line end", padded(b"data_a _x ", b"v", b"\n", most)),
        ("one text field", padded(b"data_a _x\n;", b"t\n", b"\n;", most)),
        ("one text field, one more", padded(b"data_a _x\n;", b"t\n", b"\n;", most + 1)),
        ("one text field, 13, 10", padded(b"data_a _x\r\n;", b"t\r\n", b"\r\n;", most)),
        ("one text field, 13 alone", padded(b"data_a _x\r;", b"\r", b"\r;", most)),
        ("a text field not closed", padded(b"data_a _x\n;", b"t\n ;", b"", most)),
        ("a text field closed too near", padded(b"data_a _x\n;", b"t", b"\n;x", most)),
        ("a quoted string", padded(b"data_a _x '", b"'q", b"'", most)),
        ("a quote not closed", padded(b"data_a _x '", b"q", b"", most)),
        ("a comment", padded(b"data_a #", b"c", b"", most)),
        ("a refused byte at the end", padded(b"data_a _x ", b"v", b"\x7f", most)),
        ("a refused byte, one more", padded(b"data_a _x ", b"v", b"\x00", most + 1)),
        ("values of one byte", padded(b"data_a loop_ _x ", b"1 ", b"", most)),
        ("packets of six", padded(b"data_a loop_ _a _b _c _d _e _f ", b"1 2 3 4 5 6 ", b"", most)),
        ("words that grow in the plain form", padded(b"data_a loop_ _x ", b"; ", b"", most)),
        ("words that just fit in the plain form", padded(b"data_a loop_ _x ", b"; ", b"", 699_056)),
        (
            "words one byte over in the plain form",
            padded(b"data_a loop_ _xy ", b"; ", b"", 699_057),
        ),
        ("fields that grow in the plain form", padded(b"data_a loop_ _x", GROWING, b"", most)),
        (
            "fields that just fit in the plain form",
            padded(b"data_a loop_ _x", GROWING, b"", 873_815),
        ),
        (
            "fields one byte over in the plain form",
            padded(b"data_a loop_ _xy", GROWING, b"", 873_816),
        ),
        ("inner packets", padded(b"data_a loop_ _x loop_ _y ", b"1 2 stop_ ", b"", most)),
        (
            "an inner level open at the end",
            padded(b"data_a loop_ _x loop_ _y 1 ", b"2 ", b"", most),
        ),
        (
            "an inner level closed at the end",
            padded(b"data_a loop_ _x loop_ _y 1 ", b"2 ", b"stop_", most),
        ),
        ("empty packets of a level", padded(b"data_a loop_ _x loop_ _y ", b"1 stop_\n", b"", most)),
        ("global blocks", padded(b"", b"global_ ", b"", most)),
        ("global blocks, one more", padded(b"", b"global_ ", b"", most + 1)),
        ("global blocks of one name", padded(b"data_a ", b"global_ _x 1 ", b"", most)),
        ("global blocks of one frame", padded(b"", b"global_ save_f save_ ", b"data_a", most)),
        ("global_ at the end", padded(b"data_a loop_ _x ", b"1 ", b"global_", most)),
        ("global_ in a packet", padded(b"data_a loop_ _x _y 1 ", b"2 3 ", b"global_", most)),
        ("a repeated code at the end", padded(b"data_a loop_ _x ", b"1 ", b" data_a", most)),
        ("a name without value at the end", padded(b"data_a loop_ _x ", b"1 ", b" _y", most)),
    ]
}

/// Names that differ little: as numbers, in one byte, in order, in length.
fn kindred(family: usize, number: usize) -> Vec<u8> {
    match family {
        0 => format!("{number}").into_bytes(),
        1 => format!("{number:031}").into_bytes(),
        2 => format!("{:031}", number as u128 * 1_000_000_000_000_000_000_000_000).into_bytes(),
        3 => format!("{number:b}").replace('1', "ab").replace('0', "ba").into_bytes(),
        4 => [vec![b'n'; number % 26], format!("{}", number / 26).into_bytes()].concat(),
        // with an underscore as long as may be
        5 => format!("{number:074}").into_bytes(),
        _ => format!("{number:05}{:069}", 0).into_bytes(),
    }
}

/// About `count` names or codes, in one set or many, with a repeat or none.
pub fn many_names(rng: &mut Rng, count: usize) -> Vec<u8> {
    // so many of the longest are over the largest size
    let family = rng.below(if count > 8_000 { 5 } else { 7 });
    let layout = rng.below(6);
    let (one, other) = (rng.below(count), rng.below(count));
    let repeats = rng.once_in(2);
    let heading: &[u8] = if rng.once_in(3) { b"global_" } else { b"data_-" };
    let mut file = heading.to_vec();
    file.extend_from_slice(if layout == 1 { b" loop_ " } else { b" " });
    for number in 0..count {
        let number = if repeats && number == one { other } else { number };
        let name = kindred(family, number);
        match layout {
            // single items
            0 => file.extend([b"_".as_slice(), &name, b" 1\n"].concat()),
            // one loop
            1 => file.extend([b"_".as_slice(), &name, b"\n"].concat()),
            // blocks
            2 => file.extend([b"data_".as_slice(), &name, b" _x 1\n"].concat()),
            // frames with the same names
            3 => file.extend([b"save_".as_slice(), &name, b" _x 1 _y 2 save_\n"].concat()),
            // global blocks, where a repeat is allowed
            4 => file.extend([b"_".as_slice(), &name, b" 1 global_ _x 2\n"].concat()),
            // names that come again in frames
            _ => {
                let frame = format!("save_{number} _{number} 1 save_ ");
                file.extend([b"_".as_slice(), &name, b" 1 ", frame.as_bytes()].concat());
            }
        }
    }
    if layout == 1 {
        file.extend(b"1 ".repeat(count));
    }
    file
}

// --------------------------------------------------------------- tables

/// What a lookup is handed besides the question.
#[derive(Clone, Debug)]
pub struct Handed {
    /// The file's bytes.
    pub file: Vec<u8>,
    /// The five tables.
    pub tables: [Vec<u32>; 5],
    /// The five counts.
    pub counts: Counts,
}

/// The numbers and bytes that lookups are asked with.
#[derive(Clone, Debug)]
pub struct Question {
    /// A set.
    pub set: u32,
    /// A name row.
    pub name_row: u32,
    /// Which value of the name row.
    pub k: u32,
    /// A code or a name.
    pub sought: Vec<u8>,
}

/// The counts in the order of their tables.
pub fn in_order(counts: &mut Counts) -> [&mut u32; 5] {
    let Counts { tokens, sets, names, packets, values } = counts;
    [tokens, sets, names, packets, values]
}

/// A number near one that matters, else any.
fn telling(rng: &mut Rng, handed: &Handed) -> u32 {
    let counts = handed.counts;
    match rng.below(12) {
        0..=3 => rng.below(6) as u32,
        4 => counts.values.wrapping_add(rng.below(3) as u32).wrapping_sub(1),
        5 => counts.tokens.wrapping_add(rng.below(3) as u32).wrapping_sub(1),
        6 => counts.sets.wrapping_add(rng.below(3) as u32).wrapping_sub(1),
        7 => counts.names.wrapping_add(rng.below(3) as u32).wrapping_sub(1),
        8 => (handed.file.len() as u32).wrapping_add(rng.below(3) as u32).wrapping_sub(1),
        9 => rng.below(handed.file.len() + 2) as u32,
        10 => rng.pick(&[u32::MAX, u32::MAX - 1, 1 << 31, (1 << 31) - 1, 1 << 30]),
        _ => rng.number() as u32,
    }
}

/// Changes a few words, counts and lengths.
pub fn spoil(rng: &mut Rng, handed: &mut Handed) {
    for _ in 0..rng.pick(&[1, 1, 2, 4, 12]) {
        let table = rng.below(5);
        let length = handed.tables[table].len();
        match rng.below(16) {
            0 => handed.tables[table].truncate(rng.below(length + 1)),
            1 => handed.file.truncate(rng.below(handed.file.len() + 1)),
            2 | 3 => {
                // also numbers of rows whose words come round in 32 bits
                let held = (length / WIDTHS[table]) as u32;
                let number = telling(rng, handed);
                let odd = [held, held + 1, held / 2, 0x5555_5556, 0x4000_0001, 0xaaaa_aaab, number];
                *in_order(&mut handed.counts)[table] = rng.pick(&odd);
            }
            _ if length > 0 => {
                let at = rng.below(length);
                handed.tables[table][at] = telling(rng, handed);
            }
            _ => {}
        }
    }
}

/// A file and tables that no reading made, small enough that rows meet.
pub fn junk(rng: &mut Rng) -> Handed {
    let file: Vec<u8> = (0..rng.below(12)).map(|_| rng.pick(b"aab_\xff")).collect();
    let mut handed = Handed { file, tables: Default::default(), counts: Counts::default() };
    for (table, width) in WIDTHS.into_iter().enumerate() {
        let rows = rng.below(7);
        let held = if rng.once_in(8) { rng.below(rows + 2) } else { rows };
        *in_order(&mut handed.counts)[table] = held as u32;
        let spare = if rng.once_in(2) { rng.below(width) } else { 0 };
        handed.tables[table] = vec![0; rows * width + spare];
    }
    for table in 0..5 {
        for at in 0..handed.tables[table].len() {
            let small = rng.below(5) as u32;
            let word = if rng.once_in(6) { telling(rng, &handed) } else { small };
            handed.tables[table][at] = word;
        }
    }
    // let most spans lie in the file
    let length = handed.file.len();
    for row in handed.tables[0].chunks_exact_mut(3) {
        if !rng.once_in(4) {
            row[1] = rng.below(length + 1) as u32;
            row[2] = row[1] + rng.below(3.min(length - row[1] as usize + 1)) as u32;
        }
    }
    handed
}

/// A question to these tables, often one with an answer.
pub fn question(rng: &mut Rng, handed: &Handed) -> Question {
    let row = |rng: &mut Rng, table: usize| {
        let held = handed.tables[table].len() / WIDTHS[table];
        match rng.below(8) {
            0 => telling(rng, handed),
            _ => rng.between(1, held.max(1)) as u32,
        }
    };
    let mut set = row(rng, 1);
    let name_row = row(rng, 2);
    let k = match rng.below(12) {
        0 => telling(rng, handed),
        _ => rng.pick(&[0, 1, 1, 1, 1, 2, 2, 3, 4, 7]),
    };
    // the code of a set with its parent, a name with its set or with any, or any token
    let at = |row: u32, width: usize| row.wrapping_sub(1) as usize * width;
    let (of_set, of_name) = (at(set, 3), at(name_row, 4));
    let token = match rng.below(4) {
        0 => {
            let code = handed.tables[1].get(of_set + 1).copied();
            set = handed.tables[1].get(of_set + 2).copied().unwrap_or(set);
            code
        }
        1 => {
            set = handed.tables[2].get(of_name).copied().unwrap_or(set);
            handed.tables[2].get(of_name + 1).copied()
        }
        // of a global block maybe, or of a later set
        2 => handed.tables[2].get(of_name + 1).copied(),
        _ => Some(row(rng, 0)),
    };
    let sought = token.map_or(Vec::new(), |token| content(handed, token));
    Question { set, name_row, k, sought: nearly(rng, sought) }
}

/// The content of a token row, nothing where it points outside.
fn content(handed: &Handed, row: u32) -> Vec<u8> {
    let at = row.wrapping_sub(1) as usize * 3;
    let part = match handed.tables[0].get(at + 1..at + 3) {
        Some(&[start, end]) => handed.file.get(start as usize..end as usize),
        _ => None,
    };
    part.unwrap_or(b"").to_vec()
}

/// These bytes, or once in a while some that differ a little.
fn nearly(rng: &mut Rng, mut bytes: Vec<u8>) -> Vec<u8> {
    match rng.below(24) {
        0 => bytes.push(rng.pick(b"a_\0")),
        1 => drop(bytes.pop()),
        2 => bytes.iter_mut().take(1).for_each(|byte| *byte ^= 1),
        3 => bytes.iter_mut().rev().take(1).for_each(|byte| *byte ^= 32),
        4 => bytes.clear(),
        _ => {}
    }
    bytes
}

/// A file of so many bytes: a head, a piece as often as there is room, blanks and a tail.
fn filled(head: &[u8], piece: &[u8], tail: &[u8], bytes: usize) -> Vec<u8> {
    let count = (bytes - head.len() - tail.len()) / piece.len();
    let mut file = [head, &piece.repeat(count)].concat();
    file.resize(bytes - tail.len(), b' ');
    file.extend_from_slice(tail);
    file
}

#[cfg(test)]
mod tests {
    use super::*;
    use crate::notation::escaped;
    use crate::reference;

    #[test]
    fn valid_files_are_accepted_and_varied() {
        let mut kinds = [0u32; 13];
        let mut levels = [0u32; 9];
        // no and yes: whether every name and code fits the old limit
        let mut fit = [0u32; 2];
        for seed in 0..3000 {
            let file = valid(&mut Rng::new(seed));
            let (answer, tables) = reference::read(&file, reference::words_needed(&file));
            assert_eq!(answer.refusal, 0, "seed {seed}: {}", escaped(&file));
            tables[0].chunks(3).for_each(|row| kinds[row[0] as usize] += 1);
            tables[3].chunks(3).for_each(|row| levels[row[1] as usize] += 1);
            let (checked, _) = reference::fits_32(&file, reference::words_needed(&file));
            fit[checked.yes as usize] += 1;
        }
        assert!(kinds[1..].iter().all(|&count| count > 100), "{kinds:?}");
        assert!(levels[1..].iter().all(|&count| count > 10), "{levels:?}");
        assert!(fit.iter().all(|&count| count > 800), "{fit:?}");
    }

    /// Global blocks stand in every place, hold everything and end every sort of loop.
    #[test]
    fn global_blocks_are_varied() {
        const SORTS: [&str; 10] = [
            "first",
            "between data blocks",
            "last",
            "two in a row",
            "empty",
            "with a frame",
            "with a loop",
            "after a loop",
            "after a loop of more levels",
            "a name again in a later one",
        ];
        let mut counts = [0u32; SORTS.len()];
        for seed in 0..3000 {
            let file = valid(&mut Rng::new(seed));
            let needed = reference::words_needed(&file);
            let (_, [tokens, sets, names, _, values]) = reference::read(&file, needed);
            let kinds: Vec<u32> = tokens.chunks(3).map(|row| row[0]).collect();
            // of blocks: whether they are global, their set and their heading
            let numbered = sets.chunks(3).zip(1u32..).filter(|(row, _)| row[2] == 0);
            let blocks: Vec<_> = numbered.map(|(row, set)| (row[0] == 3, set, row[1])).collect();
            let name_of = |row: &[u32]| {
                let span = &tokens[3 * (row[1] as usize - 1) + 1..][..2];
                &file[span[0] as usize..span[1] as usize]
            };
            let mut before = HashSet::new();
            for (at, &(global, set, heading)) in blocks.iter().enumerate() {
                if !global {
                    continue;
                }
                let heading = heading as usize;
                let is = |at: Option<usize>, global: bool| {
                    at.and_then(|at| blocks.get(at)).is_some_and(|block| block.0 == global)
                };
                let own: Vec<&[u32]> = names.chunks(4).filter(|row| row[0] == set).collect();
                let looped =
                    values.chunks(4).any(|row| row[2] as usize + 1 == heading && row[1] != 0);
                let holds = [
                    at == 0,
                    is(at.checked_sub(1), false) && is(Some(at + 1), false),
                    at + 1 == blocks.len(),
                    is(at.checked_sub(1), true),
                    matches!(kinds.get(heading), None | Some(1 | 12)),
                    sets.chunks(3).any(|row| row[2] == set),
                    own.iter().any(|row| row[2] != 0),
                    looped,
                    heading > 1 && kinds[heading - 2] == 5,
                    own.iter().any(|row| before.contains(name_of(row))),
                ];
                before.extend(own.iter().map(|row| name_of(row)));
                for (count, holds) in counts.iter_mut().zip(holds) {
                    *count += u32::from(holds);
                }
            }
        }
        for (sort, count) in SORTS.iter().zip(counts) {
            assert!(count > 20, "{sort}: {counts:?}");
        }
    }

    /// Names, codes and references reach the limits, and references go over them.
    #[test]
    fn lengths_reach_the_limits() {
        // for kinds 1, 2, 6 and 8: each of AT_LIMITS
        let mut counts = [[0u32; AT_LIMITS.len()]; 4];
        for seed in 0..3000 {
            let file = valid(&mut Rng::new(seed));
            for token in reference::tokens(&file).expect("a valid file splits into tokens") {
                let kind = [1, 2, 6, 8].iter().position(|&kind| kind == token.kind);
                let length = token.end - token.start;
                if let Some(kind) = kind {
                    for (count, limit) in counts[kind].iter_mut().zip(AT_LIMITS) {
                        *count += u32::from(length == limit);
                    }
                }
            }
        }
        let [block, frame, name, reference] = counts;
        for of_kind in [block, frame, name] {
            assert!(of_kind[..3].iter().all(|&count| count > 20), "{counts:?}");
            assert_eq!(of_kind[3], 0, "{counts:?}");
        }
        assert!(reference.iter().all(|&count| count > 20), "{counts:?}");
    }

    /// A sort of contents: its name, the first of LINE_ENDS that may close them,
    /// and whether a content is one.
    type Sort = (&'static str, usize, fn(&[u8]) -> bool);

    // 13, 10 before the closing `;` is one line end, so 10 closes no content that ends in 13
    const SORTS: [Sort; 9] = [
        ("empty", 0, |content| content.is_empty()),
        ("13 alone", 1, |content| content == b"\r"),
        ("ends in 13", 1, |content| content.ends_with(b"\r")),
        ("ends in 13, 13", 1, |content| content.ends_with(b"\r\r")),
        ("ends in 10", 0, |content| content.ends_with(b"\n")),
        ("ends in 12", 0, |content| content.ends_with(b"\x0c")),
        ("holds 13, 10", 0, |content| content.windows(2).any(|pair| pair == b"\r\n")),
        ("holds 10, 13", 0, |content| content.windows(2).any(|pair| pair == b"\n\r")),
        ("holds 13", 0, |content| content.windows(2).any(|pair| pair[0] == 13 && pair[1] != 10)),
    ];

    /// Which of LINE_ENDS stands before `;` at an offset.
    fn closed_by(file: &[u8], at: usize) -> usize {
        let closes = |end: &&[u8]| file[at..].starts_with(&[end, b";".as_slice()].concat());
        LINE_ENDS.iter().position(closes).expect("a line end and `;`")
    }

    /// Text fields with contents of each sort are closed by each line end, and
    /// some files have 13, 10 as their only line end.
    #[test]
    fn line_ends_are_varied() {
        let mut counts = [[0u32; LINE_ENDS.len()]; SORTS.len()];
        let mut of_windows = 0;
        for seed in 0..3000 {
            let file = valid(&mut Rng::new(seed));
            of_windows += u32::from(file.contains(&b'\n') && windows(&file) == file);
            let tokens = reference::tokens(&file).expect("a valid file splits into tokens");
            for field in tokens.iter().filter(|token| token.kind == 11) {
                let end = closed_by(&file, field.end);
                for (count, (_, _, holds)) in counts.iter_mut().zip(SORTS) {
                    count[end] += u32::from(holds(&file[field.start..field.end]));
                }
            }
        }
        for ((sort, first, _), counts) in SORTS.iter().zip(counts) {
            assert!(counts[*first..].iter().all(|&count| count > 20), "{sort}: {counts:?}");
        }
        assert!(of_windows > 100, "{of_windows}");
    }

    #[test]
    fn largest_files_are_as_named() {
        for (name, file) in largest() {
            let over = name.ends_with("one more");
            let refusal = reference::read(&file, reference::words_needed(&file)).0.refusal;
            assert_eq!(file.len() > MOST_BYTES, over, "{name}");
            assert_eq!(refusal == 1, over, "{name}");
            let tokens =
                reference::tokens(&file).map(|tokens| reference::plain_form(&file, &tokens).len());
            if name.ends_with("just fit in the plain form") {
                assert_eq!(tokens, Ok(MOST_BYTES), "{name}");
            } else if name.ends_with("one byte over in the plain form") {
                assert_eq!(tokens, Ok(MOST_BYTES + 1), "{name}");
            }
        }
    }
}

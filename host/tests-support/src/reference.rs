//! A plain reader of STAR Files, written from the specification alone.
//!
//! It shares no code with the library, takes its time and its memory as it
//! likes, and answers for every call every field and every word that the
//! library is to answer. Where the rules leave room it follows the choices in
//! docs/DECISIONS.md; each is marked `choice` here.

use std::collections::HashSet;
use std::hash::{Hash, Hasher};

use tackturnel::{
    Checked, Compared, Counts, Found, Part, Reading, Tables, Value, ValueNumber, Written,
};

use crate::number::number_of;
use crate::{MOST_BYTES, MOST_NAME_BYTES, OLD_NAME_BYTES, WIDTHS};

/// A refusal's number and place.
#[derive(Clone, Copy, Debug, PartialEq, Eq)]
pub struct Refusal {
    /// Its number, 1 to 16.
    pub number: u32,
    /// Its place.
    pub place: usize,
}

/// A token: its kind, its first byte's offset and the span of its content.
#[derive(Clone, Copy, Debug, PartialEq, Eq)]
pub struct Token {
    /// 1 to 12.
    pub kind: u32,
    /// Offset of the first byte, delimiter included.
    pub at: usize,
    /// Offset of the content's first byte.
    pub start: usize,
    /// Offset after the content.
    pub end: usize,
}

// ---------------------------------------------------------------- bytes

fn is_blank(byte: u8) -> bool {
    matches!(byte, 9 | 11 | 32)
}

fn is_terminate(byte: u8) -> bool {
    matches!(byte, 10 | 12 | 13)
}

fn is_white(byte: u8) -> bool {
    is_blank(byte) || is_terminate(byte)
}

fn is_allowed(byte: u8) -> bool {
    is_white(byte) || (33..=126).contains(&byte)
}

/// The bytes of the line end at an offset, 0 if there is none.
fn line_end(file: &[u8], at: usize) -> usize {
    match file[at..] {
        [13, 10, ..] => 2,
        [byte, ..] if is_terminate(byte) => 1,
        _ => 0,
    }
}

/// Whether white space or the end stands at an offset.
fn white_at(file: &[u8], at: usize) -> bool {
    at >= file.len() || is_white(file[at])
}

// ------------------------------------------------------------ comparing

/// Compares two names or codes: whether they are equal, and how many byte pairs
/// are compared: none where the lengths differ, else all up to and including
/// the first that differs, or all.
pub fn compare(a: &[u8], b: &[u8]) -> Compared {
    if a.len() != b.len() {
        return Compared { equal: false, pairs: 0 };
    }
    let first = a.iter().zip(b).position(|(one, other)| one != other);
    Compared { equal: first.is_none(), pairs: first.map_or(a.len(), |at| at + 1) }
}

/// A name or code, equal to another as `compare` has it.
struct Content<'a>(&'a [u8]);

impl PartialEq for Content<'_> {
    fn eq(&self, other: &Self) -> bool {
        compare(self.0, other.0).equal
    }
}

impl Eq for Content<'_> {}

impl Hash for Content<'_> {
    fn hash<H: Hasher>(&self, state: &mut H) {
        self.0.hash(state);
    }
}

// --------------------------------------------------------------- tokens

/// The tokens of a file of any size, or the first of refusals 2 to 6.
pub fn tokens(file: &[u8]) -> Result<Vec<Token>, Refusal> {
    tokens_within(file, MOST_NAME_BYTES)
}

/// As `tokens`, with this limit of names and codes.
fn tokens_within(file: &[u8], longest: usize) -> Result<Vec<Token>, Refusal> {
    if let Some(place) = file.iter().position(|&byte| !is_allowed(byte)) {
        return Err(Refusal { number: 2, place });
    }
    let mut tokens = Vec::new();
    let mut at = 0;
    while at < file.len() {
        let first = file[at];
        if is_white(first) {
            at += 1;
        } else if first == b'#' {
            at += file[at..].iter().take_while(|&&b| !is_terminate(b)).count();
        } else {
            let line_start = at == 0 || is_terminate(file[at - 1]);
            let token = if first == b';' && line_start {
                text_field(file, at)?
            } else if first == b'\'' || first == b'"' {
                quoted(file, at)?
            } else {
                word(file, at, longest)?
            };
            at = after(file, &token);
            tokens.push(token);
        }
    }
    Ok(tokens)
}

/// The offset after a token's last byte, its closing delimiter included.
fn after(file: &[u8], token: &Token) -> usize {
    match token.kind {
        9 | 10 => token.end + 1,
        11 => token.end + line_end(file, token.end) + 1,
        _ => token.end,
    }
}

fn text_field(file: &[u8], at: usize) -> Result<Token, Refusal> {
    let refusal = Refusal { number: 6, place: at };
    let start = at + 1;
    // choice: only the line end before the closing `;` is outside the content
    let closes = |&end: &usize| {
        let bytes = line_end(file, end);
        bytes > 0 && file.get(end + bytes) == Some(&b';')
    };
    let end = (start..file.len()).find(closes).ok_or(refusal)?;
    let token = Token { kind: 11, at, start, end };
    // choice: a closing `;` followed by another byte refuses at once
    if white_at(file, after(file, &token)) {
        Ok(token)
    } else {
        Err(refusal)
    }
}

fn quoted(file: &[u8], at: usize) -> Result<Token, Refusal> {
    let start = at + 1;
    for end in start..file.len() {
        if is_terminate(file[end]) {
            break;
        }
        if file[end] == file[at] && white_at(file, end + 1) {
            let kind = if file[at] == b'\'' { 9 } else { 10 };
            return Ok(Token { kind, at, start, end });
        }
    }
    Err(Refusal { number: 5, place: at })
}

fn word(file: &[u8], at: usize, longest: usize) -> Result<Token, Refusal> {
    let end = at + file[at..].iter().take_while(|&&b| !is_white(b)).count();
    let word = &file[at..end];
    let (kind, lead) = match word {
        b"save_" => (3, 0),
        b"loop_" => (4, 0),
        b"stop_" => (5, 0),
        b"global_" => (12, 0),
        b"data_" | b"_" => return Err(Refusal { number: 3, place: at }),
        _ if word.starts_with(b"data_") => (1, 5),
        _ if word.starts_with(b"save_") => (2, 5),
        _ if word.starts_with(b"loop_") => return Err(Refusal { number: 3, place: at }),
        _ if word.starts_with(b"stop_") => return Err(Refusal { number: 3, place: at }),
        _ if word.starts_with(b"global_") => return Err(Refusal { number: 3, place: at }),
        _ if word[0] == b'_' => (6, 0),
        _ if word[0] == b'$' && word.len() > 1 => (8, 1),
        _ => (7, 0),
    };
    let start = at + lead;
    if is_name_or_code(kind) && end - start > longest {
        return Err(Refusal { number: 4, place: at });
    }
    Ok(Token { kind, at, start, end })
}

/// Whether tokens of a kind have a limit: names, and codes of blocks and frames.
fn is_name_or_code(kind: u32) -> bool {
    matches!(kind, 1 | 2 | 6)
}

// -------------------------------------------------------------- grammar

/// What closes a save frame.
#[derive(Clone, Copy, Debug, PartialEq, Eq)]
pub enum Layout {
    /// `save_` alone.
    Today,
    /// `stop_`.
    Of1991,
}

impl Layout {
    /// The layout of a number, if it has one.
    pub fn of(number: u32) -> Option<Layout> {
        match number {
            0 => Some(Layout::Today),
            1 => Some(Layout::Of1991),
            _ => None,
        }
    }

    /// The other layout.
    pub fn other(self) -> Layout {
        match self {
            Layout::Today => Layout::Of1991,
            Layout::Of1991 => Layout::Today,
        }
    }

    /// The kind of the token that closes a save frame.
    fn frame_end(self) -> u32 {
        match self {
            Layout::Today => 3,
            Layout::Of1991 => 5,
        }
    }

    /// That token.
    fn frame_end_word(self) -> &'static [u8] {
        match self {
            Layout::Today => b"save_",
            Layout::Of1991 => b"stop_",
        }
    }
}

/// The rows of tables 2 to 5, and what no table holds.
#[derive(Clone, Debug, Default, PartialEq, Eq)]
pub struct Rows {
    /// Kind, heading token, parent set.
    pub sets: Vec<[u32; 3]>,
    /// Set, name token, loop, level.
    pub names: Vec<[u32; 4]>,
    /// Loop, level, parent packet.
    pub packets: Vec<[u32; 3]>,
    /// Name row, packet, token, next value row of the same name.
    pub values: Vec<[u32; 4]>,
    /// The token rows that close save frames.
    pub frame_ends: Vec<u32>,
    /// The token rows of header stops.
    pub header_stops: Vec<u32>,
}

/// The rows of a file's tokens by these rules, or the first of refusals 8 to 11 and 16.
pub fn rows(file: &[u8], tokens: &[Token], rules: Rules) -> Result<Rows, Refusal> {
    let mut parser = Parser { file, tokens, rules, next: 0, loops: 0, rows: Rows::default() };
    let mut codes = HashSet::new();
    loop {
        let (kind, heading) = match parser.kind() {
            0 => {
                link(&mut parser.rows);
                return Ok(parser.rows);
            }
            1 => (1, parser.take_unique(&mut codes)?),
            // a global block, which has no code
            12 => (3, parser.take()),
            _ => return parser.refuse(8),
        };
        parser.block(kind, heading)?;
    }
}

/// Gives each value row its fourth word: the next row with the same name, 0 after
/// the last.
fn link(rows: &mut Rows) {
    // from the last row to the first, the row of each name that was met last
    let mut next = vec![0; rows.names.len() + 1];
    for (at, value) in rows.values.iter_mut().enumerate().rev() {
        let next = &mut next[value[0] as usize];
        value[3] = *next;
        *next = at as u32 + 1;
    }
}

type Contents<'a> = HashSet<Content<'a>>;

struct Parser<'a> {
    file: &'a [u8],
    tokens: &'a [Token],
    rules: Rules,
    /// Tokens taken so far; the row of the last one.
    next: usize,
    loops: u32,
    rows: Rows,
}

impl<'a> Parser<'a> {
    /// The next token's kind, 0 at the end.
    fn kind(&self) -> u32 {
        self.tokens.get(self.next).map_or(0, |token| token.kind)
    }

    fn value_comes(&self) -> bool {
        (7..=11).contains(&self.kind())
    }

    /// A refusal at the next token or the end.
    fn refuse<T>(&self, number: u32) -> Result<T, Refusal> {
        let place = self.tokens.get(self.next).map_or(self.file.len(), |token| token.at);
        Err(Refusal { number, place })
    }

    /// Takes the next token, whatever it is, and answers its row.
    fn take(&mut self) -> u32 {
        self.next += 1;
        self.next as u32
    }

    /// Takes a name or code, refusing one already taken.
    fn take_unique(&mut self, taken: &mut Contents<'a>) -> Result<u32, Refusal> {
        let token = self.tokens[self.next];
        let file = self.file;
        if !taken.insert(Content(&file[token.start..token.end])) {
            return self.refuse(9);
        }
        Ok(self.take())
    }

    fn take_value(&mut self, name: u32, packet: u32) {
        let token = self.take();
        // no link yet: what follows is not known
        self.rows.values.push([name, packet, token, 0]);
    }

    /// The items, loops and save frames of a data or global block, up to the next
    /// block or the end.
    fn block(&mut self, kind: u32, heading: u32) -> Result<(), Refusal> {
        self.rows.sets.push([kind, heading, 0]);
        let set = self.rows.sets.len() as u32;
        let mut names = HashSet::new();
        let mut frame_codes = HashSet::new();
        loop {
            match self.kind() {
                6 => self.item(set, &mut names)?,
                4 => self.data_loop(set, &mut names)?,
                2 => self.frame(set, &mut frame_codes)?,
                0 | 1 | 12 => return Ok(()),
                _ => return self.refuse(8),
            }
        }
    }

    /// A heading, items and loops, and what closes a frame in the layout. A loop takes the
    /// `stop_` of its inner levels, and takes or refuses that of its header, before one can
    /// close the frame.
    fn frame(&mut self, block: u32, frame_codes: &mut Contents<'a>) -> Result<(), Refusal> {
        let heading = self.take_unique(frame_codes)?;
        self.rows.sets.push([2, heading, block]);
        let set = self.rows.sets.len() as u32;
        let mut names = HashSet::new();
        loop {
            match self.kind() {
                6 => self.item(set, &mut names)?,
                4 => self.data_loop(set, &mut names)?,
                kind if kind == self.rules.layout.frame_end() => {
                    let end = self.take();
                    self.rows.frame_ends.push(end);
                    return Ok(());
                }
                _ => return self.refuse(8),
            }
        }
    }

    /// A name and one value.
    fn item(&mut self, set: u32, names: &mut Contents<'a>) -> Result<(), Refusal> {
        let token = self.take_unique(names)?;
        self.rows.names.push([set, token, 0, 0]);
        let name = self.rows.names.len() as u32;
        if !self.value_comes() {
            return self.refuse(8);
        }
        self.take_value(name, 0);
        Ok(())
    }

    /// Names of one level and more, header stops where the rules have them, and packets.
    fn data_loop(&mut self, set: u32, names: &mut Contents<'a>) -> Result<(), Refusal> {
        self.loops += 1;
        let number = self.loops;
        // the name rows of each level
        let mut levels: Vec<Vec<u32>> = Vec::new();
        while self.kind() == 4 {
            if levels.len() == 8 {
                return self.refuse(11);
            }
            self.take();
            let mut level = Vec::new();
            while self.kind() == 6 {
                let token = self.take_unique(names)?;
                self.rows.names.push([set, token, number, levels.len() as u32 + 1]);
                level.push(self.rows.names.len() as u32);
            }
            if level.is_empty() {
                return self.refuse(8);
            }
            levels.push(level);
        }
        for _inner in 1..levels.len() {
            if self.kind() == 5 {
                if !self.rules.header_stops {
                    return self.refuse(16);
                }
                let stop = self.take();
                self.rows.header_stops.push(stop);
            }
        }
        if !self.value_comes() {
            return self.refuse(8);
        }
        while self.value_comes() {
            self.packet(number, &levels, 1, 0)?;
        }
        Ok(())
    }

    /// One value for each name of the level and, if there is a deeper level,
    /// that level's packets and one `stop_`. A value comes next.
    fn packet(
        &mut self,
        number: u32,
        levels: &[Vec<u32>],
        level: u32,
        parent: u32,
    ) -> Result<(), Refusal> {
        self.rows.packets.push([number, level, parent]);
        let packet = self.rows.packets.len() as u32;
        for &name in &levels[0] {
            // choice: a packet that is begun and not full takes values alone
            if !self.value_comes() {
                return self.refuse(10);
            }
            self.take_value(name, packet);
        }
        let deeper = &levels[1..];
        if deeper.is_empty() {
            return Ok(());
        }
        while self.value_comes() {
            self.packet(number, deeper, level + 1, packet)?;
        }
        if self.kind() != 5 {
            return self.refuse(10);
        }
        self.take();
        Ok(())
    }
}

// -------------------------------------------------------------- reading

/// The rules by which a file is read.
#[derive(Clone, Copy, Debug)]
pub struct Rules {
    /// What closes a save frame.
    pub layout: Layout,
    /// The limit of names and codes.
    pub longest: usize,
    /// Whether `stop_` may follow the names of a loop, at most once for each inner level;
    /// else the first of them is refused.
    pub header_stops: bool,
}

/// Today's rules for a file of this layout.
pub fn rules(layout: Layout) -> Rules {
    Rules { layout, longest: MOST_NAME_BYTES, header_stops: false }
}

/// The rules for old files, of today's layout and with header stops.
pub fn old_rules() -> Rules {
    Rules { header_stops: true, ..rules(Layout::Today) }
}

/// A file's tokens, none if it does not split into them, and its rows or the
/// refusal it meets however much room there is, by these rules.
fn parsed(file: &[u8], rules: Rules) -> (Vec<Token>, Result<Rows, Refusal>) {
    if file.len() > MOST_BYTES {
        return (Vec::new(), Err(Refusal { number: 1, place: 0 }));
    }
    match tokens_within(file, rules.longest) {
        Ok(tokens) => {
            let rows = rows(file, &tokens, rules);
            (tokens, rows)
        }
        Err(refusal) => (Vec::new(), Err(refusal)),
    }
}

/// The words that the file's rows need in each table. Where the file is
/// refused whatever the room, only tokens that it splits into need any.
pub fn words_needed(file: &[u8]) -> [usize; 5] {
    words_needed_as(file, Layout::Today)
}

/// As `words_needed`, for a file of this layout.
pub fn words_needed_as(file: &[u8], layout: Layout) -> [usize; 5] {
    words_needed_by(file, rules(layout))
}

/// As `words_needed`, for a file that is read by these rules.
pub fn words_needed_by(file: &[u8], rules: Rules) -> [usize; 5] {
    match parsed(file, rules) {
        (tokens, Ok(rows)) => words(&tokens, &rows).map(|table| table.len()),
        (tokens, Err(_)) => [3 * tokens.len(), 0, 0, 0, 0],
    }
}

fn words(tokens: &[Token], rows: &Rows) -> [Vec<u32>; 5] {
    let token_row = |token: &Token| [token.kind, token.start as u32, token.end as u32];
    [
        tokens.iter().flat_map(token_row).collect(),
        rows.sets.concat(),
        rows.names.concat(),
        rows.packets.concat(),
        rows.values.concat(),
    ]
}

/// What is made of an accepted file: its tokens, the token rows that close save frames,
/// those of header stops, and its tables without room to spare.
struct Accepted {
    tokens: Vec<Token>,
    frame_ends: Vec<u32>,
    header_stops: Vec<u32>,
    tables: [Vec<u32>; 5],
}

/// An accepted file, or the refusal, by these rules.
fn reading(file: &[u8], room: [usize; 5], rules: Rules) -> Result<Accepted, Refusal> {
    let too_short = |table: usize| Refusal { number: 7, place: table + 1 };
    let (tokens, rows) = parsed(file, rules);
    if 3 * tokens.len() > room[0] {
        return Err(too_short(0));
    }
    let rows = rows?;
    let tables = words(&tokens, &rows);
    match (1..5).find(|&table| tables[table].len() > room[table]) {
        Some(table) => Err(too_short(table)),
        None => {
            let Rows { frame_ends, header_stops, .. } = rows;
            Ok(Accepted { tokens, frame_ends, header_stops, tables })
        }
    }
}

/// The layout of a number, or the refusal that comes before all others.
fn layout_of(number: u32) -> Result<Layout, Refusal> {
    Layout::of(number).ok_or(Refusal { number: 14, place: 0 })
}

/// Reads a file of today's layout into tables of these lengths: the answer and every
/// word.
pub fn read(file: &[u8], room: [usize; 5]) -> (Reading, [Vec<u32>; 5]) {
    answered(reading(file, room, rules(Layout::Today)), room)
}

/// As `read`, for a file of the layout with this number.
pub fn read_as(file: &[u8], layout: u32, room: [usize; 5]) -> (Reading, [Vec<u32>; 5]) {
    answered(layout_of(layout).and_then(|layout| reading(file, room, rules(layout))), room)
}

/// Reads a file of today's layout by the rules for old files, which have header stops.
pub fn read_with_header_stops(file: &[u8], room: [usize; 5]) -> (Reading, [Vec<u32>; 5]) {
    answered(reading(file, room, old_rules()), room)
}

/// Reads a file as `read` did before the limit of names and codes was raised.
pub fn read_by_old_limit(file: &[u8], room: [usize; 5]) -> (Reading, [Vec<u32>; 5]) {
    answered(reading(file, room, Rules { longest: OLD_NAME_BYTES, ..rules(Layout::Today) }), room)
}

/// The answer of a reading, and every word of tables of these lengths.
fn answered(reading: Result<Accepted, Refusal>, room: [usize; 5]) -> (Reading, [Vec<u32>; 5]) {
    match reading {
        Ok(Accepted { tables, .. }) => (accepted(&tables), padded(tables, room)),
        Err(refusal) => (refused(refusal), padded(Default::default(), room)),
    }
}

/// Reads a file into tables of these lengths and looks whether every name and
/// code still fits 32 bytes: the answer and every word.
pub fn fits_32(file: &[u8], room: [usize; 5]) -> (Checked, [Vec<u32>; 5]) {
    let (reading, tables) = read(file, room);
    let Reading { refusal, place, tokens, sets, names, packets, values } = reading;
    let fits = |row: &[u32]| {
        let length = (row[2] - row[1]) as usize;
        !is_name_or_code(row[0]) || length <= OLD_NAME_BYTES
    };
    let all_fit = tables[0].chunks_exact(3).take(tokens as usize).all(fits);
    let yes = u32::from(refusal == 0 && all_fit);
    (Checked { refusal, place, yes, tokens, sets, names, packets, values }, tables)
}

/// The tables with 0 in every word after the last row.
pub(crate) fn padded(mut tables: [Vec<u32>; 5], room: [usize; 5]) -> [Vec<u32>; 5] {
    for (table, room) in tables.iter_mut().zip(room) {
        table.resize(room, 0);
    }
    tables
}

fn accepted(tables: &[Vec<u32>; 5]) -> Reading {
    let count = |table: usize| (tables[table].len() / WIDTHS[table]) as u32;
    Reading {
        refusal: 0,
        place: 0,
        tokens: count(0),
        sets: count(1),
        names: count(2),
        packets: count(3),
        values: count(4),
    }
}

pub(crate) fn refused(refusal: Refusal) -> Reading {
    Reading { refusal: refusal.number, place: refusal.place as u32, ..Reading::default() }
}

// -------------------------------------------------------------- writing

/// The plain form of tokens of a file, however long.
pub fn plain_form(file: &[u8], tokens: &[Token]) -> Vec<u8> {
    plain_form_closed(file, tokens, &[], b"")
}

/// The plain form of tokens of a file with this word for each of these token rows.
fn plain_form_closed(file: &[u8], tokens: &[Token], rows: &[u32], word: &[u8]) -> Vec<u8> {
    let mut plain = Vec::new();
    for (token, row) in tokens.iter().zip(1u32..) {
        let content = &file[token.start..token.end];
        let (before, after): (&[u8], &[u8]) = match token.kind {
            1 => (b"data_", b""),
            2 => (b"save_", b""),
            7 if content[0] == b';' => (b" ", b""),
            8 => (b"$", b""),
            9 => (b"'", b"'"),
            10 => (b"\"", b"\""),
            11 if content.ends_with(b"\r") => (b";", b"\r\n;"),
            11 => (b";", b"\n;"),
            _ => (b"", b""),
        };
        // rows stand in file order
        let content = if rows.binary_search(&row).is_ok() { word } else { content };
        plain.extend_from_slice(before);
        plain.extend_from_slice(content);
        plain.extend_from_slice(after);
        plain.push(b'\n');
    }
    plain
}

/// Reads a file and writes its plain form, into tables and an output of these
/// lengths: the answer, every word and every byte.
pub fn write(file: &[u8], room: [usize; 5], out: usize) -> (Written, [Vec<u32>; 5], Vec<u8>) {
    let plain = reading(file, room, rules(Layout::Today))
        .map(|read| (plain_form(file, &read.tokens), read.tables));
    written(plain, room, out)
}

/// Reads a file of the layout with this number and writes its plain form in the other:
/// as `write`.
pub fn convert(
    file: &[u8],
    layout: u32,
    room: [usize; 5],
    out: usize,
) -> (Written, [Vec<u32>; 5], Vec<u8>) {
    let plain = layout_of(layout).and_then(|layout| {
        let Accepted { tokens, frame_ends, tables, .. } = reading(file, room, rules(layout))?;
        let word = layout.other().frame_end_word();
        Ok((plain_form_closed(file, &tokens, &frame_ends, word), tables))
    });
    written(plain, room, out)
}

/// The tokens without those of these rows, which stand in file order.
fn without(tokens: &[Token], rows: &[u32]) -> Vec<Token> {
    let numbered = tokens.iter().zip(1u32..);
    let kept = numbered.filter(|(_, row)| rows.binary_search(row).is_err());
    kept.map(|(token, _)| *token).collect()
}

/// The plain form of an old file without its header stops, however long; none if it is
/// refused whatever the room.
pub fn plain_form_dropped(file: &[u8]) -> Option<Vec<u8>> {
    let (tokens, rows) = parsed(file, old_rules());
    Some(plain_form(file, &without(&tokens, &rows.ok()?.header_stops)))
}

/// Reads a file by the rules for old files and writes its plain form without the header
/// stops: as `write`. The tables are those of the old file.
pub fn drop_header_stops(
    file: &[u8],
    room: [usize; 5],
    out: usize,
) -> (Written, [Vec<u32>; 5], Vec<u8>) {
    let plain = reading(file, room, old_rules()).map(|read| {
        let kept = without(&read.tokens, &read.header_stops);
        // choice: 1 and 7 at 6 are about the form without the header stops
        (plain_form(file, &kept), read.tables)
    });
    written(plain, room, out)
}

/// What is answered, and left in tables and an output of these lengths, where this plain
/// form is to be written and these are the tables of the reading.
fn written(
    plain: Result<(Vec<u8>, [Vec<u32>; 5]), Refusal>,
    room: [usize; 5],
    out: usize,
) -> (Written, [Vec<u32>; 5], Vec<u8>) {
    let fits = plain.and_then(|(plain, tables)| match plain.len() {
        length if length > MOST_BYTES => Err(Refusal { number: 1, place: 0 }),
        length if length > out => Err(Refusal { number: 7, place: 6 }),
        _ => Ok((accepted(&tables), tables, plain)),
    });
    let (answer, tables, mut plain) =
        fits.unwrap_or_else(|refusal| (refused(refusal), Default::default(), Vec::new()));
    let answer = Written {
        refusal: answer.refusal,
        place: answer.place,
        length: plain.len() as u32,
        tokens: answer.tokens,
        sets: answer.sets,
        names: answer.names,
        packets: answer.packets,
        values: answer.values,
    };
    plain.resize(out, 0);
    (answer, padded(tables, room), plain)
}

// -------------------------------------------------------------- finding

/// Whether every count is within what its table holds.
/// choice: all five are checked in every lookup
pub(crate) fn counts_hold(tables: Tables<'_>, counts: Counts) -> bool {
    let holds = |count: u32, table: &[u32], width: usize| count as usize <= table.len() / width;
    holds(counts.tokens, tables.tokens, 3)
        && holds(counts.sets, tables.sets, 3)
        && holds(counts.names, tables.names, 4)
        && holds(counts.packets, tables.packets, 3)
        && holds(counts.values, tables.values, 4)
}

/// Whether a row number is one of a table with this count.
pub(crate) fn within(row: u32, count: u32) -> bool {
    1 <= row && row <= count
}

/// The kind and the part of a token row, if the row and its span are inside.
pub(crate) fn token_part(
    file: &[u8],
    tables: Tables<'_>,
    counts: Counts,
    row: u32,
) -> Option<(u32, usize, usize)> {
    if !within(row, counts.tokens) {
        return None;
    }
    let words = &tables.tokens[3 * (row as usize - 1)..3 * row as usize];
    let (start, end) = (words[1] as usize, words[2] as usize);
    (start <= end && end <= file.len()).then_some((words[0], start, end))
}

/// The first of these rows, each with its token row, whose content is sought.
fn first_equal(
    file: &[u8],
    tables: Tables<'_>,
    counts: Counts,
    rows: impl Iterator<Item = (usize, u32)>,
    sought: &[u8],
) -> Found {
    for (at, token) in rows {
        match token_part(file, tables, counts, token) {
            None => return Found { refusal: 14, row: 0 },
            Some((_, start, end)) if compare(&file[start..end], sought).equal => {
                return Found { refusal: 0, row: at as u32 + 1 };
            }
            Some(_) => {}
        }
    }
    Found { refusal: 13, row: 0 }
}

/// Finds a data block by its code.
pub fn find_block(file: &[u8], tables: Tables<'_>, counts: Counts, code: &[u8]) -> Found {
    if !counts_hold(tables, counts) {
        return Found { refusal: 14, row: 0 };
    }
    let sets = tables.sets.chunks_exact(3).take(counts.sets as usize).enumerate();
    // choice: kind 1 makes a block, whatever its parent
    let blocks = sets.filter(|(_, set)| set[0] == 1).map(|(at, set)| (at, set[1]));
    first_equal(file, tables, counts, blocks, code)
}

/// Finds a save frame of a set by its code.
pub fn find_frame(file: &[u8], tables: Tables<'_>, counts: Counts, set: u32, code: &[u8]) -> Found {
    if !counts_hold(tables, counts) || !within(set, counts.sets) {
        return Found { refusal: 14, row: 0 };
    }
    let sets = tables.sets.chunks_exact(3).take(counts.sets as usize).enumerate();
    let frames = sets.filter(|(_, row)| row[0] == 2 && row[2] == set);
    first_equal(file, tables, counts, frames.map(|(at, row)| (at, row[1])), code)
}

/// Finds a name of a set or, for a data block, of an earlier global block, one after
/// the other.
pub fn find_name(file: &[u8], tables: Tables<'_>, counts: Counts, set: u32, name: &[u8]) -> Found {
    if !counts_hold(tables, counts) || !within(set, counts.sets) {
        return Found { refusal: 14, row: 0 };
    }
    let of = |set: u32| {
        let names = tables.names.chunks_exact(4).take(counts.names as usize).enumerate();
        let own = names.filter(|(_, row)| row[0] == set);
        first_equal(file, tables, counts, own.map(|(at, row)| (at, row[1])), name)
    };
    own_or_global(tables.sets, set, of)
}

/// What a set answers or, where a data block answers 13, the earlier global blocks, the
/// nearest first.
pub(crate) fn own_or_global(sets: &[u32], set: u32, of: impl Fn(u32) -> Found) -> Found {
    // choice: the kind word of a set's row decides, whatever its heading and parent
    let kind = |set: u32| sets[3 * (set as usize - 1)];
    let mut answer = of(set);
    if kind(set) == 1 {
        for earlier in (1..set).rev().filter(|&earlier| kind(earlier) == 3) {
            if answer.refusal != 13 {
                break;
            }
            answer = of(earlier);
        }
    }
    answer
}

/// The words of the k-th value row of a name: of the first row of the name, or of
/// that to which k - 1 links lead from there. Or the refusal.
fn value_row(values: &[u32], name_row: u32, k: u32) -> Result<&[u32], u32> {
    let count = values.len() / 4;
    let words = |row: usize| &values[4 * (row - 1)..4 * row];
    let mut row = (1..=count).find(|&row| words(row)[0] == name_row).ok_or(13u32)?;
    for _ in 1..k {
        // choice: a link is looked at when it is followed
        let link = words(row)[3] as usize;
        if link == 0 {
            return Err(13);
        }
        if link <= row || link > count || words(link)[0] != name_row {
            return Err(14);
        }
        row = link;
    }
    Ok(words(row))
}

/// The k-th value of a name row: kind, packet and part, or the refusal.
fn value(
    file: &[u8],
    tables: Tables<'_>,
    counts: Counts,
    name_row: u32,
    k: u32,
) -> Result<(u32, u32, Part), u32> {
    if !counts_hold(tables, counts) || !within(name_row, counts.names) {
        return Err(14);
    }
    if k == 0 {
        return Err(13);
    }
    let row = value_row(&tables.values[..4 * counts.values as usize], name_row, k)?;
    let (kind, start, end) = token_part(file, tables, counts, row[2]).ok_or(14u32)?;
    Ok((kind, row[1], Part { start, end }))
}

/// The kind and packet of the k-th value of a name row.
pub fn value_at(file: &[u8], tables: Tables<'_>, counts: Counts, name_row: u32, k: u32) -> Value {
    match value(file, tables, counts, name_row, k) {
        Ok((kind, packet, _)) => Value { refusal: 0, kind, packet },
        Err(refusal) => Value { refusal, kind: 0, packet: 0 },
    }
}

/// Where in the file the k-th value of a name row stands; 0, 0 when refused.
pub fn value_span(file: &[u8], tables: Tables<'_>, counts: Counts, name_row: u32, k: u32) -> Part {
    match value(file, tables, counts, name_row, k) {
        Ok((_, _, part)) => part,
        Err(_) => Part { start: 0, end: 0 },
    }
}

/// The k-th value of a name row as a number.
pub fn value_number(
    file: &[u8],
    tables: Tables<'_>,
    counts: Counts,
    name_row: u32,
    k: u32,
) -> ValueNumber {
    match value(file, tables, counts, name_row, k) {
        Ok((kind, _, Part { start, end })) => {
            let number = number_of(kind, &file[start..end]);
            let (value, uncertainty) = (number.value, number.uncertainty);
            ValueNumber { refusal: 0, form: number.form, value, uncertainty }
        }
        Err(refusal) => ValueNumber { refusal, form: 0, value: 0.0, uncertainty: 0.0 },
    }
}

#[cfg(test)]
mod tests {
    use super::*;
    use crate::notation::{
        checked_vectors, dropped_vectors, escaped, layout_vectors, name_vectors, unescaped,
        vectors, LayoutVector, NameVector, Vector,
    };

    const ROOM: [usize; 5] = [600; 5];

    /// The refusal and place, or the row counts, that reading answers.
    fn answer(file: &[u8]) -> Result<[u32; 5], (u32, u32)> {
        let room = words_needed(file).map(|words| words + 1);
        let (answer, _) = read(file, room);
        match answer.refusal {
            0 => Ok([answer.tokens, answer.sets, answer.names, answer.packets, answer.values]),
            number => Err((number, answer.place)),
        }
    }

    /// As `answer`, by the rules for old files.
    fn old_answer(file: &[u8]) -> Result<[u32; 5], (u32, u32)> {
        let room = words_needed_by(file, old_rules()).map(|words| words + 1);
        let (answer, _) = read_with_header_stops(file, room);
        match answer.refusal {
            0 => Ok([answer.tokens, answer.sets, answer.names, answer.packets, answer.values]),
            number => Err((number, answer.place)),
        }
    }

    #[test]
    fn vectors_are_answered() {
        answer_vectors("base.txt", include_str!("../../vectors/base.txt"), 130);
        answer_vectors("102.txt", include_str!("../../vectors/102.txt"), 30);
        answer_vectors("105.txt", include_str!("../../vectors/105.txt"), 38);
        answer_vectors("106.txt", include_str!("../../vectors/106.txt"), 9);
        answer_vectors("109.txt", include_str!("../../vectors/109.txt"), 16);
    }

    #[test]
    fn vectors_of_dropped_header_stops_are_answered() {
        let list = dropped_vectors(include_str!("../../vectors/109-dropped.txt"));
        assert_eq!(list.len(), 16);
        for vector in list {
            let shown = format!("line {}: {}", vector.line, escaped(&vector.file));
            let read = read_with_header_stops(&vector.file, ROOM);
            answer_vector(&vector, read, drop_header_stops(&vector.file, ROOM, 900), &shown);
            if vector.refusal == 0 {
                assert_eq!(plain_form_dropped(&vector.file).as_ref(), Some(&vector.plain));
            }
        }
    }

    #[test]
    fn vectors_of_lookups_are_answered() {
        let list = name_vectors(include_str!("../../vectors/105-names.txt"));
        assert_eq!(list.len(), 252);
        for NameVector { line, file, set, name, answer } in list {
            let (reading, tables) = match read(&file, ROOM) {
                // an old file: the lookup is in the tables of its own reading
                (reading, _) if reading.refusal == 16 => read_with_header_stops(&file, ROOM),
                read => read,
            };
            let found = find_name(&file, Tables::of(&tables), reading.counts(), set, &name);
            assert_eq!(found, answer, "line {line}: {} {set}", escaped(&file));
        }
    }

    #[test]
    fn vectors_of_checks_are_answered() {
        let list = checked_vectors(include_str!("../../vectors/104.txt"));
        assert_eq!(list.len(), 25);
        for vector in list {
            let (checked, _) = fits_32(&vector.file, ROOM);
            assert_eq!(checked, vector.answer, "line {}: {}", vector.line, escaped(&vector.file));
        }
    }

    /// Answers the vectors of a list of so many.
    fn answer_vectors(name: &str, list: &str, count: usize) {
        let list = vectors(list);
        assert_eq!(list.len(), count, "{name}");
        for vector in list {
            let shown = format!("{name}, line {}: {}", vector.line, escaped(&vector.file));
            let read = read(&vector.file, ROOM);
            answer_vector(&vector, read, write(&vector.file, ROOM, 900), &shown);
        }
    }

    /// The answers of reading, and of writing or conversion, are those of the vector.
    fn answer_vector(
        vector: &Vector,
        (answer, tables): (Reading, [Vec<u32>; 5]),
        (written, written_tables, mut out): (Written, [Vec<u32>; 5], Vec<u8>),
        shown: &str,
    ) {
        assert_eq!((answer.refusal, answer.place), (vector.refusal, vector.place), "{shown}");
        let Counts { tokens, sets, names, packets, values } = answer.counts();
        assert_eq!([tokens, sets, names, packets, values], vector.counts, "{shown}");
        for (table, rows) in tables.iter().zip(&vector.tables) {
            let mut rows = rows.clone();
            rows.resize(600, 0);
            assert_eq!(table, &rows, "{shown}");
        }
        assert_eq!((written.reading(), written_tables), (answer, tables), "{shown}");
        assert!(out.split_off(written.length as usize).iter().all(|&byte| byte == 0));
        assert_eq!(out, vector.plain, "{shown}");
    }

    /// The plain form that conversion writes, none if it refuses.
    fn converted(file: &[u8], layout: u32) -> Option<Vec<u8>> {
        let room = words_needed_as(file, Layout::of(layout).expect("a layout"));
        let (written, _, mut out) = convert(file, layout, room, 2 * file.len() + 1);
        out.truncate(written.length as usize);
        (written.refusal == 0).then_some(out)
    }

    #[test]
    fn vectors_of_layouts_are_answered() {
        let list = layout_vectors(include_str!("../../vectors/108.txt"));
        assert_eq!(list.len(), 68);
        for LayoutVector { layout, of } in list {
            let shown = format!("line {}: {layout}, {}", of.line, escaped(&of.file));
            let read = read_as(&of.file, layout, ROOM);
            answer_vector(&of, read, convert(&of.file, layout, ROOM, 900), &shown);
            if of.refusal == 0 {
                let tokens = tokens(&of.file).expect("an accepted file splits into tokens");
                let back = converted(&of.plain, 1 - layout).expect("a plain form is accepted");
                assert_eq!(back, plain_form(&of.file, &tokens), "{shown}");
                assert_eq!(converted(&back, layout), Some(of.plain), "{shown}");
            }
        }
    }

    /// What closes a save frame in each layout, and what is out of place.
    #[test]
    fn known_layouts_are_read() {
        // refusal and place by today's layout and by that of 1991
        let ok = (0, 0);
        for (file, today, of_1991) in [
            ("data_a save_f save_", ok, (8, 14)),
            ("data_a save_f stop_", (8, 14), ok),
            ("data_a save_f loop_ _x 1 2 stop_", (8, 27), ok),
            ("data_a save_f loop_ _x loop_ _y 1 2 stop_ stop_", (8, 42), ok),
            ("data_a save_f loop_ _x loop_ _y 1 2 stop_", (8, 41), (8, 41)),
            ("data_a save_f loop_ _x loop_ _y 1 2 stop_ save_", ok, (8, 42)),
            ("data_a save_f loop_ _x loop_ _y stop_ 1 stop_ stop_", (16, 32), (16, 32)),
            ("data_a save_f loop_ _x loop_ _y stop_", (16, 32), (16, 32)),
            ("data_a save_f loop_ _x stop_", (8, 23), (8, 23)),
            ("data_a save_f loop_ stop_", (8, 20), (8, 20)),
            ("data_a save_f _x stop_", (8, 17), (8, 17)),
            ("data_a save_f loop_ _x _y 1 stop_", (10, 28), (10, 28)),
            ("data_a save_f loop_ _x _y 1 save_", (10, 28), (10, 28)),
            ("data_a save_f loop_ _x loop_ _y 1 save_", (10, 34), (10, 34)),
            ("data_a save_f loop_ _x loop_ _y _z 1 2 save_", (10, 39), (10, 39)),
            ("data_a loop_ _x 1 stop_", (8, 18), (8, 18)),
            ("data_a loop_ _x loop_ _y 1 stop_ stop_", (8, 33), (8, 33)),
            ("data_a stop_", (8, 7), (8, 7)),
            ("stop_", (8, 0), (8, 0)),
            ("save_", (8, 0), (8, 0)),
            ("data_a save_f stop_ stop_", (8, 14), (8, 20)),
            ("data_a save_f stop_ save_f stop_", (8, 14), (9, 20)),
            ("data_a save_f _x 1 stop_ _x 2", (8, 19), ok),
            ("global_ save_f stop_ global_ save_f stop_", (8, 15), ok),
            ("data_a save_f", (8, 13), (8, 13)),
            ("data_a save_f data_b", (8, 14), (8, 14)),
            ("data_a loop_ _x loop_ _y 1 stop_", ok, ok),
        ] {
            let answer = |layout: u32| {
                let room = words_needed_as(file.as_bytes(), Layout::of(layout).expect("a layout"));
                let (reading, _) = read_as(file.as_bytes(), layout, room);
                (reading.refusal, reading.place)
            };
            assert_eq!((answer(0), answer(1)), (today, of_1991), "{file}");
            assert_eq!(read_as(file.as_bytes(), 0, ROOM), read(file.as_bytes(), ROOM), "{file}");
        }
    }

    /// Any other number of a layout is refused before all else, and compared whole.
    #[test]
    fn other_layouts_are_refused() {
        let largest = vec![0; MOST_BYTES + 1];
        for file in [b"".as_slice(), b"data_a save_f save_", b"data_", &largest] {
            for layout in [2, 3, 255, 256, 257, 1 << 16, 1 << 31, (1 << 31) | 1, u32::MAX] {
                for room in [[0; 5], [7; 5]] {
                    let (reading, tables) = read_as(file, layout, room);
                    assert_eq!(reading, Reading { refusal: 14, ..Reading::default() });
                    let (written, written_tables, out) = convert(file, layout, room, 9);
                    assert_eq!(written, Written { refusal: 14, ..Written::default() });
                    assert_eq!((&tables, out), (&room.map(|words| vec![0; words]), vec![0; 9]));
                    assert_eq!(tables, written_tables);
                }
            }
        }
        assert_eq!(read_as(&largest, 1, [0; 5]).0.refusal, 1);
    }

    /// Conversion has the writer's refusals, and leaves the tables of the file as read.
    #[test]
    fn conversions_are_refused_as_writing_is() {
        let file = b"data_a save_f _x 1 stop_ # c";
        let plain = b"data_a\nsave_f\n_x\n1\nsave_\n";
        let room = words_needed_as(file, Layout::Of1991);
        let (written, tables, out) = convert(file, 1, room, plain.len());
        assert_eq!((written.refusal, out.as_slice()), (0, plain.as_slice()));
        assert_eq!((written.reading(), tables), read_as(file, 1, room));
        let (written, tables, out) = convert(file, 1, room, plain.len() - 1);
        assert_eq!(written, Written { refusal: 7, place: 6, ..Written::default() });
        assert!(tables.iter().flatten().all(|&word| word == 0));
        assert!(out.iter().all(|&byte| byte == 0));
        // the plain form over the limit, 1 before 7 at 6; then one byte less
        let head = b"data_a save_f stop_ _x ";
        for (bytes, refusal) in [(MOST_BYTES, 1), (MOST_BYTES - 1, 0)] {
            let file = [head.as_slice(), &vec![b'v'; bytes - head.len()]].concat();
            assert_eq!(convert(&file, 1, ROOM, 2 * MOST_BYTES).0.refusal, refusal);
            assert_eq!(convert(&file, 1, ROOM, 0).0.refusal, if refusal == 1 { 1 } else { 7 });
        }
    }

    /// Where a header stop is refused today, and what the rules for old files give there.
    #[test]
    fn known_header_stops_are_retired() {
        // refusal and place of today's rules, in both layouts, and of the old ones
        let ok = (0, 0);
        for (file, today, old) in [
            ("data_a loop_ _x loop_ _y stop_ 1 stop_", (16, 25), ok),
            ("data_a loop_ _x loop_ _y stop_ 1 2 stop_ 3 stop_", (16, 25), ok),
            ("data_a loop_ _x loop_ _y loop_ _z stop_ stop_ 1 stop_", (16, 34), ok),
            ("global_ loop_ _x loop_ _y stop_ 1 stop_ global_", (16, 26), ok),
            ("data_a loop_ _x 1 loop_ _y loop_ _z stop_ 1 stop_", (16, 36), ok),
            // what follows does not matter
            ("data_a loop_ _x loop_ _y stop_", (16, 25), (8, 30)),
            ("data_a loop_ _x loop_ _y stop_ stop_ 1 stop_", (16, 25), (8, 31)),
            ("data_a loop_ _x loop_ _y stop_ _z 1 stop_", (16, 25), (8, 31)),
            ("data_a loop_ _x loop_ _y stop_ _x 1 stop_", (16, 25), (8, 31)),
            ("data_a loop_ _x loop_ _y stop_ loop_ _z", (16, 25), (8, 31)),
            ("data_a loop_ _x loop_ _y stop_ data_a", (16, 25), (8, 31)),
            ("data_a loop_ _x loop_ _y stop_ 1", (16, 25), (10, 32)),
            ("data_a loop_ _x _w loop_ _y stop_ 1 stop_", (16, 28), (10, 36)),
            ("data_a loop_ _x loop_ _y stop_ 1 stop_ _x 2", (16, 25), (9, 39)),
            // what stands before it comes first
            ("data_a loop_ _x loop_ _x stop_ 1 stop_", (9, 22), (9, 22)),
            ("data_a _y 1 loop_ _x loop_ _y stop_ 1 stop_", (9, 27), (9, 27)),
            ("data_a data_a loop_ _x loop_ _y stop_ 1 stop_", (9, 7), (9, 7)),
            ("data_a loop_ _x _w 1 loop_ _y loop_ _z stop_", (10, 21), (10, 21)),
            // no header stop: one level, no name of the innermost, no header
            ("data_a loop_ stop_", (8, 13), (8, 13)),
            ("data_a loop_ _x stop_ 1", (8, 16), (8, 16)),
            ("data_a loop_ _x stop_ loop_ _y 1 stop_", (8, 16), (8, 16)),
            ("data_a loop_ _x loop_ stop_", (8, 22), (8, 22)),
            ("data_a loop_ _x loop_ _y loop_ stop_ _z 1", (8, 31), (8, 31)),
            ("data_a _x stop_", (8, 10), (8, 10)),
        ] {
            let bytes = file.as_bytes();
            let answered = |answer: Result<[u32; 5], (u32, u32)>| answer.err().unwrap_or((0, 0));
            assert_eq!((answered(answer(bytes)), answered(old_answer(bytes))), (today, old));
            let of_1991 = read_as(bytes, 1, words_needed_as(bytes, Layout::Of1991)).0;
            assert_eq!((of_1991.refusal, of_1991.place), today, "{file}");
        }
    }

    /// The call for old files has the writer's refusals, about the form without the header
    /// stops, and leaves the tables of the old file.
    #[test]
    fn dropping_is_refused_as_writing_is() {
        let file = b"data_a loop_ _x loop_ _y stop_ 1 2 stop_ # c";
        let plain = b"data_a\nloop_\n_x\nloop_\n_y\n1\n2\nstop_\n";
        let room = words_needed_by(file, old_rules());
        assert_eq!(room, [27, 3, 8, 6, 8]);
        let (written, tables, out) = drop_header_stops(file, room, plain.len());
        assert_eq!((written.refusal, out.as_slice()), (0, plain.as_slice()));
        assert_eq!((written.reading(), tables), read_with_header_stops(file, room));
        assert_eq!(written.tokens, 9);
        let (written, tables, out) = drop_header_stops(file, room, plain.len() - 1);
        assert_eq!(written, Written { refusal: 7, place: 6, ..Written::default() });
        assert!(tables.iter().flatten().all(|&word| word == 0));
        assert!(out.iter().all(|&byte| byte == 0));
        for table in 0..5 {
            let mut short = room;
            short[table] -= 1;
            let (written, ..) = drop_header_stops(file, short, 900);
            assert_eq!((written.refusal, written.place), (7, table as u32 + 1));
        }
        // a plain form that is over the limit with the header stop alone, and one over it
        // without, 1 before 7 at 6
        let head = b"data_a loop_ _x loop_ _y stop_ ";
        let tail = b" stop_\n";
        for (bytes, refusal) in [(MOST_BYTES, 0), (MOST_BYTES + 6, 0), (MOST_BYTES + 7, 1)] {
            // each `;` takes three bytes in the plain form and two here
            let words = (bytes - head.len() - tail.len()) / 4;
            let value = vec![b'v'; bytes - head.len() - tail.len() - 3 * words];
            let file = [head.as_slice(), &value, &b" ;".repeat(words), tail].concat();
            assert!(file.len() <= MOST_BYTES);
            let room = words_needed_by(&file, old_rules());
            let tokens = tokens(&file).expect("it splits");
            assert_eq!(plain_form(&file, &tokens).len(), bytes);
            assert_eq!(plain_form_dropped(&file).map(|plain| plain.len()), Some(bytes - 6));
            assert_eq!(drop_header_stops(&file, room, 2 * MOST_BYTES).0.refusal, refusal);
            assert_eq!(
                drop_header_stops(&file, room, 0).0.refusal,
                if refusal == 1 { 1 } else { 7 }
            );
        }
    }

    /// Known files of specification 15.2, `/` for byte 10, with the refusal and place.
    #[test]
    fn known_files_are_refused() {
        let known = [
            ("data_", 3, 0),
            ("loop_", 8, 0),
            ("data_a _x", 8, 9),
            ("data_a _x 1 _x 2", 9, 12),
            ("data_a loop_ _x _y 1 2 3", 10, 24),
            ("data_a loop_ _x loop_ _y 1 2", 10, 28),
            ("data_a loop_ _x 1 stop_", 8, 18),
            ("data_a/_x/;p/;q", 6, 10),
            ("data_a _x 'a", 5, 10),
            ("data_a data_a", 9, 7),
        ];
        for (file, number, place) in known {
            let file = file.replace('/', "\n");
            assert_eq!(answer(file.as_bytes()), Err((number, place)), "{file}");
        }
    }

    #[test]
    fn known_files_are_accepted() {
        assert_eq!(answer(b""), Ok([0; 5]));
        assert_eq!(answer(b"global_"), Ok([1, 1, 0, 0, 0]));
        let full = b"data_a\nloop_\n_x\nloop_\n_y\n1 2 3 stop_ 4 stop_\n";
        assert_eq!(full.len(), 45);
        assert_eq!(answer(full), Ok([11, 1, 2, 4, 4]));
        let (_, tables) = read(full, [33, 3, 8, 12, 16]);
        assert_eq!(tables[2], [1, 3, 1, 1, 1, 5, 1, 2]);
        assert_eq!(tables[3], [1, 1, 0, 1, 2, 1, 1, 2, 1, 1, 1, 0]);
        assert_eq!(tables[4], [1, 1, 6, 4, 2, 2, 7, 3, 2, 3, 8, 0, 1, 4, 10, 0]);
        let plain = b"data_a\nloop_\n_x\nloop_\n_y\n1\n2\n3\nstop_\n4\nstop_\n";
        assert_eq!(write(full, ROOM, plain.len()).2, plain);
        assert_eq!(write(b"data_a _x ;b", ROOM, 14).2, b"data_a\n_x\n ;b\n");
    }

    /// `global_` stands where a block heading may, and is refused where one is.
    #[test]
    fn known_global_blocks_are_read() {
        for (file, answered) in [
            ("global_ global_", Ok([2, 2, 0, 0, 0])),
            ("data_a loop_ _x 1 global_", Ok([5, 2, 1, 1, 1])),
            ("data_a loop_ _x loop_ _y 1 stop_ global_ _x 3", Ok([10, 2, 3, 1, 2])),
            ("global_ save_f _x 1 save_ _x 2", Ok([7, 2, 2, 0, 2])),
            ("global_ _x 1 _x 2", Err((9, 13))),
            ("global_ save_f save_ save_f save_", Err((9, 21))),
            ("data_a global_ data_a", Err((9, 15))),
            ("data_a save_f global_", Err((8, 14))),
            ("data_a _x global_", Err((8, 10))),
            ("data_a loop_ global_", Err((8, 13))),
            ("data_a loop_ _x global_", Err((8, 16))),
            ("data_a loop_ _x _y 1 global_", Err((10, 21))),
            ("data_a loop_ _x loop_ _y 1 global_", Err((10, 27))),
            ("global_ 1", Err((8, 8))),
            ("global_x", Err((3, 0))),
        ] {
            assert_eq!(answer(file.as_bytes()), answered, "{file}");
        }
        let file = b"data_a save_f save_ global_ save_f save_";
        let (_, tables) = read(file, words_needed(file));
        assert_eq!(tables[1], [1, 1, 0, 2, 2, 1, 3, 4, 0, 2, 5, 3]);
        assert_eq!(tables[0][9..12], [12, 20, 27]);
    }

    /// The only value of `data_a _x` and what follows.
    fn value_of(rest: &str) -> Vec<u8> {
        let file = [b"data_a _x ", unescaped(rest).as_slice()].concat();
        let (answer, tables) = read(&file, ROOM);
        assert_eq!((answer.refusal, answer.values), (0, 1), "{rest}");
        let part = value_span(&file, Tables::of(&tables), answer.counts(), 1, 1);
        file[part.start..part.end].to_vec()
    }

    #[test]
    fn known_values_are_found() {
        assert_eq!(value_of("'it's'"), b"it's");
        assert_eq!(value_of("C#N"), b"C#N");
        assert_eq!(value_of("''' "), b"'");
        assert_eq!(value_of(";b"), b";b");
        // the text field of International Tables G, 2.1.3
        assert_eq!(value_of("\\n; School of CSSE\\n  UWA\\n;"), b" School of CSSE\n  UWA");
    }

    /// Text fields, their contents and their plain forms: the line end before
    /// the closing `;` is outside the content, any other stays in it.
    #[test]
    fn known_text_fields_are_closed() {
        let known = [
            (r";t\n;", "t", r";t\n;"),
            (r";t\f;", "t", r";t\n;"),
            (r";t\r;", "t", r";t\n;"),
            (r";t\r\n;", "t", r";t\n;"),
            (r";t\n\r;", r"t\n", r";t\n\n;"),
            (r";t\f\n;", r"t\f", r";t\f\n;"),
            (r";t\f\r\n;", r"t\f", r";t\f\n;"),
            (r";t\n\r\n;", r"t\n", r";t\n\n;"),
            (r";t\r\n\n;", r"t\r\n", r";t\r\n\n;"),
            // contents that end in 13
            (r";t\r\r\n;", r"t\r", r";t\r\r\n;"),
            (r";t\r\r;", r"t\r", r";t\r\r\n;"),
            (r";t\r\f;", r"t\r", r";t\r\r\n;"),
            (r";t\r\n\r\r;", r"t\r\n\r", r";t\r\n\r\r\n;"),
            (r";\r\f;", r"\r", r";\r\r\n;"),
            (r";\r\r\n;", r"\r", r";\r\r\n;"),
            // empty contents
            (r";\n;", "", r";\n;"),
            (r";\r;", "", r";\n;"),
            (r";\r\n;", "", r";\n;"),
            // 13, 10 and a lone 13 within a content
            (r";a\r\nb\r\n;", r"a\r\nb", r";a\r\nb\n;"),
            (r";a\rb\n;", r"a\rb", r";a\rb\n;"),
            (r";a\r\n ;b\n;\r\n", r"a\r\n ;b", r";a\r\n ;b\n;"),
        ];
        for (field, content, plain) in known {
            assert_eq!(escaped(&value_of(&format!(r"\r\n{field}"))), content, "{field}");
            let file = unescaped(&format!(r"data_a _x\n{field}"));
            let (written, _, mut out) = write(&file, ROOM, 900);
            out.truncate(written.length as usize);
            assert_eq!(escaped(&out), format!(r"data_a\n_x\n{plain}\n"), "{field}");
        }
        for open in [r";t\r\n", r";t\r", r";\r\n", r";t\r\n;u", r";t\r;u\r\n;", r";t\r\n ;"] {
            let file = unescaped(&format!(r"data_a _x\r\n{open}"));
            assert_eq!(answer(&file), Err((6, 11)), "{open}");
        }
        assert_eq!(answer(b"data_a _x 1\r\n"), Ok([3, 1, 1, 0, 1]));
        assert_eq!(answer(b"data_a _x 'a\r\n'"), Err((5, 10)));
    }

    #[test]
    fn known_names_are_compared() {
        let known = [
            ("", "", true, 0),
            ("a", "", false, 0),
            ("_a", "_a", true, 2),
            ("_a", "_b", false, 2),
            ("_a", "_ab", false, 0),
            ("_cell_a", "_Cell_a", false, 2),
            ("_atom_site_aniso_U_11", "_atom_site_aniso_U_12", false, 21),
        ];
        for (one, other, equal, pairs) in known {
            let answer = Compared { equal, pairs };
            assert_eq!(compare(one.as_bytes(), other.as_bytes()), answer, "{one}, {other}");
            assert_eq!(compare(other.as_bytes(), one.as_bytes()), answer, "{other}, {one}");
        }
    }

    /// `data_a` and a loop of this many levels with one name each.
    fn levels(count: usize) -> String {
        let header: String = (1..=count).map(|level| format!(" loop_ _{level}")).collect();
        format!("data_a{header}")
    }

    #[test]
    fn eight_levels_and_no_ninth() {
        let eight = levels(8) + " 1 2 3 4 5 6 7 8" + &" stop_".repeat(7);
        assert_eq!(answer(eight.as_bytes()), Ok([32, 1, 8, 8, 8]));
        let place = levels(8).len() as u32 + 1;
        assert_eq!(answer((levels(9) + " 1").as_bytes()), Err((11, place)));
        // a ninth `loop_` that would not be allowed in any case
        let stopped = levels(8) + " stop_ loop_";
        assert_eq!(answer(stopped.as_bytes()), Err((16, place)));
        assert_eq!(old_answer(stopped.as_bytes()), Err((8, place + 6)));
        assert_eq!(answer((levels(7) + " loop_ loop_").as_bytes()), Err((8, place - 3)));
    }

    /// What stands before and after a name or code, its underscore excepted.
    const AROUND: [(&str, &str); 3] =
        [("data_", ""), ("data_a save_", " save_"), ("data_a _", " 1")];

    /// A file with a name or code of so many bytes, and the place of its token.
    fn with_length((head, tail): (&str, &str), length: usize) -> (Vec<u8>, u32) {
        let lead = usize::from(head.ends_with(" _"));
        let file = head.to_owned() + &"n".repeat(length - lead) + tail;
        (file.into_bytes(), head.rfind(' ').map_or(0, |at| at as u32 + 1))
    }

    /// `data_a _x` and a reference of so many bytes.
    fn reference_of(length: usize) -> Vec<u8> {
        ("data_a _x $".to_owned() + &"f".repeat(length)).into_bytes()
    }

    #[test]
    fn names_and_codes_of_75_bytes() {
        for around in AROUND {
            for length in [2, 31, 32, 33, 74, 75] {
                assert!(answer(&with_length(around, length).0).is_ok(), "{around:?}, {length}");
            }
            for length in [76, 77, 1000] {
                let (file, place) = with_length(around, length);
                assert_eq!(answer(&file), Err((4, place)), "{around:?}, {length}");
            }
        }
        for length in [75, 76, 1000] {
            assert_eq!(answer(&reference_of(length)), Ok([3, 1, 1, 0, 1]));
        }
    }

    #[test]
    fn names_and_codes_that_fit_32_bytes() {
        let yes = |file: &[u8]| {
            let (checked, tables) = fits_32(file, ROOM);
            assert_eq!((checked.reading(), tables), read(file, ROOM), "{}", escaped(file));
            assert_eq!(checked.refusal, 0, "{}", escaped(file));
            checked.yes
        };
        assert_eq!(yes(b""), 1);
        for around in AROUND {
            for length in [2, 31, 32] {
                assert_eq!(yes(&with_length(around, length).0), 1, "{around:?}, {length}");
            }
            for length in [33, 34, 74, 75] {
                let (file, place) = with_length(around, length);
                assert_eq!(yes(&file), 0, "{around:?}, {length}");
                let (old, tables) = read_by_old_limit(&file, ROOM);
                assert_eq!(old, Reading { refusal: 4, place, ..Reading::default() });
                assert!(tables.iter().flatten().all(|&word| word == 0));
            }
            let (file, place) = with_length(around, 76);
            let (checked, tables) = fits_32(&file, ROOM);
            assert_eq!(checked, Checked { refusal: 4, place, ..Checked::default() });
            assert!(tables.iter().flatten().all(|&word| word == 0));
        }
        // other kinds never count
        for length in [32, 33, 75, 76, 1000] {
            assert_eq!(yes(&reference_of(length)), 1);
            for (head, tail) in [("", ""), ("'", "'"), ("\"", "\""), ("\n;", "\n;")] {
                let file = format!("data_a _x {head}{}{tail}", "v".repeat(length));
                assert_eq!(yes(file.as_bytes()), 1, "{file}");
            }
        }
        // a name that is too long after one that does not fit: reading's refusal
        let file = format!("data_a _{} 1 _{} 2", "n".repeat(40), "n".repeat(80));
        let checked = fits_32(file.as_bytes(), ROOM).0;
        assert_eq!(checked, Checked { refusal: 4, place: 51, ..Checked::default() });
        let old = read_by_old_limit(file.as_bytes(), ROOM).0;
        assert_eq!(old, Reading { refusal: 4, place: 7, ..Reading::default() });
        // tables too short: 7, and under the old limit 4
        let (file, place) = with_length(AROUND[2], 33);
        for (room, table) in [([8, 9, 9, 9, 9], 1), ([9, 9, 3, 9, 9], 3)] {
            let checked = fits_32(&file, room).0;
            assert_eq!(checked, Checked { refusal: 7, place: table, ..Checked::default() });
            let old = read_by_old_limit(&file, room).0;
            assert_eq!(old, Reading { refusal: 4, place, ..Reading::default() });
        }
    }

    #[test]
    fn files_of_the_largest_size() {
        let file = |length: usize| [b"data_a _x ".to_vec(), vec![b'v'; length - 10]].concat();
        assert_eq!(answer(&file(1_048_576)), Ok([3, 1, 1, 0, 1]));
        assert_eq!(answer(&file(1_048_577)), Err((1, 0)));
        // 1 goes before 2
        assert_eq!(answer(&vec![0; 1_048_577]), Err((1, 0)));
        assert_eq!(answer(&vec![0; 1_048_576]), Err((2, 0)));
        // without its last byte 10 the plain form is one byte longer
        assert_eq!(write(&file(1_048_575), ROOM, 2_000_000).0.length, 1_048_576);
        let (written, tables, out) = write(&file(1_048_576), ROOM, 2_000_000);
        assert_eq!(written, Written { refusal: 1, ..Written::default() });
        assert!(tables.iter().flatten().all(|&word| word == 0));
        assert!(out.iter().all(|&byte| byte == 0));
        // 1 goes before 7 at 6
        assert_eq!(write(&file(1_048_576), ROOM, 0).0.refusal, 1);
        assert_eq!(write(&file(1_048_575), ROOM, 1_048_575).0.refusal, 7);
    }

    #[test]
    fn tables_one_word_short() {
        let file = b"data_a _x 1 save_f loop_ _x 1 2 save_";
        let needed = words_needed(file);
        assert_eq!(read(file, needed).0.refusal, 0);
        for table in 0..5 {
            let mut room = needed;
            room[table] -= 1;
            let (answer, tables) = read(file, room);
            let place = table as u32 + 1;
            assert_eq!(answer, Reading { refusal: 7, place, ..Reading::default() });
            assert!(tables.iter().flatten().all(|&word| word == 0));
        }
        // the lowest number first; table 1 before the grammar, the others after it
        assert_eq!(read(file, [100, 100, 0, 100, 0]).0.place, 3);
        assert_eq!(read(b"data_a _x", [5, 0, 0, 0, 0]).0.refusal, 7);
        assert_eq!(read(b"data_a _x", [6, 0, 0, 0, 0]).0.refusal, 8);
        assert_eq!(write(file, needed, 0).0.place, 6);
    }

    #[test]
    fn lookups_trust_nothing() {
        let file = b"data_a _x 1 save_f _y 2 save_";
        let (answer, tables) = read(file, ROOM);
        let (tables, counts) = (Tables::of(&tables), answer.counts());
        assert_eq!(find_block(file, tables, counts, b"a"), Found { refusal: 0, row: 1 });
        assert_eq!(find_block(file, tables, counts, b"f"), Found { refusal: 13, row: 0 });
        assert_eq!(find_frame(file, tables, counts, 1, b"f"), Found { refusal: 0, row: 2 });
        assert_eq!(find_frame(file, tables, counts, 2, b"f"), Found { refusal: 13, row: 0 });
        assert_eq!(find_name(file, tables, counts, 2, b"_y"), Found { refusal: 0, row: 2 });
        assert_eq!(find_name(file, tables, counts, 1, b"_y"), Found { refusal: 13, row: 0 });
        assert_eq!(find_name(file, tables, counts, 3, b"_y"), Found { refusal: 14, row: 0 });
        assert_eq!(value_at(file, tables, counts, 2, 1), Value { refusal: 0, kind: 7, packet: 0 });
        let two = ValueNumber { refusal: 0, form: 1, value: 2.0, uncertainty: 0.0 };
        assert_eq!(value_number(file, tables, counts, 2, 1), two);
        assert_eq!(value_at(file, tables, counts, 2, 0).refusal, 13);
        assert_eq!(value_at(file, tables, counts, 2, 2).refusal, 13);
        assert_eq!(value_at(file, tables, counts, 3, 0).refusal, 14);
        let many = Counts { packets: 201, ..counts };
        assert_eq!(find_block(file, tables, many, b"a"), Found { refusal: 14, row: 0 });
        // a file cut short: met only at the second name's set
        let cut = &file[..15];
        assert_eq!(find_block(cut, tables, counts, b"a").refusal, 0);
        assert_eq!(find_name(cut, tables, counts, 2, b"_y").refusal, 14);
        assert_eq!(value_at(cut, tables, counts, 2, 1).refusal, 14);
        assert_eq!(value_span(cut, tables, counts, 2, 1), Part { start: 0, end: 0 });
        let refused = ValueNumber { refusal: 14, form: 0, value: 0.0, uncertainty: 0.0 };
        assert_eq!(value_number(cut, tables, counts, 2, 1), refused);
    }

    /// In any tables the k-th value is found by the links, whatever they are.
    #[test]
    fn links_are_followed() {
        let file = b"data_a loop_ _x _y 1 2 3 4 5 6";
        let (answer, tables) = read(file, ROOM);
        let links: Vec<u32> = tables[4].chunks(4).take(6).map(|row| row[3]).collect();
        assert_eq!(links, [3, 4, 5, 6, 0, 0]);
        // of each k from 0 to 4 the value's first byte or the refusal
        let asked = |tables: &[Vec<u32>; 5], values: u32| {
            let (tables, counts) = (Tables::of(tables), Counts { values, ..answer.counts() });
            [0, 1, 2, 3, 4].map(|k| match value(file, tables, counts, 1, k) {
                Ok((_, _, part)) => (file[part.start] as char).to_string(),
                Err(refusal) => refusal.to_string(),
            })
        };
        assert_eq!(asked(&tables, 6), ["13", "1", "3", "5", "13"]);
        assert_eq!(asked(&tables, 4), ["13", "1", "3", "14", "14"]);
        assert_eq!(asked(&tables, 0), ["13"; 5]);
        // a row, its link, and what is then answered
        let known = [
            (1, 0, ["13", "1", "13", "13", "13"]),
            (1, 1, ["13", "1", "14", "14", "14"]),
            (1, 2, ["13", "1", "14", "14", "14"]),
            (1, 5, ["13", "1", "5", "13", "13"]),
            (1, 7, ["13", "1", "14", "14", "14"]),
            (1, u32::MAX, ["13", "1", "14", "14", "14"]),
            (3, 0, ["13", "1", "3", "13", "13"]),
            (3, 1, ["13", "1", "3", "14", "14"]),
            (3, 3, ["13", "1", "3", "14", "14"]),
            (3, 4, ["13", "1", "3", "14", "14"]),
            (5, 5, ["13", "1", "3", "5", "14"]),
            (5, 6, ["13", "1", "3", "5", "14"]),
            // of another name
            (2, 1, ["13", "1", "3", "5", "13"]),
        ];
        for (row, link, answers) in known {
            let mut other = tables.clone();
            other[4][4 * row - 1] = link;
            assert_eq!(asked(&other, 6), answers, "{row}, {link}");
        }
        // a first row of the name whose token points outside is passed over
        let mut other = tables.clone();
        other[4][2] = 0;
        assert_eq!(asked(&other, 6), ["13", "14", "3", "5", "13"]);
    }

    /// In any tables the kind word of a set's row says whether its lookup goes on
    /// and whether one comes to it.
    #[test]
    fn kinds_of_sets_are_taken_as_they_are() {
        let file = b"global_ _x 1 global_ _x 2 _y 3 data_a _z 4 global_ _w 5";
        let (answer, tables) = read(file, ROOM);
        let counts = answer.counts();
        let asked = |tables: &[Vec<u32>; 5], set: u32, name: &[u8]| {
            let Found { refusal, row } = find_name(file, Tables::of(tables), counts, set, name);
            (refusal, row)
        };
        for (name, found) in [("_x", (0, 2)), ("_y", (0, 3)), ("_z", (0, 4)), ("_w", (13, 0))] {
            assert_eq!(asked(&tables, 3, name.as_bytes()), found, "{name}");
        }
        // a set that is asked, and one on the way, of another kind; heading and parent do not count
        for kind in [0, 2, 3, 4, 257, 259, u32::MAX] {
            let mut other = tables.clone();
            other[1][6] = kind;
            assert_eq!(asked(&other, 3, b"_x"), (13, 0), "{kind}");
            let mut other = tables.clone();
            other[1][3..6].copy_from_slice(&[kind, 0, 7]);
            let found = if kind == 3 { (0, 2) } else { (0, 1) };
            assert_eq!(asked(&other, 3, b"_x"), found, "{kind}");
            assert_eq!(asked(&other, 2, b"_x"), (0, 2), "{kind}");
        }
        // a row of the nearest that points outside, after the name and before it
        for (row, x, y) in [(3, (0, 2), (14, 0)), (2, (14, 0), (14, 0)), (1, (0, 2), (0, 3))] {
            let mut spoiled = tables.clone();
            spoiled[2][4 * (row - 1) + 1] = 0;
            assert_eq!(asked(&spoiled, 3, b"_x"), x, "{row}");
            assert_eq!(asked(&spoiled, 3, b"_y"), y, "{row}");
            assert_eq!(asked(&spoiled, 3, b"_z"), (0, 4), "{row}");
            assert_eq!(asked(&spoiled, 3, b"_w"), (14, 0), "{row}");
        }
    }
}

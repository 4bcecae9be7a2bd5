//! Safe wrappers around the library.
//!
//! Slices keep every promise that the C interface asks: their pointers are
//! non-null and aligned, also when empty, and what is lent mutably overlaps
//! nothing else.

use crate::raw;
use crate::raw::{
    Checked, Compared, Counts, Found, Number, Part, Reading, Value, ValueNumber, Written,
};

/// The five tables, lent to lookups.
#[derive(Clone, Copy, Debug)]
pub struct Tables<'a> {
    /// Kind, start and end of content.
    pub tokens: &'a [u32],
    /// Kind, heading token, parent set.
    pub sets: &'a [u32],
    /// Set, name token, loop, level.
    pub names: &'a [u32],
    /// Loop, level, parent packet.
    pub packets: &'a [u32],
    /// Name row, packet, token, next value row of the same name.
    pub values: &'a [u32],
}

/// The five tables, lent to the calls that read a file.
#[derive(Debug)]
pub struct TablesMut<'a> {
    /// Kind, start and end of content.
    pub tokens: &'a mut [u32],
    /// Kind, heading token, parent set.
    pub sets: &'a mut [u32],
    /// Set, name token, loop, level.
    pub names: &'a mut [u32],
    /// Loop, level, parent packet.
    pub packets: &'a mut [u32],
    /// Name row, packet, token, next value row of the same name.
    pub values: &'a mut [u32],
}

impl<'a> Tables<'a> {
    /// The tables in the order of their numbers.
    pub fn of(tables: &'a [Vec<u32>; 5]) -> Self {
        let [tokens, sets, names, packets, values] = tables;
        Tables { tokens, sets, names, packets, values }
    }
}

impl<'a> TablesMut<'a> {
    /// The tables in the order of their numbers.
    pub fn of(tables: &'a mut [Vec<u32>; 5]) -> Self {
        let [tokens, sets, names, packets, values] = tables;
        TablesMut { tokens, sets, names, packets, values }
    }
}

impl Reading {
    /// The row counts, as lookups take them.
    pub fn counts(&self) -> Counts {
        Counts {
            tokens: self.tokens,
            sets: self.sets,
            names: self.names,
            packets: self.packets,
            values: self.values,
        }
    }
}

impl Written {
    /// The row counts, as lookups take them.
    pub fn counts(&self) -> Counts {
        self.reading().counts()
    }

    /// The reading that writing answers along with its length.
    pub fn reading(&self) -> Reading {
        Reading {
            refusal: self.refusal,
            place: self.place,
            tokens: self.tokens,
            sets: self.sets,
            names: self.names,
            packets: self.packets,
            values: self.values,
        }
    }
}

impl Checked {
    /// The row counts, as lookups take them.
    pub fn counts(&self) -> Counts {
        self.reading().counts()
    }

    /// The reading that a check answers along with yes or no.
    pub fn reading(&self) -> Reading {
        Reading {
            refusal: self.refusal,
            place: self.place,
            tokens: self.tokens,
            sets: self.sets,
            names: self.names,
            packets: self.packets,
            values: self.values,
        }
    }
}

/// The form of a number, with what it holds.
#[derive(Clone, Copy, Debug, PartialEq)]
pub enum NumberForm {
    /// A value.
    Float(f64),
    /// A value and its uncertainty.
    Uncertain {
        /// The value.
        value: f64,
        /// Its uncertainty, never negative.
        uncertainty: f64,
    },
    /// `?`
    Unknown,
    /// `.`
    NotApplicable,
    /// A number beyond the limits.
    TooWide,
    /// No number.
    Text,
}

impl Number {
    /// The form with what it holds; none for a form that no call answers, as 0.
    pub fn told(&self) -> Option<NumberForm> {
        let Number { form, value, uncertainty } = *self;
        match form {
            raw::STAR_NUMBER_FLOAT => Some(NumberForm::Float(value)),
            raw::STAR_NUMBER_UNCERTAIN => Some(NumberForm::Uncertain { value, uncertainty }),
            raw::STAR_NUMBER_UNKNOWN => Some(NumberForm::Unknown),
            raw::STAR_NUMBER_NOT_APPLICABLE => Some(NumberForm::NotApplicable),
            raw::STAR_NUMBER_TOO_WIDE => Some(NumberForm::TooWide),
            raw::STAR_NUMBER_TEXT => Some(NumberForm::Text),
            _ => None,
        }
    }
}

impl ValueNumber {
    /// The number that is answered along with the refusal; its form is 0 when refused.
    pub fn number(&self) -> Number {
        Number { form: self.form, value: self.value, uncertainty: self.uncertainty }
    }
}

/// The words to lend to each table for a file of so many bytes: none is then too
/// short, whatever the file holds.
pub const fn room(bytes: usize) -> [usize; 5] {
    [
        raw::star_tokens_words(bytes),
        raw::star_sets_words(bytes),
        raw::star_names_words(bytes),
        raw::star_packets_words(bytes),
        raw::star_values_words(bytes),
    ]
}

/// The bytes to lend to the output for a file of so many bytes: it is then not
/// too short, whatever the file holds, for writing, for conversion and for dropping
/// header stops.
pub const fn plain_room(bytes: usize) -> usize {
    raw::star_plain_bytes(bytes)
}

/// Calls what reads a file, with the layout if it takes one, the tables and what else
/// it takes.
macro_rules! fill {
    ($call:ident, $file:expr $(; $layout:expr)?, $tables:expr $(, $more:expr)*) => {
        // SAFETY: every range is a slice, and those lent mutably are apart from all others.
        unsafe {
            $crate::raw::$call(
                $file.as_ptr(),
                $file.len(),
                $($layout,)?
                $tables.tokens.as_mut_ptr(),
                $tables.tokens.len(),
                $tables.sets.as_mut_ptr(),
                $tables.sets.len(),
                $tables.names.as_mut_ptr(),
                $tables.names.len(),
                $tables.packets.as_mut_ptr(),
                $tables.packets.len(),
                $tables.values.as_mut_ptr(),
                $tables.values.len(),
                $($more),*
            )
        }
    };
}
pub(crate) use fill;

/// Reads a file of this layout into the tables: [`raw::STAR_LAYOUT_TODAY`] or
/// [`raw::STAR_LAYOUT_1991`]. Any other number is refused. The other calls that read a
/// file, but for [`convert`], read today's. A header stop is refused by
/// [`raw::STAR_HEADER_STOP`] in either; only [`drop_header_stops`] takes it.
pub fn read(file: &[u8], layout: u32, tables: TablesMut<'_>) -> Reading {
    fill!(star_read, file; layout, tables)
}

/// Reads a file into the tables and writes its plain form.
pub fn write(file: &[u8], tables: TablesMut<'_>, out: &mut [u8]) -> Written {
    fill!(star_write, file, tables, out.as_mut_ptr(), out.len())
}

/// Reads a file of this layout into the tables and writes its plain form in the other.
///
/// ```
/// use tackturnel::{raw, star, TablesMut};
///
/// let old = b"data_a save_f _x 1 stop_ _x 2";
/// let mut tables = star::room(old.len()).map(|words| vec![0; words]);
/// let mut out = vec![0; star::plain_room(old.len())];
/// let written = star::convert(old, raw::STAR_LAYOUT_1991, TablesMut::of(&mut tables), &mut out);
/// let today = &out[..written.length as usize];
/// assert_eq!(today, b"data_a\nsave_f\n_x\n1\nsave_\n_x\n2\n");
///
/// let mut out = vec![0; today.len()];
/// star::convert(today, raw::STAR_LAYOUT_TODAY, TablesMut::of(&mut tables), &mut out);
/// assert_eq!(out, b"data_a\nsave_f\n_x\n1\nstop_\n_x\n2\n");
/// ```
pub fn convert(file: &[u8], layout: u32, tables: TablesMut<'_>, out: &mut [u8]) -> Written {
    fill!(star_convert, file; layout, tables, out.as_mut_ptr(), out.len())
}

/// Reads an old file, of today's layout and with header stops, into the tables and writes
/// its plain form without them. The tables are those of the old file.
///
/// ```
/// use tackturnel::{raw, star, TablesMut};
///
/// let old = b"data_a loop_ _x loop_ _y stop_ 1 2 stop_";
/// let mut tables = star::room(old.len()).map(|words| vec![0; words]);
/// let reading = star::read(old, raw::STAR_LAYOUT_TODAY, TablesMut::of(&mut tables));
/// assert_eq!((reading.refusal, reading.place), (raw::STAR_HEADER_STOP, 25));
///
/// let mut out = vec![0; star::plain_room(old.len())];
/// let written = star::drop_header_stops(old, TablesMut::of(&mut tables), &mut out);
/// let today = &out[..written.length as usize];
/// assert_eq!(today, b"data_a\nloop_\n_x\nloop_\n_y\n1\n2\nstop_\n");
/// let reading = star::read(today, raw::STAR_LAYOUT_TODAY, TablesMut::of(&mut tables));
/// assert_eq!(reading.refusal, raw::STAR_OK);
/// ```
pub fn drop_header_stops(file: &[u8], tables: TablesMut<'_>, out: &mut [u8]) -> Written {
    fill!(star_drop_header_stops, file, tables, out.as_mut_ptr(), out.len())
}

/// Reads a file into the tables and answers whether every name and code fits 32
/// bytes, as older readers require.
pub fn fits_32(file: &[u8], tables: TablesMut<'_>) -> Checked {
    fill!(star_fits_32, file, tables)
}

/// Calls a lookup with the file, the tables, the counts and what else it takes.
macro_rules! look {
    ($call:ident, $file:expr, $tables:expr, $counts:expr, $($more:expr),*) => {
        // SAFETY: every range is a slice, and the call writes to none of them.
        unsafe {
            $crate::raw::$call(
                $file.as_ptr(),
                $file.len(),
                $tables.tokens.as_ptr(),
                $tables.tokens.len(),
                $tables.sets.as_ptr(),
                $tables.sets.len(),
                $tables.names.as_ptr(),
                $tables.names.len(),
                $tables.packets.as_ptr(),
                $tables.packets.len(),
                $tables.values.as_ptr(),
                $tables.values.len(),
                $counts,
                $($more),*
            )
        }
    };
}
pub(crate) use look;

/// Finds the data block with this code; global blocks are not looked at.
pub fn find_block(file: &[u8], tables: Tables<'_>, counts: Counts, code: &[u8]) -> Found {
    look!(star_find_block, file, tables, counts, code.as_ptr(), code.len())
}

/// Finds the save frame of a set with this code; one in a global block is found
/// through that set alone.
pub fn find_frame(file: &[u8], tables: Tables<'_>, counts: Counts, set: u32, code: &[u8]) -> Found {
    look!(star_find_frame, file, tables, counts, set, code.as_ptr(), code.len())
}

/// Finds the name row of a set with this name, underscore included. What a data
/// block does not have is sought in the global blocks before it, the nearest first.
///
/// ```
/// use tackturnel::{raw, star, Tables, TablesMut};
///
/// let file = b"global_ _x 1 _y 2 data_a _x 3";
/// let mut tables = star::room(file.len()).map(|words| vec![0; words]);
/// let reading = star::read(file, raw::STAR_LAYOUT_TODAY, TablesMut::of(&mut tables));
/// let counts = reading.counts();
/// let tables = Tables::of(&tables);
/// let block = star::find_block(file, tables, counts, b"a").row;
/// let value = |name: &[u8]| {
///     let row = star::find_name(file, tables, counts, block, name).row;
///     star::value_part(file, tables, counts, row, 1)
/// };
/// assert_eq!((value(b"_x"), value(b"_y")), (&b"3"[..], &b"2"[..]));
/// ```
pub fn find_name(file: &[u8], tables: Tables<'_>, counts: Counts, set: u32, name: &[u8]) -> Found {
    look!(star_find_name, file, tables, counts, set, name.as_ptr(), name.len())
}

/// Compares two contents, names or codes, as lookups and reading do.
pub fn compare(a: &[u8], b: &[u8]) -> Compared {
    // SAFETY: both ranges are slices, and the call writes to neither.
    unsafe { raw::star_compare(a.as_ptr(), a.len(), b.as_ptr(), b.len()) }
}

/// The kind and packet of the k-th value of a name row, k from 1.
pub fn value_at(file: &[u8], tables: Tables<'_>, counts: Counts, name_row: u32, k: u32) -> Value {
    look!(star_value_at, file, tables, counts, name_row, k)
}

/// Where in the file the k-th value of a name row stands.
pub fn value_span(file: &[u8], tables: Tables<'_>, counts: Counts, name_row: u32, k: u32) -> Part {
    look!(star_value_part, file, tables, counts, name_row, k)
}

/// The k-th value of a name row as a part of the file, empty when refused.
pub fn value_part<'f>(
    file: &'f [u8],
    tables: Tables<'_>,
    counts: Counts,
    name_row: u32,
    k: u32,
) -> &'f [u8] {
    let part = value_span(file, tables, counts, name_row, k);
    &file[part.start..part.end]
}

/// A content of this kind as a number.
pub fn number_of(kind: u32, content: &[u8]) -> Number {
    // SAFETY: the range is a slice, and the call does not write to it.
    unsafe { raw::star_number_of(kind, content.as_ptr(), content.len()) }
}

/// The k-th value of a name row as a number, k from 1.
pub fn value_number(
    file: &[u8],
    tables: Tables<'_>,
    counts: Counts,
    name_row: u32,
    k: u32,
) -> ValueNumber {
    look!(star_value_number, file, tables, counts, name_row, k)
}

/// A value that a walk down a column comes to.
#[derive(Clone, Copy, Debug, PartialEq, Eq)]
pub struct ColumnValue<'f> {
    /// Its row of table 5.
    pub row: u32,
    /// The kind of its token, as the tables hold it.
    pub kind: u32,
    /// Its packet, as the tables hold it.
    pub packet: u32,
    /// Its part of the file.
    pub part: &'f [u8],
}

/// A walk down a column; [`column`] begins it.
#[derive(Clone, Debug)]
pub struct Column<'f, 't> {
    file: &'f [u8],
    tables: Tables<'t>,
    counts: Counts,
    name_row: u32,
    /// The value row that comes next, 0 after the last, or the refusal that comes.
    next: Result<u32, u32>,
}

/// The values of a name row, one after the other by their links, in one pass over
/// the tables. The k-th is what [`value_at`] and [`value_part`] answer for k, and
/// the walk ends where they answer 13. Where they answer 14 it ends too, after
/// one `Err` of [`raw::STAR_OUTSIDE`].
///
/// ```
/// use tackturnel::{raw, star, Tables, TablesMut};
///
/// let file = b"data_a loop_ _x loop_ _y 1 2 3 stop_ 4 stop_";
/// let mut tables = star::room(file.len()).map(|words| vec![0; words]);
/// let reading = star::read(file, raw::STAR_LAYOUT_TODAY, TablesMut::of(&mut tables));
/// let counts = reading.counts();
/// let tables = Tables::of(&tables);
/// let name = star::find_name(file, tables, counts, 1, b"_x").row;
/// let values: Result<Vec<_>, u32> = star::column(file, tables, counts, name).collect();
/// let parts: Vec<_> = values.unwrap().iter().map(|value| value.part).collect();
/// assert_eq!(parts, [b"1", b"4"]);
/// ```
pub fn column<'f, 't>(
    file: &'f [u8],
    tables: Tables<'t>,
    counts: Counts,
    name_row: u32,
) -> Column<'f, 't> {
    let holds = |count: u32, table: &[u32], width: usize| count as usize <= table.len() / width;
    let inside = holds(counts.tokens, tables.tokens, raw::STAR_TOKENS_WIDTH)
        && holds(counts.sets, tables.sets, raw::STAR_SETS_WIDTH)
        && holds(counts.names, tables.names, raw::STAR_NAMES_WIDTH)
        && holds(counts.packets, tables.packets, raw::STAR_PACKETS_WIDTH)
        && holds(counts.values, tables.values, raw::STAR_VALUES_WIDTH)
        && (1..=counts.names).contains(&name_row);
    let mut column = Column { file, tables, counts, name_row, next: Err(raw::STAR_OUTSIDE) };
    if inside {
        let first = (1..=counts.values).find(|&row| column.value_row(row)[0] == name_row);
        column.next = Ok(first.unwrap_or(0));
    }
    column
}

impl<'f, 't> Column<'f, 't> {
    /// The words of a value row, which is from 1 to the count.
    fn value_row(&self, row: u32) -> &'t [u32] {
        let at = (row as usize - 1) * raw::STAR_VALUES_WIDTH;
        &self.tables.values[at..at + raw::STAR_VALUES_WIDTH]
    }

    /// Whether the link of a value row may be followed, or is 0.
    fn leads_on(&self, row: u32, link: u32) -> bool {
        link == 0
            || (row < link
                && link <= self.counts.values
                && self.value_row(link)[0] == self.name_row)
    }

    /// The kind and the part of a token row, if the row and its span are inside.
    fn token(&self, row: u32) -> Option<(u32, &'f [u8])> {
        if !(1..=self.counts.tokens).contains(&row) {
            return None;
        }
        let at = (row as usize - 1) * raw::STAR_TOKENS_WIDTH;
        let words = &self.tables.tokens[at..at + raw::STAR_TOKENS_WIDTH];
        Some((words[0], self.file.get(words[1] as usize..words[2] as usize)?))
    }
}

impl<'f> Iterator for Column<'f, '_> {
    type Item = Result<ColumnValue<'f>, u32>;

    fn next(&mut self) -> Option<Self::Item> {
        let row = match std::mem::replace(&mut self.next, Ok(0)) {
            Ok(0) => return None,
            Ok(row) => row,
            Err(refusal) => return Some(Err(refusal)),
        };
        let value = self.value_row(row);
        let (packet, link) = (value[1], value[3]);
        let Some((kind, part)) = self.token(value[2]) else {
            return Some(Err(raw::STAR_OUTSIDE));
        };
        self.next = if self.leads_on(row, link) { Ok(link) } else { Err(raw::STAR_OUTSIDE) };
        Some(Ok(ColumnValue { row, kind, packet, part }))
    }
}

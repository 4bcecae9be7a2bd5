//! The C interface of the library, as include/star.h declares it.

// -------------------------------------------------------------- refusals

/// Accepted or found.
pub const STAR_OK: u32 = 0;
/// A file or plain form over [`STAR_MOST_BYTES`].
pub const STAR_TOO_LARGE: u32 = 1;
/// A byte that is not allowed.
pub const STAR_BAD_BYTE: u32 = 2;
/// An ill-formed word.
pub const STAR_BAD_WORD: u32 = 3;
/// A name or code over [`STAR_MOST_NAME_BYTES`].
pub const STAR_TOO_LONG: u32 = 4;
/// A quote that is not closed on its line.
pub const STAR_OPEN_QUOTE: u32 = 5;
/// A text field that is not closed, or closed before another byte.
pub const STAR_OPEN_TEXT: u32 = 6;
/// A table or output that is too short, or slots that are not more than the names.
pub const STAR_TOO_SHORT: u32 = 7;
/// A token or the end out of place.
pub const STAR_MISPLACED: u32 = 8;
/// A name or code that is taken already.
pub const STAR_TAKEN: u32 = 9;
/// A packet that is not full, or an inner level that is not closed.
pub const STAR_INCOMPLETE: u32 = 10;
/// A `loop_` that opens a level over [`STAR_MOST_LEVELS`].
pub const STAR_TOO_DEEP: u32 = 11;
// 12 is not used: readers that do not know global blocks give it at `global_`.
/// Lookup: not found.
pub const STAR_NOT_FOUND: u32 = 13;
/// Lookup: a number, row or link that points outside, or a link to a row that is not
/// later or not of the same name. Reading and conversion: a layout number that is neither
/// [`STAR_LAYOUT_TODAY`] nor [`STAR_LAYOUT_1991`].
pub const STAR_OUTSIDE: u32 = 14;
/// Slots that are no index of the file's names.
pub const STAR_NO_INDEX: u32 = 15;
/// A header stop: `stop_` after the names of a loop of two levels or more.
pub const STAR_HEADER_STOP: u32 = 16;

// --------------------------------------------------------------- layouts

/// Layout of a file: today's, in which `save_` closes a save frame.
pub const STAR_LAYOUT_TODAY: u32 = 0;
/// Layout of a file: that of 1991, in which `stop_` closes a save frame.
pub const STAR_LAYOUT_1991: u32 = 1;

// ----------------------------------------------------------------- kinds

/// Kind of token: `data_` and a code.
pub const STAR_TOKEN_BLOCK: u32 = 1;
/// Kind of token: `save_` and a code.
pub const STAR_TOKEN_FRAME: u32 = 2;
/// Kind of token: `save_` alone.
pub const STAR_TOKEN_FRAME_END: u32 = 3;
/// Kind of token: `loop_`.
pub const STAR_TOKEN_LOOP: u32 = 4;
/// Kind of token: `stop_`.
pub const STAR_TOKEN_STOP: u32 = 5;
/// Kind of token: a name.
pub const STAR_TOKEN_NAME: u32 = 6;
/// Kind of token: a word that is none of the others.
pub const STAR_TOKEN_WORD: u32 = 7;
/// Kind of token: `$` and a frame code.
pub const STAR_TOKEN_REFERENCE: u32 = 8;
/// Kind of token: a single-quoted string.
pub const STAR_TOKEN_SINGLE_QUOTED: u32 = 9;
/// Kind of token: a double-quoted string.
pub const STAR_TOKEN_DOUBLE_QUOTED: u32 = 10;
/// Kind of token: a text field.
pub const STAR_TOKEN_TEXT: u32 = 11;
/// Kind of token: `global_`.
pub const STAR_TOKEN_GLOBAL: u32 = 12;
/// Kind of set: a data block.
pub const STAR_SET_BLOCK: u32 = 1;
/// Kind of set: a save frame.
pub const STAR_SET_FRAME: u32 = 2;
/// Kind of set: a global block.
pub const STAR_SET_GLOBAL: u32 = 3;

// ----------------------------------------------------------------- forms

/// Form of a number: a value.
pub const STAR_NUMBER_FLOAT: u32 = 1;
/// Form of a number: a value and its uncertainty.
pub const STAR_NUMBER_UNCERTAIN: u32 = 2;
/// Form of a number: unknown, `?`.
pub const STAR_NUMBER_UNKNOWN: u32 = 3;
/// Form of a number: not applicable, `.`.
pub const STAR_NUMBER_NOT_APPLICABLE: u32 = 4;
/// Form of a number: beyond [`STAR_MOST_WHOLE`] or [`STAR_MOST_POWER`].
pub const STAR_NUMBER_TOO_WIDE: u32 = 5;
/// Form of a number: text, which is no number.
pub const STAR_NUMBER_TEXT: u32 = 6;

// ---------------------------------------------------------------- limits

/// The words of a row of tokens.
pub const STAR_TOKENS_WIDTH: usize = 3;
/// The words of a row of sets.
pub const STAR_SETS_WIDTH: usize = 3;
/// The words of a row of names.
pub const STAR_NAMES_WIDTH: usize = 4;
/// The words of a row of packets.
pub const STAR_PACKETS_WIDTH: usize = 3;
/// The words of a row of values.
pub const STAR_VALUES_WIDTH: usize = 4;
/// The most bytes of a file and of a plain form.
pub const STAR_MOST_BYTES: usize = 1_048_576;
/// The most bytes of a name, its underscore included, and of a block or frame code:
/// the limit of CIF 1.1.
pub const STAR_MOST_NAME_BYTES: usize = 75;
/// The most bytes of a name or code that readers before this limit was raised take.
pub const STAR_OLD_NAME_BYTES: usize = 32;
/// The most levels of a loop.
pub const STAR_MOST_LEVELS: usize = 8;
/// The most that the digits of a number, and those of its uncertainty, may be: 2 to the 53.
pub const STAR_MOST_WHOLE: u64 = 9_007_199_254_740_992;
/// The most that the power of ten of a number may be; the least is its negative.
pub const STAR_MOST_POWER: u32 = 22;

// ------------------------------------------------------------------ room

/// The bytes of a file that are read at all.
const fn read_bytes(n: usize) -> usize {
    if n < STAR_MOST_BYTES {
        n
    } else {
        STAR_MOST_BYTES
    }
}

/// STAR_MOST_TOKENS: no file of `n` bytes has more rows of tokens.
pub const fn star_most_tokens(n: usize) -> usize {
    read_bytes(n) / 2 + 1
}

/// STAR_MOST_SETS: no file of `n` bytes has more rows of sets.
pub const fn star_most_sets(n: usize) -> usize {
    read_bytes(n) / 7 + 1
}

/// STAR_MOST_NAMES: no file of `n` bytes has more rows of names.
pub const fn star_most_names(n: usize) -> usize {
    read_bytes(n) / 3 + 1
}

/// STAR_MOST_VALUES: no file of `n` bytes has more rows of values.
pub const fn star_most_values(n: usize) -> usize {
    star_most_tokens(n)
}

/// STAR_MOST_PACKETS: no file of `n` bytes has more rows of packets.
pub const fn star_most_packets(n: usize) -> usize {
    star_most_values(n)
}

/// STAR_TOKENS_WORDS: room for the tokens of any file of `n` bytes.
pub const fn star_tokens_words(n: usize) -> usize {
    star_most_tokens(n) * STAR_TOKENS_WIDTH
}

/// STAR_SETS_WORDS: room for the sets of any file of `n` bytes.
pub const fn star_sets_words(n: usize) -> usize {
    star_most_sets(n) * STAR_SETS_WIDTH
}

/// STAR_NAMES_WORDS: room for the names of any file of `n` bytes.
pub const fn star_names_words(n: usize) -> usize {
    star_most_names(n) * STAR_NAMES_WIDTH
}

/// STAR_PACKETS_WORDS: room for the packets of any file of `n` bytes.
pub const fn star_packets_words(n: usize) -> usize {
    star_most_packets(n) * STAR_PACKETS_WIDTH
}

/// STAR_VALUES_WORDS: room for the values of any file of `n` bytes.
pub const fn star_values_words(n: usize) -> usize {
    star_most_values(n) * STAR_VALUES_WIDTH
}

/// STAR_SLOTS_WORDS: room for an index of the names of any file of `n` bytes, twice as
/// many slots as it may have names.
pub const fn star_slots_words(n: usize) -> usize {
    2 * star_most_names(n)
}

/// STAR_PLAIN_BYTES: room for the plain form of any file of `n` bytes, in either
/// layout. Each token may have one byte more than in the file: a blank before a word
/// that begins with `;`, or the 13 of 13, 10 after a content that ends in 13.
pub const fn star_plain_bytes(n: usize) -> usize {
    read_bytes(n) + 1 + star_most_tokens(n)
}

// --------------------------------------------------------------- answers

/// What reading answers: the refusal and its place, and the rows in each table.
#[repr(C)]
#[derive(Clone, Copy, Debug, Default, PartialEq, Eq)]
pub struct Reading {
    /// 0 when accepted.
    pub refusal: u32,
    /// 0 when accepted.
    pub place: u32,
    /// Rows of table 1.
    pub tokens: u32,
    /// Rows of table 2.
    pub sets: u32,
    /// Rows of table 3.
    pub names: u32,
    /// Rows of table 4.
    pub packets: u32,
    /// Rows of table 5.
    pub values: u32,
}

/// The rows in each table.
#[repr(C)]
#[derive(Clone, Copy, Debug, Default, PartialEq, Eq)]
pub struct Counts {
    /// Rows of table 1.
    pub tokens: u32,
    /// Rows of table 2.
    pub sets: u32,
    /// Rows of table 3.
    pub names: u32,
    /// Rows of table 4.
    pub packets: u32,
    /// Rows of table 5.
    pub values: u32,
}

/// What a lookup answers: the refusal and the row, 0 when refused.
#[repr(C)]
#[derive(Clone, Copy, Debug, Default, PartialEq, Eq)]
pub struct Found {
    /// 0 when found.
    pub refusal: u32,
    /// The row found.
    pub row: u32,
}

/// What comparing two contents answers: `star_compared`.
#[repr(C)]
#[derive(Clone, Copy, Debug, Default, PartialEq, Eq)]
pub struct Compared {
    /// Whether they are the same bytes.
    pub equal: bool,
    /// How many byte pairs were compared.
    pub pairs: usize,
}

/// What a value's lookup answers: the refusal, kind and packet.
#[repr(C)]
#[derive(Clone, Copy, Debug, Default, PartialEq, Eq)]
pub struct Value {
    /// 0 when found.
    pub refusal: u32,
    /// The kind of the value's token, as the tables hold it.
    pub kind: u32,
    /// The value's packet, as the tables hold it.
    pub packet: u32,
}

/// A part of the file, its end not included; 0, 0 when refused.
#[repr(C)]
#[derive(Clone, Copy, Debug, Default, PartialEq, Eq)]
pub struct Part {
    /// Offset of the first byte.
    pub start: usize,
    /// Offset after the last byte.
    pub end: usize,
}

/// A number: `star_number`.
#[repr(C)]
#[derive(Clone, Copy, Debug, Default, PartialEq)]
pub struct Number {
    /// `STAR_NUMBER_FLOAT` to `STAR_NUMBER_TEXT`.
    pub form: u32,
    /// +0.0 where the form has none.
    pub value: f64,
    /// +0.0 where the form has none.
    pub uncertainty: f64,
}

/// What the lookup of a number answers: `star_value_number_t`.
#[repr(C)]
#[derive(Clone, Copy, Debug, Default, PartialEq)]
pub struct ValueNumber {
    /// 0 when found.
    pub refusal: u32,
    /// `STAR_NUMBER_FLOAT` to `STAR_NUMBER_TEXT`, 0 when refused.
    pub form: u32,
    /// +0.0 where the form has none.
    pub value: f64,
    /// +0.0 where the form has none.
    pub uncertainty: f64,
}

/// What writing, conversion and the dropping of header stops answer: as reading, and the
/// length of the plain form.
#[repr(C)]
#[derive(Clone, Copy, Debug, Default, PartialEq, Eq)]
pub struct Written {
    /// 0 when accepted.
    pub refusal: u32,
    /// 0 when accepted.
    pub place: u32,
    /// Bytes of the plain form.
    pub length: u32,
    /// Rows of table 1.
    pub tokens: u32,
    /// Rows of table 2.
    pub sets: u32,
    /// Rows of table 3.
    pub names: u32,
    /// Rows of table 4.
    pub packets: u32,
    /// Rows of table 5.
    pub values: u32,
}

/// What a check of a file answers: as reading, and yes or no.
#[repr(C)]
#[derive(Clone, Copy, Debug, Default, PartialEq, Eq)]
pub struct Checked {
    /// 0 when accepted.
    pub refusal: u32,
    /// The place of the refusal.
    pub place: u32,
    /// 1 for yes, 0 for no and when refused.
    pub yes: u32,
    /// Rows of table 1.
    pub tokens: u32,
    /// Rows of table 2.
    pub sets: u32,
    /// Rows of table 3.
    pub names: u32,
    /// Rows of table 4.
    pub packets: u32,
    /// Rows of table 5.
    pub values: u32,
}

// ----------------------------------------------------------------- calls

extern "C" {
    /// See include/star.h.
    pub fn star_read(
        file: *const u8,
        file_len: usize,
        layout: u32,
        tokens: *mut u32,
        tokens_len: usize,
        sets: *mut u32,
        sets_len: usize,
        names: *mut u32,
        names_len: usize,
        packets: *mut u32,
        packets_len: usize,
        values: *mut u32,
        values_len: usize,
    ) -> Reading;

    /// See include/star.h.
    pub fn star_find_block(
        file: *const u8,
        file_len: usize,
        tokens: *const u32,
        tokens_len: usize,
        sets: *const u32,
        sets_len: usize,
        names: *const u32,
        names_len: usize,
        packets: *const u32,
        packets_len: usize,
        values: *const u32,
        values_len: usize,
        counts: Counts,
        code: *const u8,
        code_len: usize,
    ) -> Found;

    /// See include/star.h.
    pub fn star_find_frame(
        file: *const u8,
        file_len: usize,
        tokens: *const u32,
        tokens_len: usize,
        sets: *const u32,
        sets_len: usize,
        names: *const u32,
        names_len: usize,
        packets: *const u32,
        packets_len: usize,
        values: *const u32,
        values_len: usize,
        counts: Counts,
        set: u32,
        code: *const u8,
        code_len: usize,
    ) -> Found;

    /// See include/star.h.
    pub fn star_find_name(
        file: *const u8,
        file_len: usize,
        tokens: *const u32,
        tokens_len: usize,
        sets: *const u32,
        sets_len: usize,
        names: *const u32,
        names_len: usize,
        packets: *const u32,
        packets_len: usize,
        values: *const u32,
        values_len: usize,
        counts: Counts,
        set: u32,
        name: *const u8,
        name_len: usize,
    ) -> Found;

    /// See include/star.h.
    pub fn star_compare(a: *const u8, a_len: usize, b: *const u8, b_len: usize) -> Compared;

    /// See include/star.h.
    pub fn star_value_at(
        file: *const u8,
        file_len: usize,
        tokens: *const u32,
        tokens_len: usize,
        sets: *const u32,
        sets_len: usize,
        names: *const u32,
        names_len: usize,
        packets: *const u32,
        packets_len: usize,
        values: *const u32,
        values_len: usize,
        counts: Counts,
        name_row: u32,
        k: u32,
    ) -> Value;

    /// See include/star.h.
    pub fn star_value_part(
        file: *const u8,
        file_len: usize,
        tokens: *const u32,
        tokens_len: usize,
        sets: *const u32,
        sets_len: usize,
        names: *const u32,
        names_len: usize,
        packets: *const u32,
        packets_len: usize,
        values: *const u32,
        values_len: usize,
        counts: Counts,
        name_row: u32,
        k: u32,
    ) -> Part;

    /// See include/star.h.
    pub fn star_number_of(kind: u32, content: *const u8, content_len: usize) -> Number;

    /// See include/star.h.
    pub fn star_value_number(
        file: *const u8,
        file_len: usize,
        tokens: *const u32,
        tokens_len: usize,
        sets: *const u32,
        sets_len: usize,
        names: *const u32,
        names_len: usize,
        packets: *const u32,
        packets_len: usize,
        values: *const u32,
        values_len: usize,
        counts: Counts,
        name_row: u32,
        k: u32,
    ) -> ValueNumber;

    /// See include/star.h.
    pub fn star_write(
        file: *const u8,
        file_len: usize,
        tokens: *mut u32,
        tokens_len: usize,
        sets: *mut u32,
        sets_len: usize,
        names: *mut u32,
        names_len: usize,
        packets: *mut u32,
        packets_len: usize,
        values: *mut u32,
        values_len: usize,
        out: *mut u8,
        out_len: usize,
    ) -> Written;

    /// See include/star.h.
    pub fn star_convert(
        file: *const u8,
        file_len: usize,
        layout: u32,
        tokens: *mut u32,
        tokens_len: usize,
        sets: *mut u32,
        sets_len: usize,
        names: *mut u32,
        names_len: usize,
        packets: *mut u32,
        packets_len: usize,
        values: *mut u32,
        values_len: usize,
        out: *mut u8,
        out_len: usize,
    ) -> Written;

    /// See include/star.h.
    pub fn star_drop_header_stops(
        file: *const u8,
        file_len: usize,
        tokens: *mut u32,
        tokens_len: usize,
        sets: *mut u32,
        sets_len: usize,
        names: *mut u32,
        names_len: usize,
        packets: *mut u32,
        packets_len: usize,
        values: *mut u32,
        values_len: usize,
        out: *mut u8,
        out_len: usize,
    ) -> Written;

    /// See include/star.h.
    pub fn star_fits_32(
        file: *const u8,
        file_len: usize,
        tokens: *mut u32,
        tokens_len: usize,
        sets: *mut u32,
        sets_len: usize,
        names: *mut u32,
        names_len: usize,
        packets: *mut u32,
        packets_len: usize,
        values: *mut u32,
        values_len: usize,
    ) -> Checked;

    /// See include/star.h.
    pub fn star_index_build(
        file: *const u8,
        file_len: usize,
        tokens: *mut u32,
        tokens_len: usize,
        sets: *mut u32,
        sets_len: usize,
        names: *mut u32,
        names_len: usize,
        packets: *mut u32,
        packets_len: usize,
        values: *mut u32,
        values_len: usize,
        slots: *mut u32,
        slots_len: usize,
    ) -> Reading;

    /// See include/star.h.
    pub fn star_index_check(
        file: *const u8,
        file_len: usize,
        tokens: *mut u32,
        tokens_len: usize,
        sets: *mut u32,
        sets_len: usize,
        names: *mut u32,
        names_len: usize,
        packets: *mut u32,
        packets_len: usize,
        values: *mut u32,
        values_len: usize,
        slots: *const u32,
        slots_len: usize,
    ) -> Reading;

    /// See include/star.h.
    pub fn star_index_find(
        file: *const u8,
        file_len: usize,
        tokens: *const u32,
        tokens_len: usize,
        sets: *const u32,
        sets_len: usize,
        names: *const u32,
        names_len: usize,
        packets: *const u32,
        packets_len: usize,
        values: *const u32,
        values_len: usize,
        counts: Counts,
        slots: *const u32,
        slots_len: usize,
        set: u32,
        name: *const u8,
        name_len: usize,
    ) -> Found;
}

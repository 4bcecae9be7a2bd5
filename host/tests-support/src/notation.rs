//! Bytes in the escaped notation of the lists in vectors/, and those lists.

use tackturnel::{Checked, Found};

/// Bytes in the escaped notation: `\n \r \t \v \f \\` and `\xNN` as in C. A
/// bar, and a blank at either end, are written `\x7c` and `\x20`.
pub fn escaped(bytes: &[u8]) -> String {
    let mut text = String::new();
    for (at, &byte) in bytes.iter().enumerate() {
        match byte {
            b'\n' => text.push_str("\\n"),
            b'\r' => text.push_str("\\r"),
            b'\t' => text.push_str("\\t"),
            11 => text.push_str("\\v"),
            12 => text.push_str("\\f"),
            b'\\' => text.push_str("\\\\"),
            b' ' if at == 0 || at + 1 == bytes.len() => text.push_str("\\x20"),
            b'|' => text.push_str("\\x7c"),
            32..=126 => text.push(byte as char),
            _ => text.push_str(&format!("\\x{byte:02x}")),
        }
    }
    text
}

/// The bytes that stand in the escaped notation.
pub fn unescaped(text: &str) -> Vec<u8> {
    let mut bytes = Vec::new();
    let mut rest = text.bytes();
    while let Some(byte) = rest.next() {
        if byte != b'\\' {
            bytes.push(byte);
            continue;
        }
        bytes.push(match rest.next() {
            Some(b'n') => b'\n',
            Some(b'r') => b'\r',
            Some(b't') => b'\t',
            Some(b'v') => 11,
            Some(b'f') => 12,
            Some(b'\\') => b'\\',
            Some(b'x') => 16 * digit(rest.next()) + digit(rest.next()),
            other => panic!("no such escape: {other:?} in {text}"),
        });
    }
    bytes
}

fn digit(byte: Option<u8>) -> u8 {
    let digit = byte.and_then(|byte| (byte as char).to_digit(16));
    digit.expect("two hexadecimal digits after \\x") as u8
}

/// A file and the answer that is expected for it.
#[derive(Clone, Debug, Default)]
pub struct Vector {
    /// The line of the vector in its list, from 1.
    pub line: usize,
    /// The file's bytes.
    pub file: Vec<u8>,
    /// The refusal, 0 when accepted.
    pub refusal: u32,
    /// The place of the refusal.
    pub place: u32,
    /// The row counts of the five tables.
    pub counts: [u32; 5],
    /// The words of the rows of the five tables.
    pub tables: [Vec<u32>; 5],
    /// The plain form.
    pub plain: Vec<u8>,
}

/// The vectors of a list; its first two lines say how it is written.
pub fn vectors(list: &str) -> Vec<Vector> {
    let lines = list.lines().enumerate().skip(2);
    lines.map(|(at, line)| vector(at + 1, line)).collect()
}

fn vector(line: usize, text: &str) -> Vector {
    let fields: Vec<&str> = text.split(" | ").collect();
    let answer = numbers(fields[1]);
    let mut vector = Vector {
        line,
        file: unescaped(fields[0]),
        refusal: answer[0],
        place: answer[1],
        ..Vector::default()
    };
    if vector.refusal == 0 {
        assert_eq!(fields.len(), 5, "line {line}: five fields");
        vector.counts = numbers(fields[2]).try_into().expect("five counts");
        let tables: Vec<Vec<u32>> = fields[3].split(';').map(numbers).collect();
        vector.tables = tables.try_into().expect("five tables");
        vector.plain = unescaped(fields[4]);
    } else {
        assert_eq!(fields.len(), 2, "line {line}: two fields");
    }
    vector
}

/// The vectors of a list of old files whose header stops are dropped; its first line says
/// how it is written. The tables are of the old file, and the plain form is that without
/// the header stops.
pub fn dropped_vectors(list: &str) -> Vec<Vector> {
    let lines = list.lines().enumerate().skip(1);
    lines.map(|(at, line)| vector(at + 1, line)).collect()
}

/// A file, the layout that it is read in, and the answers that are expected for it.
#[derive(Clone, Debug)]
pub struct LayoutVector {
    /// The layout's number.
    pub layout: u32,
    /// The file and what is read; the plain form is that in the other layout.
    pub of: Vector,
}

/// The vectors of a list of layouts; its first line says how it is written.
pub fn layout_vectors(list: &str) -> Vec<LayoutVector> {
    let lines = list.lines().enumerate().skip(1);
    lines.map(|(at, line)| layout_vector(at + 1, line)).collect()
}

fn layout_vector(line: usize, text: &str) -> LayoutVector {
    let (layout, rest) = text.split_once(" | ").expect("a layout and a file");
    LayoutVector { layout: layout.parse().expect("a layout"), of: vector(line, rest) }
}

fn numbers(text: &str) -> Vec<u32> {
    let words = text.split([' ', ',']).filter(|word| !word.is_empty());
    words.map(|word| word.parse().expect("a number")).collect()
}

/// A file and the answer that a check is to give for it.
#[derive(Clone, Debug)]
pub struct CheckedVector {
    /// The line of the vector in its list, from 1.
    pub line: usize,
    /// The file's bytes.
    pub file: Vec<u8>,
    /// The answer.
    pub answer: Checked,
}

/// The vectors of a list of checks; its first line says how it is written.
pub fn checked_vectors(list: &str) -> Vec<CheckedVector> {
    let lines = list.lines().enumerate().skip(1);
    lines.map(|(at, line)| checked_vector(at + 1, line)).collect()
}

fn checked_vector(line: usize, text: &str) -> CheckedVector {
    let fields: Vec<&str> = text.split(" | ").collect();
    assert_eq!(fields.len(), 3, "line {line}: three fields");
    let [refusal, place, yes]: [u32; 3] = numbers(fields[1]).try_into().expect("three numbers");
    let counts: [u32; 5] = numbers(fields[2]).try_into().expect("five counts");
    let [tokens, sets, names, packets, values] = counts;
    let answer = Checked { refusal, place, yes, tokens, sets, names, packets, values };
    CheckedVector { line, file: unescaped(fields[0]), answer }
}

/// A file, a name that is asked of one of its sets, and the answer that is expected.
#[derive(Clone, Debug)]
pub struct NameVector {
    /// The line of the vector in its list, from 1.
    pub line: usize,
    /// The file's bytes, which are accepted.
    pub file: Vec<u8>,
    /// The set.
    pub set: u32,
    /// The name.
    pub name: Vec<u8>,
    /// What the lookup answers in the file's own tables.
    pub answer: Found,
}

/// The vectors of a list of lookups; its first line says how it is written.
pub fn name_vectors(list: &str) -> Vec<NameVector> {
    let lines = list.lines().enumerate().skip(1);
    lines.map(|(at, line)| name_vector(at + 1, line)).collect()
}

fn name_vector(line: usize, text: &str) -> NameVector {
    let fields: Vec<&str> = text.split(" | ").collect();
    assert_eq!(fields.len(), 3, "line {line}: three fields");
    let (set, name) = fields[1].split_once(' ').expect("a set and a name");
    let [refusal, row]: [u32; 2] = numbers(fields[2]).try_into().expect("two numbers");
    NameVector {
        line,
        file: unescaped(fields[0]),
        set: set.parse().expect("a set"),
        name: unescaped(name),
        answer: Found { refusal, row },
    }
}

/// A file, and what is expected of an index of its names: built, or checked.
#[derive(Clone, Debug)]
pub struct IndexVector {
    /// The line of the vector in its list, from 1.
    pub line: usize,
    /// The file's bytes.
    pub file: Vec<u8>,
    /// The refusal, 0 when accepted.
    pub refusal: u32,
    /// The place of the refusal.
    pub place: u32,
    /// The slots that the builder leaves, or that are checked.
    pub slots: Vec<u32>,
}

/// The vectors of a list of indexes that are built; its first line says how it is written.
pub fn built_vectors(list: &str) -> Vec<IndexVector> {
    let lines = list.lines().enumerate().skip(1);
    lines.map(|(at, line)| built_vector(at + 1, line)).collect()
}

fn built_vector(line: usize, text: &str) -> IndexVector {
    let fields: Vec<&str> = text.split(" | ").collect();
    assert_eq!(fields.len(), 4, "line {line}: four fields");
    let vector = index_vector(line, fields[0], fields[2], fields[3]);
    let count: usize = fields[1].parse().expect("a number of slots");
    assert_eq!(vector.slots.len(), count, "line {line}: so many slots");
    vector
}

/// The vectors of a list of slots that are checked; its first line says how it is written.
pub fn slot_vectors(list: &str) -> Vec<IndexVector> {
    let lines = list.lines().enumerate().skip(1);
    lines.map(|(at, line)| slot_vector(at + 1, line)).collect()
}

fn slot_vector(line: usize, text: &str) -> IndexVector {
    let fields: Vec<&str> = text.split(" | ").collect();
    assert_eq!(fields.len(), 3, "line {line}: three fields");
    index_vector(line, fields[0], fields[2], fields[1])
}

fn index_vector(line: usize, file: &str, answer: &str, slots: &str) -> IndexVector {
    let [refusal, place]: [u32; 2] = numbers(answer).try_into().expect("two numbers");
    IndexVector { line, file: unescaped(file), refusal, place, slots: numbers(slots) }
}

/// A content and the number that is expected for it.
#[derive(Clone, Debug)]
pub struct NumberVector {
    /// The line of the vector in its list, from 1.
    pub line: usize,
    /// The kind.
    pub kind: u32,
    /// The content's bytes.
    pub content: Vec<u8>,
    /// The form, and the bits of the value and of the uncertainty.
    pub answer: (u32, u64, u64),
}

/// The vectors of a list of numbers; its first line says how it is written.
pub fn number_vectors(list: &str) -> Vec<NumberVector> {
    let lines = list.lines().enumerate().skip(1);
    lines.map(|(at, line)| number_vector(at + 1, line)).collect()
}

fn number_vector(line: usize, text: &str) -> NumberVector {
    let fields: Vec<&str> = text.split(" | ").collect();
    assert_eq!(fields.len(), 3, "line {line}: three fields");
    let answer: Vec<&str> = fields[2].split(' ').collect();
    assert_eq!(answer.len(), 3, "line {line}: a form and two floats");
    let bits = |digits: &str| u64::from_str_radix(digits, 16).expect("hexadecimal digits");
    NumberVector {
        line,
        kind: fields[0].parse().expect("a kind"),
        content: unescaped(fields[1]),
        answer: (answer[0].parse().expect("a form"), bits(answer[1]), bits(answer[2])),
    }
}

#[cfg(test)]
mod tests {
    use super::*;

    #[test]
    fn every_byte_comes_back() {
        let bytes: Vec<u8> = (0..=255).chain(0..=255).collect();
        assert_eq!(unescaped(&escaped(&bytes)), bytes);
        assert_eq!(escaped(b" a|b "), "\\x20a\\x7cb\\x20");
    }
}

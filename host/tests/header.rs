//! include/star.h beside src/raw.rs: constants, room, layouts and inline
//! functions, as the C and C++ compilers take them. CC and CXX name the
//! compilers, by default gcc and g++.

use std::collections::BTreeSet;
use std::env;
use std::fmt::Write;
use std::fs;
use std::mem::{offset_of, size_of, size_of_val};
use std::path::Path;
use std::process::Command;

use tackturnel::{
    raw, Checked, Compared, Counts, Found, Number, Part, Reading, Value, ValueNumber, Written,
};

const HEADER: &str = include_str!("../../include/star.h");

/// The constants of these names, and their values.
macro_rules! constants {
    ($($name:ident)*) => { [$((stringify!($name), raw::$name as u64)),*] };
}

const CONSTANTS: [(&str, u64); 50] = constants! {
    STAR_OK STAR_TOO_LARGE STAR_BAD_BYTE STAR_BAD_WORD STAR_TOO_LONG STAR_OPEN_QUOTE
    STAR_OPEN_TEXT STAR_TOO_SHORT STAR_MISPLACED STAR_TAKEN STAR_INCOMPLETE STAR_TOO_DEEP
    STAR_NOT_FOUND STAR_OUTSIDE STAR_NO_INDEX STAR_HEADER_STOP
    STAR_LAYOUT_TODAY STAR_LAYOUT_1991
    STAR_TOKEN_BLOCK STAR_TOKEN_FRAME STAR_TOKEN_FRAME_END STAR_TOKEN_LOOP STAR_TOKEN_STOP
    STAR_TOKEN_NAME STAR_TOKEN_WORD STAR_TOKEN_REFERENCE STAR_TOKEN_SINGLE_QUOTED
    STAR_TOKEN_DOUBLE_QUOTED STAR_TOKEN_TEXT STAR_TOKEN_GLOBAL
    STAR_SET_BLOCK STAR_SET_FRAME STAR_SET_GLOBAL
    STAR_NUMBER_FLOAT STAR_NUMBER_UNCERTAIN STAR_NUMBER_UNKNOWN STAR_NUMBER_NOT_APPLICABLE
    STAR_NUMBER_TOO_WIDE STAR_NUMBER_TEXT
    STAR_TOKENS_WIDTH STAR_SETS_WIDTH STAR_NAMES_WIDTH STAR_PACKETS_WIDTH STAR_VALUES_WIDTH
    STAR_MOST_BYTES STAR_MOST_NAME_BYTES STAR_OLD_NAME_BYTES STAR_MOST_LEVELS STAR_MOST_WHOLE
    STAR_MOST_POWER
};

/// A function of a file's length.
type Room = fn(usize) -> usize;

/// The macros of a file's length, and the functions here that say the same.
const ROOM: [(&str, Room); 12] = [
    ("STAR_MOST_TOKENS", raw::star_most_tokens),
    ("STAR_MOST_SETS", raw::star_most_sets),
    ("STAR_MOST_NAMES", raw::star_most_names),
    ("STAR_MOST_PACKETS", raw::star_most_packets),
    ("STAR_MOST_VALUES", raw::star_most_values),
    ("STAR_TOKENS_WORDS", raw::star_tokens_words),
    ("STAR_SETS_WORDS", raw::star_sets_words),
    ("STAR_NAMES_WORDS", raw::star_names_words),
    ("STAR_PACKETS_WORDS", raw::star_packets_words),
    ("STAR_VALUES_WORDS", raw::star_values_words),
    ("STAR_SLOTS_WORDS", raw::star_slots_words),
    ("STAR_PLAIN_BYTES", raw::star_plain_bytes),
];

/// Lengths of files, up to the limit, around it and far above.
fn lengths() -> Vec<usize> {
    let most = raw::STAR_MOST_BYTES;
    let far = [1 << 31, 1 << 32, usize::MAX / 3, usize::MAX - 1, usize::MAX];
    (0..50).chain(most - 3..most + 3).chain(far).collect()
}

/// A struct's size and its fields, each with its offset and size, by its name in C.
macro_rules! layout {
    ($c:literal $rust:ident $($field:ident)*) => {
        ($c, size_of::<$rust>(), vec![$((
            stringify!($field),
            offset_of!($rust, $field),
            size_of_val(&<$rust>::default().$field),
        )),*])
    };
}

type Layout = (&'static str, usize, Vec<(&'static str, usize, usize)>);

fn layouts() -> [Layout; 10] {
    [
        layout!("star_reading" Reading refusal place tokens sets names packets values),
        layout!("star_counts" Counts tokens sets names packets values),
        layout!("star_found" Found refusal row),
        layout!("star_compared" Compared equal pairs),
        layout!("star_value" Value refusal kind packet),
        layout!("star_part" Part start end),
        layout!("star_number" Number form value uncertainty),
        layout!("star_value_number_t" ValueNumber refusal form value uncertainty),
        layout!("star_written" Written refusal place length tokens sets names packets values),
        layout!("star_checked" Checked refusal place yes tokens sets names packets values),
    ]
}

/// The full case with its tables 1 and 5, and the beginning of a function that walks
/// down one of its columns. Of each value that it comes to it takes two digits: the
/// length and the value itself.
const FULL_CASE: &str = r#"
static const uint8_t file[] = "data_a\nloop_\n_x\nloop_\n_y\n1 2 3 stop_ 4 stop_\n";
static const uint32_t tokens[] = {1, 5, 6, 4, 7, 12, 6, 13, 15, 4, 16, 21, 6, 22, 24, 7, 25, 26,
    7, 27, 28, 7, 29, 30, 5, 31, 36, 7, 37, 38, 5, 39, 44};
static const uint32_t values[] = {1, 1, 6, 4, 2, 2, 7, 3, 2, 3, 8, 0, 1, 4, 10, 0};
static const star_counts counts = {11, 1, 2, 4, 4};
static unsigned long walked;

static void one_value(const uint8_t *start, const uint8_t *end)
{
    walked = 100 * walked + 10 * (unsigned long)(end - start) + (unsigned long)(*start - '0');
}

static unsigned long column(uint32_t name_row)
{
"#;

/// The walk down a column that the header shows.
fn shown_walk() -> String {
    let (_, after) = HEADER.split_once(" * COLUMNS.").expect("the header speaks of columns");
    let (text, _) = after.split_once(" * AN INDEX.").expect("the index comes next");
    let lines = text.lines().filter_map(|line| line.strip_prefix(" *   "));
    lines.flat_map(|line| [line, "\n"]).collect()
}

/// A program that prints one line for each fact, and what it is to print.
fn program() -> (String, String) {
    let mut facts: Vec<(String, u64)> = Vec::new();
    facts.extend(CONSTANTS.map(|(name, value)| (name.to_owned(), value)));
    for (name, room) in ROOM {
        let call = |n: usize| (format!("{name}((size_t){n}u)"), room(n) as u64);
        facts.extend(lengths().into_iter().map(call));
        facts.push((format!("2 * {name}(40 + 5)"), 2 * room(45) as u64));
    }
    for (name, size, fields) in layouts() {
        facts.push((format!("sizeof({name})"), size as u64));
        for (field, at, size) in fields {
            facts.push((format!("offsetof({name}, {field})"), at as u64));
            facts.push((format!("sizeof((({name} *)0)->{field})"), size as u64));
        }
    }
    for (name_row, walked) in [(1, 1114), (2, 1213), (3, 0)] {
        facts.push((format!("column({name_row})"), walked));
    }
    facts.push(("compared.equal".to_owned(), true as u64));
    facts.push(("compared.pairs".to_owned(), 18));
    for (at, field) in ["tokens", "sets", "names", "packets", "values"].into_iter().enumerate() {
        facts.push((format!("star_counts_of(reading).{field}"), at as u64 + 3));
        facts.push((format!("star_counts_of_written(written).{field}"), at as u64 + 13));
        facts.push((format!("star_counts_of_checked(checked).{field}"), at as u64 + 22));
    }

    let mut source = String::from("#include \"star.h\"\n#include <stdio.h>\n\n");
    // room as a constant expression, also for a file without bytes
    for (name, _) in ROOM {
        let _ = writeln!(source, "extern char constant_{name}[{name}(0)];");
    }
    let _ = write!(source, "{FULL_CASE}walked = 0;\n{}return walked;\n}}\n", shown_walk());
    source.push_str(
        "\nint main(void)\n{\n\
         star_reading reading = {1, 2, 3, 4, 5, 6, 7};\n\
         star_written written = {10, 11, 12, 13, 14, 15, 16, 17};\n\
         star_compared compared = {true, 18};\n\
         star_checked checked = {19, 20, 21, 22, 23, 24, 25, 26};\n\
         uint32_t refusal = reading.refusal;\n\
         if (refusal != STAR_TOO_LARGE)\n    return 1;\n\
         switch (refusal) { case STAR_OK: return 1; case STAR_TOO_LARGE: break; default: return 1; }\n",
    );
    let mut printed = String::new();
    for (expression, value) in facts {
        let _ =
            writeln!(source, "printf(\"%lu\\n\", (unsigned long)({expression})); /* {value} */");
        let _ = writeln!(printed, "{value}");
    }
    source.push_str("return 0;\n}\n");
    (source, printed)
}

/// Compiles the program by this compiler and compares what it prints.
fn compiled(name: &str, compiler: &str, language: &[&str]) {
    let (source, expected) = program();
    let folder = Path::new(env!("CARGO_TARGET_TMPDIR"));
    let (file, built) = (folder.join(name), folder.join(format!("{name}.program")));
    fs::write(&file, &source).expect("the program is written");
    let include = Path::new(env!("CARGO_MANIFEST_DIR")).join("../include");
    let warnings = ["-Wall", "-Wextra", "-Wpedantic", "-Wconversion", "-Wshadow", "-Werror"];
    let status = Command::new(compiler)
        .args(language)
        .args(warnings)
        .arg("-I")
        .arg(include)
        .arg("-o")
        .arg(&built)
        .arg(&file)
        .status();
    let status = status.unwrap_or_else(|error| panic!("{compiler}: {error}"));
    assert!(status.success(), "{compiler} refuses {}", file.display());
    let output = Command::new(&built).output().expect("the program runs");
    assert!(output.status.success(), "{name}: {}", output.status);
    let printed = String::from_utf8(output.stdout).expect("the program prints numbers");
    let lines = source.lines().filter(|line| line.starts_with("printf"));
    for ((line, one), other) in lines.zip(printed.lines()).zip(expected.lines()) {
        assert_eq!(one, other, "{name}: {line}");
    }
    assert_eq!(printed, expected, "{name}");
}

fn named(variable: &str, otherwise: &str) -> String {
    env::var(variable).unwrap_or_else(|_| otherwise.to_owned())
}

#[test]
fn header_as_c11() {
    compiled("header.c", &named("CC", "gcc"), &["-std=c11"]);
}

#[test]
fn header_as_cpp17() {
    compiled("header.cpp", &named("CXX", "g++"), &["-std=c++17"]);
}

/// The words of the header that begin with STAR_ are those compared here, and so
/// are its structs.
#[test]
fn nothing_of_the_header_is_left_out() {
    let words = HEADER.split(|c: char| !c.is_ascii_alphanumeric() && c != '_');
    let of_header: BTreeSet<&str> = words.filter(|word| word.starts_with("STAR_")).collect();
    let constants = CONSTANTS.into_iter().map(|(name, _)| name);
    let room = ROOM.into_iter().map(|(name, _)| name);
    let own = ["STAR_H", "STAR_READ_BYTES_"];
    let compared: BTreeSet<&str> = constants.chain(room).chain(own).collect();
    assert_eq!(of_header, compared);
    let structs = HEADER.lines().filter_map(|line| line.strip_prefix("} ")?.strip_suffix(';'));
    let structs: BTreeSet<&str> = structs.collect();
    let compared: BTreeSet<&str> = layouts().into_iter().map(|(name, ..)| name).collect();
    assert_eq!(structs, compared);
}

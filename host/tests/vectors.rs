//! The library on the vectors and on known files, through the wrappers.

use std::collections::HashSet;
use std::process::Command;

use tackturnel::{index, raw, star, Counts, NumberForm, Reading, Tables, TablesMut, Written};
use tackturnel_tests_support::notation::{
    built_vectors, checked_vectors, dropped_vectors, escaped, layout_vectors, name_vectors,
    number_vectors, slot_vectors, vectors, IndexVector, LayoutVector, NameVector, Vector,
};
use tackturnel_tests_support::reference;

/// What reading and writing, or conversion, answer and leave in tables and an output.
type Answers = (Reading, [Vec<u32>; 5], Written, Vec<u8>);

/// The answers of reading and writing on a file, tables of 900 words and an output of
/// 2,000 bytes, all filled with 7s before.
fn answers(file: &[u8]) -> Answers {
    answers_of(file, raw::STAR_LAYOUT_TODAY, star::write)
}

/// As `answers`, of a file of a layout and conversion from it.
fn converted(file: &[u8], layout: u32) -> Answers {
    answers_of(file, layout, |file, tables, out| star::convert(file, layout, tables, out))
}

/// The answers of reading a file of a layout and of writing it by this call, which leaves
/// the same words in the tables.
fn answers_of(
    file: &[u8],
    layout: u32,
    write: impl Fn(&[u8], TablesMut<'_>, &mut [u8]) -> Written,
) -> Answers {
    let mut tables = filled_tables();
    let mut written_tables = tables.clone();
    let mut out = vec![7; 2000];
    let reading = star::read(file, layout, TablesMut::of(&mut tables));
    let written = write(file, TablesMut::of(&mut written_tables), &mut out);
    assert_eq!(written.reading(), reading, "{}", escaped(file));
    assert_eq!(written_tables, tables, "{}", escaped(file));
    (reading, tables, written, out)
}

#[test]
fn vectors_are_answered() {
    answer_vectors("base.txt", include_str!("../vectors/base.txt"), 130);
}

#[test]
fn line_end_vectors_are_answered() {
    answer_vectors("102.txt", include_str!("../vectors/102.txt"), 30);
}

#[test]
fn global_block_vectors_are_answered() {
    answer_vectors("105.txt", include_str!("../vectors/105.txt"), 38);
}

#[test]
fn column_vectors_are_answered() {
    answer_vectors("106.txt", include_str!("../vectors/106.txt"), 9);
}

#[test]
fn header_stop_vectors_are_answered() {
    answer_vectors("109.txt", include_str!("../vectors/109.txt"), 16);
}

/// Answers the vectors of a list of so many.
fn answer_vectors(name: &str, list: &str, count: usize) {
    let list = vectors(list);
    assert_eq!(list.len(), count, "{name}");
    for vector in list {
        let shown = format!("{name}, line {}: {}", vector.line, escaped(&vector.file));
        answer_vector(&vector, answers(&vector.file), &shown);
    }
}

/// These answers are those of the vector.
fn answer_vector(vector: &Vector, answers: Answers, shown: &str) {
    let (reading, tables, written, mut out) = answers;
    let (refusal, place) = (vector.refusal, vector.place);
    assert_eq!((reading.refusal, reading.place), (refusal, place), "{shown}");
    let Counts { tokens, sets, names, packets, values } = reading.counts();
    assert_eq!([tokens, sets, names, packets, values], vector.counts, "{shown}");
    for (table, rows) in tables.iter().zip(&vector.tables) {
        let mut rows = rows.clone();
        rows.resize(900, 0);
        assert_eq!(table, &rows, "{shown}");
    }
    let rest = out.split_off(written.length as usize);
    assert_eq!(out, vector.plain, "{shown}");
    assert!(rest.iter().all(|&byte| byte == 0), "{shown}");
}

/// The answers of dropping header stops, in place of those of reading and writing.
fn dropped(file: &[u8]) -> Answers {
    let (mut tables, mut out) = (filled_tables(), vec![7; 2000]);
    let written = star::drop_header_stops(file, TablesMut::of(&mut tables), &mut out);
    (written.reading(), tables, written, out)
}

#[test]
fn vectors_of_dropped_header_stops_are_answered() {
    let list = dropped_vectors(include_str!("../vectors/109-dropped.txt"));
    assert_eq!(list.len(), 16);
    for vector in list {
        let shown = format!("line {}: {}", vector.line, escaped(&vector.file));
        answer_vector(&vector, dropped(&vector.file), &shown);
        if vector.refusal != raw::STAR_OK {
            continue;
        }
        // what was written is read, and written again as it is
        let (reading, tables, written, out) = answers(&vector.plain);
        assert_eq!(out[..written.length as usize], vector.plain, "{shown}");
        let Counts { sets, names, packets, values, .. } = reading.counts();
        assert_eq!([sets, names, packets, values], vector.counts[1..], "{shown}");
        let (reading, same_tables, ..) = dropped(&vector.plain);
        assert_eq!((reading.tokens, same_tables), (written.tokens, tables), "{shown}");
    }
}

#[test]
fn vectors_of_layouts_are_answered() {
    let list = layout_vectors(include_str!("../vectors/108.txt"));
    assert_eq!(list.len(), 68);
    for LayoutVector { layout, of } in list {
        let shown = format!("line {}: {layout}, {}", of.line, escaped(&of.file));
        answer_vector(&of, converted(&of.file, layout), &shown);
        if of.refusal != raw::STAR_OK {
            continue;
        }
        // back in the layout that was read it is the plain form of the file
        let tokens = reference::tokens(&of.file).expect("an accepted file splits into tokens");
        let (_, _, written, out) = converted(&of.plain, raw::STAR_LAYOUT_1991 - layout);
        let back = &out[..written.length as usize];
        let plain = reference::plain_form(&of.file, &tokens);
        assert_eq!((written.refusal, back), (raw::STAR_OK, plain.as_slice()), "{shown}");
        let (_, _, written, out) = converted(back, layout);
        assert_eq!(out[..written.length as usize], of.plain, "{shown}");
    }
}

#[test]
fn number_vectors_are_answered() {
    let list = number_vectors(include_str!("../vectors/101.txt"));
    assert_eq!(list.len(), 110);
    for vector in list {
        let number = star::number_of(vector.kind, &vector.content);
        let answer = (number.form, number.value.to_bits(), number.uncertainty.to_bits());
        assert_eq!(answer, vector.answer, "line {}: {}", vector.line, escaped(&vector.content));
    }
}

#[test]
fn vectors_of_lookups_are_answered() {
    let list = name_vectors(include_str!("../vectors/105-names.txt"));
    assert_eq!(list.len(), 252);
    for NameVector { line, file, set, name, answer } in list {
        let (reading, tables, ..) = match answers(&file) {
            // an old file: the lookup is in the tables of its own reading
            (reading, ..) if reading.refusal == raw::STAR_HEADER_STOP => dropped(&file),
            answers => answers,
        };
        let before = tables.clone();
        let found = star::find_name(&file, Tables::of(&tables), reading.counts(), set, &name);
        assert_eq!(found, answer, "line {line}: {} {set} {}", escaped(&file), escaped(&name));
        assert_eq!(tables, before, "line {line}");
    }
}

#[test]
fn vectors_of_checks_are_answered() {
    let list = checked_vectors(include_str!("../vectors/104.txt"));
    assert_eq!(list.len(), 25);
    for vector in list {
        let shown = format!("line {}: {}", vector.line, escaped(&vector.file));
        let mut tables = filled_tables();
        let checked = star::fits_32(&vector.file, TablesMut::of(&mut tables));
        assert_eq!(checked, vector.answer, "{shown}");
        let (reading, read_tables, ..) = answers(&vector.file);
        assert_eq!((checked.reading(), tables), (reading, read_tables), "{shown}");
    }
}

/// Tables of 900 words each, filled with 7s.
fn filled_tables() -> [Vec<u32>; 5] {
    std::array::from_fn(|_| vec![7; 900])
}

/// The tables hold the reading of an accepted file, and 0 where it is refused.
fn holds_reading(vector: &IndexVector, answer: Reading, tables: &[Vec<u32>; 5], shown: &str) {
    assert_eq!((answer.refusal, answer.place), (vector.refusal, vector.place), "{shown}");
    match vector.refusal {
        0 => {
            let (reading, read_tables, ..) = answers(&vector.file);
            assert_eq!((answer, tables), (reading, &read_tables), "{shown}");
        }
        refusal => {
            let place = vector.place;
            assert_eq!(answer, Reading { refusal, place, ..Reading::default() }, "{shown}");
            assert!(tables.iter().flatten().all(|&word| word == 0), "{shown}");
        }
    }
}

#[test]
fn vectors_of_built_indexes_are_answered() {
    let list = built_vectors(include_str!("../vectors/107.txt"));
    assert_eq!(list.len(), 54);
    for vector in list {
        let shown = format!("line {}: {}", vector.line, escaped(&vector.file));
        let (mut tables, mut slots) = (filled_tables(), vec![7; vector.slots.len()]);
        let answer = index::build(&vector.file, TablesMut::of(&mut tables), &mut slots);
        assert_eq!(slots, vector.slots, "{shown}");
        holds_reading(&vector, answer, &tables, &shown);
    }
}

#[test]
fn vectors_of_checked_indexes_are_answered() {
    let list = slot_vectors(include_str!("../vectors/107-check.txt"));
    assert_eq!(list.len(), 14);
    for vector in list {
        let shown = format!("line {}: {}", vector.line, escaped(&vector.file));
        let mut tables = filled_tables();
        let answer = index::check(&vector.file, TablesMut::of(&mut tables), &vector.slots);
        holds_reading(&vector, answer, &tables, &shown);
    }
}

/// All values of a name in a block or, if it is given, in a frame of it: by their
/// numbers, and the same by their links.
fn column(file: &str, block: &str, frame: Option<&str>, name: &str) -> Vec<(u32, String)> {
    let file = file.as_bytes();
    let (reading, tables, ..) = answers(file);
    assert_eq!(reading.refusal, 0, "{reading:?}");
    let (tables, counts) = (Tables::of(&tables), reading.counts());
    let found = star::find_block(file, tables, counts, block.as_bytes());
    assert_eq!(found.refusal, 0, "{block}");
    let mut set = found.row;
    if let Some(frame) = frame {
        let found = star::find_frame(file, tables, counts, set, frame.as_bytes());
        assert_eq!(found.refusal, 0, "{frame}");
        set = found.row;
    }
    let row = star::find_name(file, tables, counts, set, name.as_bytes()).row;
    assert_ne!(row, 0, "{name}");
    let mut column = Vec::new();
    for k in 1.. {
        let value = star::value_at(file, tables, counts, row, k);
        if value.refusal != 0 {
            assert_eq!(value.refusal, 13);
            break;
        }
        let part = star::value_part(file, tables, counts, row, k);
        column.push((value.packet, String::from_utf8_lossy(part).into_owned()));
    }
    let by_links = star::column(file, tables, counts, row).map(|value| {
        let value = value.expect("no link leads outside");
        (value.packet, String::from_utf8_lossy(value.part).into_owned())
    });
    assert_eq!(by_links.collect::<Vec<_>>(), column, "{name}");
    column
}

fn texts(column: Vec<(u32, String)>) -> Vec<String> {
    column.into_iter().map(|(_, text)| text).collect()
}

/// The examples of Hall, Allen & Brown 1991 (specification 1.3).
#[test]
fn examples_of_1991() {
    let file = "data_compound_B523\n\
        _cell_volume  2310(2)\n\
        _chemical_formula_moiety      'C23 H36 O7'\n\
        _publ_contact_author\n\n;\n   Prof Barry O'Connell\n   Building #57-M5\n;\n\
        loop_\n _exptl_crystal_face_index_h\n _exptl_crystal_face_index_k\n\
        _exptl_crystal_face_index_l\n _exptl_crystal_face_perp_dist\n\
        _exptl_crystal_face_name        # not std name\n\
        _exptl_crystal_face_description # not std name\n\
        0   0  -1 0.012 A 'well formed'\n 0   0   1 0.012 B *\n -1   0   0 0.023 C uneven\n\
        1   0   0 0.027 D 'needs further grinding'\n 0   1   0 0.016 E *\n 0  -1   0 0.015 F pitted\n";
    let block = "compound_B523";
    let one = |name: &str| texts(column(file, block, None, name));
    assert_eq!(one("_cell_volume"), ["2310(2)"]);
    assert_eq!(one("_chemical_formula_moiety"), ["C23 H36 O7"]);
    let author = "\n   Prof Barry O'Connell\n   Building #57-M5";
    assert_eq!(one("_publ_contact_author"), [author]);
    let described = ["well formed", "*", "uneven", "needs further grinding", "*", "pitted"];
    assert_eq!(one("_exptl_crystal_face_description"), described);
    assert_eq!(one("_exptl_crystal_face_index_l"), ["-1", "1", "0", "0", "0", "0"]);
}

/// The loops of Hall & Spadaccini 1994 and of International Tables G, one level to three.
#[test]
fn examples_of_loops() {
    let simple = "data_a loop_\n _atom_identity_number\n _atom_type_symbol      1 C   2 C   3 O\n";
    assert_eq!(texts(column(simple, "a", None, "_atom_type_symbol")), ["C", "C", "O"]);
    let bonds = "data_a loop_\n _atom_identity_node\n _atom_identity_symbol\n loop_\n\
        _atom_bond_node_1\n _atom_bond_node_2\n _atom_bond_order\n\
        A1 B1      1 2 single      stop_\n\
        A2 B2      1 6 double     30 40 triple      stop_\n\
        A3 B3      1 7 single      stop_\n";
    assert_eq!(texts(column(bonds, "a", None, "_atom_identity_symbol")), ["B1", "B2", "B3"]);
    let orders = column(bonds, "a", None, "_atom_bond_order");
    let expected = [(2, "single"), (4, "double"), (5, "triple"), (7, "single")];
    assert_eq!(orders, expected.map(|(packet, text)| (packet, text.to_owned())));
    let levels = "data_a loop_\n _atomic_name\n loop_\n _level_scheme\n _level_energy\n loop_\n\
        _function_exponent\n _function_coefficient\n hydrogen\n\
        (2)->[2]      -0.485813\n 1.3324838E+01  1.0\n 2.0152720E-01  1.0 stop_\n\
        (2)->[2]      -0.485813\n 1.3326990E+01  1.0\n 2.0154600E-01  1.0 stop_\n\
        (2)->[1]      -0.485813\n 1.3324800E-01  2.7440850E-01\n 2.0152870E-01  8.2122540E-01 stop_\n\
        (3)->[2]      -0.496979\n 4.5018000E+00  1.5628500E-01\n 6.8144400E-01  9.0469100E-01\n\
        1.5139800E-01  1.0000000E+01 stop_ stop_\n";
    assert_eq!(column(levels, "a", None, "_atomic_name"), [(1, "hydrogen".to_owned())]);
    let schemes = texts(column(levels, "a", None, "_level_scheme"));
    assert_eq!(schemes, ["(2)->[2]", "(2)->[2]", "(2)->[1]", "(3)->[2]"]);
    let exponents = column(levels, "a", None, "_function_exponent");
    assert_eq!(exponents.len(), 9);
    assert_eq!(exponents[8], (14, "1.5139800E-01".to_owned()));
    assert_eq!(texts(column(levels, "a", None, "_function_coefficient"))[8], "1.0000000E+01");
}

/// The save frames, data blocks and global blocks of Hall & Spadaccini 1994 and of International Tables G.
#[test]
fn examples_of_sets() {
    let file = "data_example\nsave_phenyl\n  _object_class      molecular_fragment\n  loop_\n\
        _atom_identity_node\n _atom_identity_symbol 1 C 2 C 3 C 4 C 5 C 6 C\nsave_\n\
        loop_ _molecular_fragments $ethyl $phenyl $methyl\n\
        loop_ _amino_acid_seq\n  _amino_acid_data  1 $tyr 2 $arg 3 $arg 4 $leu\n";
    let frame = Some("phenyl");
    assert_eq!(texts(column(file, "example", frame, "_object_class")), ["molecular_fragment"]);
    assert_eq!(texts(column(file, "example", frame, "_atom_identity_symbol")), ["C"; 6]);
    let fragments = texts(column(file, "example", None, "_molecular_fragments"));
    assert_eq!(fragments, ["ethyl", "phenyl", "methyl"]);
    assert_eq!(
        texts(column(file, "example", None, "_amino_acid_data")),
        ["tyr", "arg", "arg", "leu"]
    );
    let words = b"data_rhinovirus\nall information relevant to rhinovirus included here\n";
    let (reading, ..) = answers(words);
    assert_eq!((reading.refusal, reading.place), (8, 16));
    let words = b"global_\nall information global to subsequent data blocks included here\n";
    let (reading, ..) = answers(words);
    assert_eq!((reading.refusal, reading.place), (8, 8));
    // a value that a data block does not have is that of the global block before it
    let viruses =
        "global_\n_host human\n_segments 8\ndata_rhinovirus\n_segments 1\ndata_influenza\n";
    for (block, segments) in [("rhinovirus", "1"), ("influenza", "8")] {
        assert_eq!(texts(column(viruses, block, None, "_segments")), [segments]);
        assert_eq!(texts(column(viruses, block, None, "_host")), ["human"]);
    }
    // the text strings of 002
    for (text, value) in [
        ("light_blue", "light_blue"),
        ("'light blue'", "light blue"),
        ("'Patrick O'Connor'", "Patrick O'Connor"),
        ("\"low melting point\"", "low melting point"),
        ("\"classed as 'unknown'\"", "classed as 'unknown'"),
        ("\n;\nDepartment of Computer Science\n\n;\n", "\nDepartment of Computer Science\n"),
    ] {
        let file = format!("data_a _publication_author_address {text}");
        assert_eq!(texts(column(&file, "a", None, "_publication_author_address")), [value]);
    }
}

/// The example of a measurement, within what the small program takes.
#[test]
fn measurement_is_read() {
    let file = include_str!("../../examples/measurement.star");
    assert!(file.len() <= 8192);
    let room = [16_384; 5];
    let (expected, expected_tables) = reference::read(file.as_bytes(), room);
    assert_eq!(expected.refusal, 0, "place {}", expected.place);
    let mut tables = room.map(|words| vec![7; words]);
    let reading = star::read(file.as_bytes(), raw::STAR_LAYOUT_TODAY, TablesMut::of(&mut tables));
    assert_eq!(reading, expected);
    assert_eq!(tables, expected_tables);
    let checked = star::fits_32(file.as_bytes(), TablesMut::of(&mut tables));
    assert_eq!((checked.yes, checked.reading()), (1, reading));
    assert_eq!(tables, expected_tables);
    let (tables, counts) = (Tables::of(&tables), checked.counts());
    let block = star::find_block(file.as_bytes(), tables, counts, b"quartz_17").row;
    let frame = star::find_frame(file.as_bytes(), tables, counts, block, b"counter").row;
    let value = |set: u32, name: &str, k: u32| {
        let row = star::find_name(file.as_bytes(), tables, counts, set, name.as_bytes()).row;
        let part = star::value_part(file.as_bytes(), tables, counts, row, k);
        String::from_utf8_lossy(part).into_owned()
    };
    assert_eq!(value(block, "_exptl_crystal_operator", 1), "B. O'Connell");
    assert_eq!(value(frame, "_attenuator_factor", 2), "3.51(2)");
    assert_eq!(value(block, "_position_phi", 9), "15.0");
    assert_eq!(value(block, "_meas_F_squared", 5), "885.6");
    let number = |set: u32, name: &str, k: u32| {
        let row = star::find_name(file.as_bytes(), tables, counts, set, name.as_bytes()).row;
        star::value_number(file.as_bytes(), tables, counts, row, k).number().told()
    };
    let uncertain = |value, uncertainty| Some(NumberForm::Uncertain { value, uncertainty });
    assert_eq!(number(block, "_cell_length_a", 1), uncertain(4.9134, 0.0002));
    assert_eq!(number(frame, "_attenuator_factor", 4), uncertain(44.0, 1.0));
    assert_eq!(number(block, "_position_chi", 8), Some(NumberForm::Float(-45.0)));
    assert_eq!(number(block, "_diffrn_remark", 1), Some(NumberForm::Unknown));
    assert_eq!(number(block, "_scan_remark", 2), Some(NumberForm::NotApplicable));
    assert_eq!(number(block, "_audit_creation_date", 1), Some(NumberForm::Text));
    assert_eq!(number(block, "_cell_length_a", 2), None);
    let omega = star::find_name(file.as_bytes(), tables, counts, block, b"_position_omega").row;
    let omegas = star::column(file.as_bytes(), tables, counts, omega);
    let omegas: Vec<&[u8]> = omegas.map(|value| value.expect("inside").part).collect();
    let [first, second, fourth]: [&[u8]; 3] = [b"5.10", b"9.80", b"14.40"];
    // three positions of the first scan, two of the second, none of the third
    let expected = [vec![first; 3], vec![second; 2], vec![fourth; 4]].concat();
    assert_eq!(omegas, expected);
    let kinds: HashSet<u32> = tables.tokens.chunks(3).map(|row| row[0]).collect();
    assert!((1..=11).all(|kind| kinds.contains(&kind)), "{kinds:?}");
    assert!(tables.packets.chunks(3).any(|row| row[1] == 3));
}

/// The bytes with 13, 10 for each 10.
fn windows_lines(bytes: &[u8]) -> Vec<u8> {
    String::from_utf8_lossy(bytes).replace('\n', "\r\n").into_bytes()
}

/// The file with 13, 10 for each 10 in the contents of its text fields.
fn windows_fields(file: &[u8], tokens: &[u32]) -> Vec<u8> {
    let (mut lines, mut at) = (Vec::new(), 0);
    for row in tokens.chunks(raw::STAR_TOKENS_WIDTH) {
        if row[0] == raw::STAR_TOKEN_TEXT {
            let (start, end) = (row[1] as usize, row[2] as usize);
            lines.extend_from_slice(&file[at..start]);
            lines.extend(windows_lines(&file[start..end]));
            at = end;
        }
    }
    lines.extend_from_slice(&file[at..]);
    lines
}

/// The counts, the tables of 16,384 words and the plain form of an accepted file.
fn written(file: &[u8]) -> (Counts, [Vec<u32>; 5], Vec<u8>) {
    let mut tables: [Vec<u32>; 5] = std::array::from_fn(|_| vec![7; 16_384]);
    let mut out = vec![7; star::plain_room(file.len())];
    let written = star::write(file, TablesMut::of(&mut tables), &mut out);
    assert_eq!(written.refusal, raw::STAR_OK, "place {}", written.place);
    out.truncate(written.length as usize);
    (written.counts(), tables, out)
}

/// The measurement as a Windows bench writes it: the same rows and values, but
/// for 13, 10 in place of 10 within text fields.
#[test]
fn measurement_from_windows_is_read() {
    let command = concat!(env!("CARGO_MANIFEST_DIR"), "/../examples/windows");
    let printed = Command::new(command).output().expect("examples/windows runs");
    assert!(printed.status.success(), "{}", printed.status);
    let (file, windows) = (include_bytes!("../../examples/measurement.star"), printed.stdout);
    assert_eq!(windows, windows_lines(file));
    assert!(windows.len() <= 8192);

    let (counts, tables, plain) = written(file);
    let (windows_counts, windows_tables, windows_plain) = written(&windows);
    assert_eq!(windows_counts, counts);
    assert_eq!(windows_tables[1..], tables[1..]);
    let (_, plain_tables, _) = written(&plain);
    let expected = windows_fields(&plain, &plain_tables[0]);
    assert_eq!(escaped(&windows_plain), escaped(&expected));

    let (tables, windows_tables) = (Tables::of(&tables), Tables::of(&windows_tables));
    let mut changed = 0;
    for row in 1..=counts.names {
        for k in 1.. {
            let value = star::value_at(file, tables, counts, row, k);
            assert_eq!(star::value_at(&windows, windows_tables, counts, row, k), value);
            if value.refusal != 0 {
                break;
            }
            let part = star::value_part(file, tables, counts, row, k);
            let windows_part = star::value_part(&windows, windows_tables, counts, row, k);
            changed += usize::from(windows_part != part);
            match value.kind {
                raw::STAR_TOKEN_TEXT => assert_eq!(windows_part, windows_lines(part)),
                _ => assert_eq!(windows_part, part),
            }
        }
    }
    assert_eq!(changed, 1);
}

/// The measurement as the layout of 1991 has it: the same rows and values, and the same
/// plain form when it is converted.
#[test]
fn measurement_of_1991_is_read() {
    let file = include_str!("../../examples/measurement.star");
    let old = file.replace("\nsave_\n", "\nstop_\n");
    assert_eq!(file.matches("\nsave_\n").count(), 2);
    let (counts, mut tables, plain) = written(file.as_bytes());
    let mut old_tables: [Vec<u32>; 5] = std::array::from_fn(|_| vec![7; 16_384]);
    let mut out = vec![7; star::plain_room(old.len())];
    let lent = TablesMut::of(&mut old_tables);
    let converted = star::convert(old.as_bytes(), raw::STAR_LAYOUT_1991, lent, &mut out);
    assert_eq!((converted.refusal, converted.counts()), (raw::STAR_OK, counts));
    assert_eq!(escaped(&out[..converted.length as usize]), escaped(&plain));
    for kind in tables[0].iter_mut().step_by(raw::STAR_TOKENS_WIDTH) {
        if *kind == raw::STAR_TOKEN_FRAME_END {
            *kind = raw::STAR_TOKEN_STOP;
        }
    }
    assert_eq!(old_tables, tables);
    // each in the other's layout is refused where its first frame ends
    for (file, layout) in [(file, raw::STAR_LAYOUT_1991), (&old, raw::STAR_LAYOUT_TODAY)] {
        let reading = star::read(file.as_bytes(), layout, TablesMut::of(&mut tables));
        let place = old.find("\nstop_\n").map_or(0, |at| at as u32 + 1);
        assert_eq!((reading.refusal, reading.place), (raw::STAR_MISPLACED, place));
    }
}

/// The measurement as an older bench wrote it, with the header stops of a loop of three
/// levels: refused at the first of them, and the measurement when they are dropped.
#[test]
fn measurement_with_header_stops_is_dropped() {
    let file = include_str!("../../examples/measurement.star");
    let (names, values) = ("      _meas_sigma\n", "4.2551 9.581\n");
    let stops = "stop_ stop_                       # header stops of the inner levels\n";
    let old = file.replace(&[names, values].concat(), &[names, stops, values].concat());
    assert_eq!(old.len(), file.len() + stops.len());
    let place = old.find(stops).map_or(0, |at| at as u32);
    let mut tables: [Vec<u32>; 5] = std::array::from_fn(|_| vec![7; 16_384]);
    for layout in [raw::STAR_LAYOUT_TODAY, raw::STAR_LAYOUT_1991] {
        // as the layout has what closes a frame
        let close = ["\nsave_\n", "\nstop_\n"][layout as usize];
        let old = old.replace("\nsave_\n", close);
        let reading = star::read(old.as_bytes(), layout, TablesMut::of(&mut tables));
        let refused = Reading { refusal: raw::STAR_HEADER_STOP, place, ..Reading::default() };
        assert_eq!(reading, refused, "layout {layout}");
    }
    let (counts, of_file, plain) = written(file.as_bytes());
    let mut out = vec![7; star::plain_room(old.len())];
    let answer = star::drop_header_stops(old.as_bytes(), TablesMut::of(&mut tables), &mut out);
    let with_stops = Counts { tokens: counts.tokens + 2, ..counts };
    assert_eq!((answer.refusal, answer.counts()), (raw::STAR_OK, with_stops));
    assert_eq!(escaped(&out[..answer.length as usize]), escaped(&plain));
    // the same values, each in its own file
    let (of_old, of_file) = (Tables::of(&tables), Tables::of(&of_file));
    for row in 1..=counts.names {
        let one: Vec<_> = star::column(old.as_bytes(), of_old, with_stops, row).collect();
        let other: Vec<_> = star::column(file.as_bytes(), of_file, counts, row).collect();
        assert_eq!(one, other, "name row {row}");
    }
}

/// The answer with the room that the file's length asks for, one table having
/// this many words less.
fn read_by_length(file: &str, table: usize, less: usize) -> Reading {
    let mut room = star::room(file.len());
    room[table] -= less;
    let mut tables = room.map(|words| vec![7; words]);
    star::read(file.as_bytes(), raw::STAR_LAYOUT_TODAY, TablesMut::of(&mut tables))
}

/// Files that need all of the room that their length asks for.
#[test]
fn room_by_length_is_needed() {
    // words of one byte have the most tokens; the grammar comes after their room
    for words in [1, 2, 3, 94, 1000] {
        let file = vec!["1"; words].join(" ");
        assert_eq!(raw::star_most_tokens(file.len()), words);
        let answer = read_by_length(&file, 0, 0);
        assert_eq!((answer.refusal, answer.place), (raw::STAR_MISPLACED, 0));
        let answer = read_by_length(&file, 0, 1);
        assert_eq!((answer.refusal, answer.place), (raw::STAR_TOO_SHORT, 1));
    }
    // blocks with codes of one byte have the most sets
    for blocks in 1..=94 {
        let heading = |code: u8| format!("data_{}", code as char);
        let file = (33..33 + blocks).map(heading).collect::<Vec<_>>().join(" ");
        assert_eq!(raw::star_most_sets(file.len()), blocks as usize);
        let answer = read_by_length(&file, 1, 0);
        assert_eq!((answer.refusal, answer.sets), (raw::STAR_OK, blocks.into()));
        let answer = read_by_length(&file, 1, 1);
        assert_eq!((answer.refusal, answer.place), (raw::STAR_TOO_SHORT, 2));
    }
}

/// Accepted files that lack only the rows of what must stand beside them.
#[test]
fn room_by_length_is_nearly_needed() {
    let accepted = |file: &str| {
        let reading = read_by_length(file, 0, 0);
        assert_eq!(reading.refusal, raw::STAR_OK, "{file}");
        (file.len(), reading.counts())
    };
    let (bytes, counts) = accepted("data_a _x 1");
    assert_eq!((raw::star_most_tokens(bytes), counts.tokens), (6, 3));
    for values in [1, 2, 93, 1000] {
        let file = format!("data_a loop_ _x{}", " 1".repeat(values));
        let (bytes, counts) = accepted(&file);
        assert_eq!(raw::star_most_tokens(bytes) - counts.tokens as usize, 5);
        assert_eq!(raw::star_most_values(bytes) - counts.values as usize, 8);
        assert_eq!(raw::star_most_packets(bytes) - counts.packets as usize, 8);
    }
    for names in 2..=94 {
        let inner: String =
            (34..33 + names).map(|name: u8| format!(" _{}", name as char)).collect();
        let (bytes, counts) = accepted(&format!("data_a loop_ _! loop_{inner} 1 stop_"));
        assert_eq!(raw::star_most_names(bytes) - counts.names as usize, 9);
    }
    for words in [1, 2, 93, 1000] {
        let file = format!("data_a loop_ _x{}", " ;".repeat(words));
        let room = star::plain_room(file.len());
        let written = write_into(&file, room);
        assert_eq!(written.refusal, raw::STAR_OK);
        assert_eq!(room - written.length as usize, 8);
    }
}

/// The answer with tables by the file's length and an output of so many bytes.
fn write_into(file: &str, bytes: usize) -> Written {
    let mut tables = star::room(file.len()).map(|words| vec![7; words]);
    star::write(file.as_bytes(), TablesMut::of(&mut tables), &mut vec![7; bytes])
}

/// Tokens that each need a byte of the output beyond the file's length and the
/// last byte 10: a word that begins with `;`, and a text field whose content
/// ends in 13 and that is closed by one byte.
#[test]
fn room_for_each_token_is_needed() {
    for token in [" ;", "\n;\r\x0c;", "\n;\r\r;", "\n;t\r\x0c;"] {
        for count in [1, 2, 93, 1000] {
            let file = format!("data_a loop_ _x{}", token.repeat(count));
            let needed = file.len() + 1 + count;
            assert!(needed <= star::plain_room(file.len()));
            let written = write_into(&file, needed);
            assert_eq!((written.refusal, written.length), (raw::STAR_OK, needed as u32));
            let written = write_into(&file, needed - 1);
            assert_eq!((written.refusal, written.place), (raw::STAR_TOO_SHORT, 6));
        }
    }
}

/// The constants stand for what their names say.
#[test]
fn constants_name_the_answers() {
    let most = raw::STAR_MOST_BYTES;
    let name = |bytes: usize| format!("data_a _{} 1", "n".repeat(bytes - 1));
    let levels = |count: usize| {
        let header: String = (1..=count).map(|level| format!(" loop_ _{level}")).collect();
        format!("data_a{header} 1 stop_")
    };
    for (file, refusal) in [
        (" ".repeat(most), raw::STAR_OK),
        (" ".repeat(most + 1), raw::STAR_TOO_LARGE),
        ("data_a _x \x7f".into(), raw::STAR_BAD_BYTE),
        ("data_".into(), raw::STAR_BAD_WORD),
        (name(raw::STAR_MOST_NAME_BYTES), raw::STAR_OK),
        (name(raw::STAR_MOST_NAME_BYTES + 1), raw::STAR_TOO_LONG),
        ("data_a _x 'a".into(), raw::STAR_OPEN_QUOTE),
        ("data_a _x\n;p".into(), raw::STAR_OPEN_TEXT),
        ("data_a _x".into(), raw::STAR_MISPLACED),
        ("data_a loop_ _x loop_ _y stop_ 1 stop_".into(), raw::STAR_HEADER_STOP),
        ("data_a data_a".into(), raw::STAR_TAKEN),
        ("data_a loop_ _x _y 1 2 3".into(), raw::STAR_INCOMPLETE),
        ("data_a loop_ _x loop_ _y 1".into(), raw::STAR_INCOMPLETE),
        (levels(raw::STAR_MOST_LEVELS), raw::STAR_OK),
        (levels(raw::STAR_MOST_LEVELS + 1), raw::STAR_TOO_DEEP),
        ("global_".into(), raw::STAR_OK),
    ] {
        assert_eq!(read_by_length(&file, 0, 0).refusal, refusal, "{}", &file[..file.len().min(99)]);
    }
    for (bytes, yes) in [(raw::STAR_OLD_NAME_BYTES, 1), (raw::STAR_OLD_NAME_BYTES + 1, 0)] {
        let file = name(bytes);
        let mut tables = star::room(file.len()).map(|words| vec![7; words]);
        let checked = star::fits_32(file.as_bytes(), TablesMut::of(&mut tables));
        assert_eq!((checked.refusal, checked.yes), (raw::STAR_OK, yes), "{file}");
    }

    for (file, layout, refusal) in [
        ("data_a save_f save_", raw::STAR_LAYOUT_TODAY, raw::STAR_OK),
        ("data_a save_f save_", raw::STAR_LAYOUT_1991, raw::STAR_MISPLACED),
        ("data_a save_f stop_", raw::STAR_LAYOUT_TODAY, raw::STAR_MISPLACED),
        ("data_a save_f stop_", raw::STAR_LAYOUT_1991, raw::STAR_OK),
        ("data_a save_f stop_", raw::STAR_LAYOUT_1991 + 1, raw::STAR_OUTSIDE),
    ] {
        let (reading, ..) = converted(file.as_bytes(), layout);
        assert_eq!(reading.refusal, refusal, "{file}, {layout}");
    }

    let file = name(9);
    for (slots, answer) in [(1, (raw::STAR_TOO_SHORT, 8)), (2, (raw::STAR_OK, 0))] {
        let mut tables = star::room(file.len()).map(|words| vec![7; words]);
        let mut index = vec![7; slots];
        let built = index::build(file.as_bytes(), TablesMut::of(&mut tables), &mut index);
        assert_eq!((built.refusal, built.place), answer, "{slots} slots");
        let checked = index::check(file.as_bytes(), TablesMut::of(&mut tables), &vec![0; slots]);
        assert_eq!(checked.refusal, raw::STAR_NO_INDEX, "{slots} slots");
    }

    let file = b"data_a save_f save_ loop_ _x loop_ _y w stop_ $f stop_ 's' stop_ \"d\" stop_\n;t\n; stop_ global_";
    let (reading, tables, ..) = answers(file);
    assert_eq!(reading.refusal, raw::STAR_OK);
    let kinds: Vec<u32> = tables[0].chunks(raw::STAR_TOKENS_WIDTH).map(|row| row[0]).collect();
    let expected = [
        raw::STAR_TOKEN_BLOCK,
        raw::STAR_TOKEN_FRAME,
        raw::STAR_TOKEN_FRAME_END,
        raw::STAR_TOKEN_LOOP,
        raw::STAR_TOKEN_NAME,
        raw::STAR_TOKEN_LOOP,
        raw::STAR_TOKEN_NAME,
        raw::STAR_TOKEN_WORD,
        raw::STAR_TOKEN_STOP,
        raw::STAR_TOKEN_REFERENCE,
        raw::STAR_TOKEN_STOP,
        raw::STAR_TOKEN_SINGLE_QUOTED,
        raw::STAR_TOKEN_STOP,
        raw::STAR_TOKEN_DOUBLE_QUOTED,
        raw::STAR_TOKEN_STOP,
        raw::STAR_TOKEN_TEXT,
        raw::STAR_TOKEN_STOP,
        raw::STAR_TOKEN_GLOBAL,
    ];
    assert_eq!(kinds[..reading.tokens as usize], expected);
    let sets: Vec<u32> = tables[1].chunks(raw::STAR_SETS_WIDTH).map(|row| row[0]).collect();
    let expected = [raw::STAR_SET_BLOCK, raw::STAR_SET_FRAME, raw::STAR_SET_GLOBAL];
    assert_eq!(sets[..reading.sets as usize], expected);
    let (tables, counts) = (Tables::of(&tables), reading.counts());
    assert_eq!(star::find_block(file, tables, counts, b"b").refusal, raw::STAR_NOT_FOUND);
    assert_eq!(star::find_name(file, tables, counts, 4, b"_x").refusal, raw::STAR_OUTSIDE);
}

/// The constants of numbers stand for what their names say.
#[test]
fn constants_name_the_forms() {
    let most = raw::STAR_MOST_WHOLE;
    let power = raw::STAR_MOST_POWER;
    for (content, form) in [
        ("1.5".to_owned(), raw::STAR_NUMBER_FLOAT),
        ("1.5(2)".into(), raw::STAR_NUMBER_UNCERTAIN),
        ("?".into(), raw::STAR_NUMBER_UNKNOWN),
        (".".into(), raw::STAR_NUMBER_NOT_APPLICABLE),
        (format!("{most}"), raw::STAR_NUMBER_FLOAT),
        (format!("{}", most + 1), raw::STAR_NUMBER_TOO_WIDE),
        (format!("1({most})"), raw::STAR_NUMBER_UNCERTAIN),
        (format!("1({})", most + 1), raw::STAR_NUMBER_TOO_WIDE),
        (format!("1e{power}"), raw::STAR_NUMBER_FLOAT),
        (format!("1e{}", power + 1), raw::STAR_NUMBER_TOO_WIDE),
        (format!("1e-{power}"), raw::STAR_NUMBER_FLOAT),
        (format!("1e-{}", power + 1), raw::STAR_NUMBER_TOO_WIDE),
        ("1.5 mm".into(), raw::STAR_NUMBER_TEXT),
    ] {
        let number = star::number_of(raw::STAR_TOKEN_WORD, content.as_bytes());
        assert_eq!(number.form, form, "{content}");
        let quoted = star::number_of(raw::STAR_TOKEN_SINGLE_QUOTED, content.as_bytes());
        assert_eq!(quoted.form, raw::STAR_NUMBER_TEXT, "{content}");
    }
}

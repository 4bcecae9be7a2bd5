#!/usr/bin/env python3
"""Counts the places of docs/DESIGN-PASS.md in crates/*/src: `tools/design_places.py` prints each count, `tools/design_places.py -l` each place too."""
import glob
import re
import sys

# The points and kinds of places, and what a line of one looks like. Twins (point 2) and steps (point 7) are found by reading; what is looked for here are
# those that were found so.
KINDS = [
    ("1 a flag or a number beside a value", r"^\s+(pub )?(refusal|ok|by_parent|form|equal): (u32|bool),"),
    ("1 own enums of the shape of Option or Result", r"^\s*(pub(\(crate\))? )?enum (Scanned|Word|ValueNumber|Match|Bracket)\b"),
    ("1 constants that number kinds, sorts, parts, classes, layouts or refusals",
     r"^(pub )?const (BLOCK|FRAME|FRAME_END|LOOP|STOP|NAME|VALUE|GLOBAL|END|HEADER|PACKETS|DATA_BLOCK|SAVE_FRAME|GLOBAL_BLOCK|OUT_OF_PLACE|INCOMPLETE|TOO_DEEP|RETIRED|BLANK|TERMINATE|LAST_LAYOUT|NO_LAYOUT): "),
    ("1 tests of a number for a kind, sort, part or refusal",
     r"\b(refusal|kind|sort|part|layout) (!=|==|<=|<|>) [0-9A-Z]|[0-9] (<|<=|==) kind|(sort|sort_at\(.*\)) (==|!=) progress::|^\s*(if|while) .*word\(.*, 0\) (==|!=) [0-9]"),
    ("1 kinds and refusals written as numbers",
     r"refusal: [0-9]+,|Fault\([0-9]|Ill\([0-9]|Kind\([0-9]|(limit|alone|refuse|refusing|refused)\([0-9]|values, [0-9]+, [0-9]\)|^\s*[0-9]+( \| [0-9]+)* => "),
    ("2 twins, by name",
     r"\bfn (put3|put4|clear_from|clear_bytes|has_rows|put_bytes|lesser|greater|least|print_table|print_wide_table|compare_name|compare_row|ask_on|seek_name|find_block|find_frame|check_lent|build_in|drop_stops|convert|check|close_frames|open_frames|two|three|opening_bytes|closing_bytes|closing_length|field_closing|field_closing_length)\b"),
    ("3 loops that are no `for`", r"^\s*(while|loop)\b"),
    ("4 by hand: order, equality, conversion, printing",
     r"\bfn (lesser|greater|least|capped|same|begins|is_digit|is_single|form_of|value_form|answered|refusing|put_decimal|put_number|put_byte|put_bytes|show_hex|number|text|wide)\b"),
    ("5 functions that take the tables one by one", r"^\s+packets: &|\(.*packets: &"),
    ("5 functions that take the class table beside the file", r"\bclasses: &"),
    ("5 functions that take table 1 and a count", r"\btokens: &.*\bcount: |^\s+count: (u32|usize),"),
    ("5 facts that are asked again and again", r"requires( [a-z_0-9]+)? \{ (Ready|Spans|Classes|InLoop|Holds|Plain|Marked|HoldsToday|Places)\b"),
    ("6 arrays of a fixed length", r"(: |-> |= )&?(mut )?\[[^\[\]]+; ?[0-9A-Z]+\]"),
    ("7 a flag or a number that says which step to run", r"\b(stops|without|allowed|counted): bool|\blayout: u32"),
]


def lines():
    for path in sorted(glob.glob("crates/*/src/**/*.rt", recursive=True)):
        for at, line in enumerate(open(path), 1):
            if not line.lstrip().startswith("//"):
                yield path, at, line.rstrip("\n")


def main():
    listed = "-l" in sys.argv[1:]
    for kind, form in KINDS:
        found = [x for x in lines() if re.search(form, x[2])]
        print(f"{len(found):5}  {kind}")
        if listed:
            for path, at, line in found:
                print(f"           {path}:{at}: {line.strip()}")


main()

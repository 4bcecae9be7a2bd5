#!/usr/bin/env python3
"""Spells the repository's own names as today's Rattle does: words in snake case, an alias without a middle dot.

usage: tools/respell.py            at the top of the repository, once, right after the toolchain's own port

It turns the names of definitions, lemmas, fields, constructors and variables in crates/*/specs, crates/*/proofs and in the clauses of crates/*/src.
Names of functions, of types and of exports, strings, inputs and outputs stay. It stops where two names of one file would fall together.
"""
import glob
import re
import sys

# Lemmas that had the spelling which their definition gets.
LEMMAS = {it: it + "_lem" for it in "named_step no_value rows_run taken_at plain_in".split()}
# Fields and constructors that were joined by a dash.
FIELDS = (
    "plain-is count-is over-size no-layout global-block data-block well-formed stops-fit stops-allowed some-packet some-names some-name of-set of-parent of-kind "
    "no-fit long-names kept-are is-value is-global are-names are-deeper other-kind not-applicable no-token-room no-reading in-layout few-slots as-reading as-old"
).split()
# A field whose words are the name of a definition already.
OTHERS = {"all-fit": "earlier_fit"}
# A byte literal is no name, and none begins behind a backslash.
WORD = re.compile(r"b'.'|(?<!\\)[A-Za-z_][\w'·≢-]*")
CAMEL = re.compile(r"^[a-z][A-Za-z0-9']*[A-Z][\w'≢-]*$")


def snake(word):
    return re.sub(r"(?<=[a-z0-9'])([A-Z])", lambda m: "_" + m.group(1).lower(), word)


def turned(word):
    if len(word) == 4 and word.startswith("b'") and word.endswith("'"):
        return word
    if "·" in word:
        return snake(word.replace("·", "_")[0].lower() + word.replace("·", "_")[1:])
    if word in FIELDS:
        return word.replace("-", "_")
    if word in OTHERS:
        return OTHERS[word]
    if word in LEMMAS:
        return LEMMAS[word]
    if CAMEL.match(word):
        return snake(word)
    return word


def turn(text, path):
    clash, old = False, {}
    for word in sorted(set(WORD.findall(text))):
        to = turned(word)
        # A function of the code and the definition of what it answers have one name, as in std.
        if old.setdefault(to, word) != word and to not in FUNCTIONS:
            print(f"{path}: {old[to]} and {word} are both {to}")
            clash = True
    return WORD.sub(lambda m: turned(m.group(0)), text), clash


FUNCTIONS = {name for f in glob.glob("crates/*/src/*.rt") for name in re.findall(r"\bfn (\w+)", open(f, encoding="utf-8").read())}


def main():
    files = [f for at in ("specs", "proofs", "src") for f in glob.glob(f"crates/*/{at}/**/*", recursive=True) if f.endswith((".antt", ".rt"))]
    bad, out = False, []
    for path in sorted(files):
        with open(path, encoding="utf-8") as f:
            text = f.read()
        to, clash = turn(text, path)
        bad = bad or clash
        out.append((path, text, to))
    if bad:
        sys.exit(1)
    for path, text, to in out:
        if to != text:
            with open(path, "w", encoding="utf-8") as f:
                f.write(to)


main()

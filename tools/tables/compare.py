#!/usr/bin/env python3
"""Compares AV1's six quantizer tables, entry by entry.

    tools/tables/compare.py [--code FILE] [--spec FILE] [OTHER ..]

The code's tables (crates/tables/src/tables.rt) are compared with the
definitions that the contracts cite (crates/tables/specs/Tables.antt), and
then with the tables of each OTHER file. OTHER is a source file of another AV1
implementation, in one of these layouts, told apart by the names in it:

    dav1d    src/dequant_tables.c        dav1d_dq_tbl[3][QINDEX_RANGE][2]
    libaom   av1/common/quant_common.c   dc_qlookup_QTX, dc_qlookup_10_QTX, ..
             (SVT-AV1's inv_transforms.c has the same names)
    libgav1  src/quantizer.cc            kDcLookup[][256], kAcLookup[][256]
    rav1e    src/quantize/tables.rs      dc_qlookup_Q3_raw, ..

For each comparison it prints '1536 entries equal', or a line for each entry
that differs. The status is 0 if all are equal, 1 if some entry differs, 2 if a
file can't be read or does not have six tables of 256.
"""

import argparse
import pathlib
import re
import sys

ENTRIES = 256
DEPTHS = (8, 10, 12)
TABLES = [(kind, depth) for kind in ("dc", "ac") for depth in DEPTHS]
ROOT = pathlib.Path(__file__).resolve().parents[2]


class Unreadable(Exception):
    """A file that does not have the six tables."""


def no_comments(text, line_mark):
    """The text without comments, so that no number in one is taken for an entry."""
    text = re.sub(r"/\*.*?\*/", " ", text, flags=re.S)
    return re.sub(re.escape(line_mark) + r"[^\n]*", " ", text)


def numbers(text):
    return [int(word, 0) for word in re.findall(r"\b(?:0[xX][0-9a-fA-F]+|\d+)\b", text)]


def braced(text, start):
    """What stands between the first '{' or '[' from start on and its partner."""
    found = re.compile(r"[{\[]").search(text, start)
    if not found:
        raise Unreadable("no array after an equals sign")
    opening = found.start()
    pair = {"{": "}", "[": "]"}[text[opening]]
    depth = 0
    for at in range(opening, len(text)):
        if text[at] == text[opening]:
            depth += 1
        elif text[at] == pair:
            depth -= 1
            if depth == 0:
                return text[opening + 1:at]
    raise Unreadable("an array without an end")


def initializer(text, name):
    """The entries' text of the array of that name: what follows its '='."""
    found = re.search(r"\b" + name + r"\b(?:[^=;{\[]|\[[^\]]*\])*=", text)
    if not found:
        raise Unreadable(f"no table {name}")
    return braced(text, found.end())


def by_names(text, names):
    return {table: numbers(initializer(text, name)) for table, name in zip(TABLES, names)}


def from_code(text):
    text = no_comments(text, "//")
    return by_names(text, [f"{kind.upper()}_{depth}" for kind, depth in TABLES])


def from_spec(text):
    text = no_comments(text, "--")
    tables = {}
    for kind, depth in TABLES:
        name = f"{kind}{depth}"
        found = re.search(r"^" + name + r"\s*=\s*((?:\d+\s*∷\s*)+)\[\]", text, flags=re.M)
        if not found:
            raise Unreadable(f"no definition {name}")
        tables[kind, depth] = numbers(found.group(1))
    return tables


def from_other(text):
    text = re.sub(r"^[ \t]*#[ \t]*(?:if|elif|else|endif|define|include)\b[^\n]*", " ", no_comments(text, "//"), flags=re.M)
    if "dav1d_dq_tbl" in text:
        flat = numbers(initializer(text, "dav1d_dq_tbl"))
        if len(flat) != len(TABLES) * ENTRIES:
            raise Unreadable(f"{len(flat)} entries in dav1d_dq_tbl")
        # [depth][index][0 for DC, 1 for AC]
        return {
            (kind, depth): flat[at * 2 * ENTRIES + which:(at + 1) * 2 * ENTRIES:2]
            for which, kind in enumerate(("dc", "ac"))
            for at, depth in enumerate(DEPTHS)
        }
    if "kDcLookup" in text:
        tables = {}
        for kind, name in (("dc", "kDcLookup"), ("ac", "kAcLookup")):
            flat = numbers(initializer(text, name))
            if len(flat) != len(DEPTHS) * ENTRIES:
                raise Unreadable(f"{len(flat)} entries in {name}")
            for at, depth in enumerate(DEPTHS):
                tables[kind, depth] = flat[at * ENTRIES:(at + 1) * ENTRIES]
        return tables
    middle = {8: "", 10: "_10", 12: "_12"}
    for ending in ("_QTX", "_Q3_raw"):
        if f"dc_qlookup{ending}" in text:
            return by_names(text, [f"{kind}_qlookup{middle[depth]}{ending}" for kind, depth in TABLES])
    raise Unreadable("none of the known layouts")


def read(path, reader):
    try:
        tables = reader(pathlib.Path(path).read_text(encoding="utf-8"))
        for (kind, depth), entries in tables.items():
            if len(entries) != ENTRIES:
                raise Unreadable(f"{len(entries)} entries in the {kind.upper()} table of {depth} bits")
        return tables
    except (OSError, UnicodeDecodeError, Unreadable) as error:
        print(f"compare.py: {path}: {error}", file=sys.stderr)
        sys.exit(2)


def compared(ours, others, name):
    """Prints how others, of the file of that name, differ from ours; answers in how many entries."""
    differing = [
        (kind, depth, index, ours[kind, depth][index], others[kind, depth][index])
        for kind, depth in TABLES
        for index in range(ENTRIES)
        if ours[kind, depth][index] != others[kind, depth][index]
    ]
    for kind, depth, index, left, right in differing:
        print(f"{name}: {kind.upper()} {depth} bits, index {index}: {left} in the code, {right} there")
    total = len(TABLES) * ENTRIES
    if differing:
        print(f"{name}: {len(differing)} of {total} entries differ")
    else:
        print(f"{name}: {total} entries equal")
    return len(differing)


def main():
    parser = argparse.ArgumentParser(description="Compares AV1's six quantizer tables.")
    parser.add_argument("--code", default=ROOT / "crates/tables/src/tables.rt")
    parser.add_argument("--spec", default=ROOT / "crates/tables/specs/Tables.antt")
    parser.add_argument("other", nargs="*")
    options = parser.parse_args()
    ours = read(options.code, from_code)
    differences = compared(ours, read(options.spec, from_spec), options.spec)
    for path in options.other:
        differences += compared(ours, read(path, from_other), path)
    sys.exit(1 if differences else 0)


if __name__ == "__main__":
    main()

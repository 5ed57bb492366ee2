#!/usr/bin/env python3
"""Brings the repository's own definitions, lemmas and their fields to Rattle's spelling: words in snake case,
types in camel case. Run it once, at the top of the repository. It prints names that fall together, and renames
nothing where there are any.

usage: respell.py [--dry]

It goes by whole names. A name is renamed where it stands free, and behind a dot only where it is a field or a member
of a module. Strings keep their text, and so do comments and pages, but for what stands in backticks there.
"""

import collections
import glob
import re
import sys

NAME = r"[^\W\d][\w'\u2032]*(?:-[\w'\u2032]+)*"
TOKEN = re.compile(r'"(?:[^"\\]|\\.)*"|--[^\n]*|//[^\n]*|\u00ab[^\u00bb]*\u00bb|' + NAME)
# Where the plain spelling falls together with another name, or there is none; and a record's parameter.
CHOSEN = {
    "D": "subtype_distance",
    "log-bits": "log_bits",
    "logQ": "log_q_of",
    "subtypeOf": "subtype_of_code",
    "ac-table": "ac_table_stands",
    "dc-table": "dc_table_stands",
}
# Names that Rattle makes from the source keep theirs.
MADE = ("Answers.antt", "Invariants.antt", "Choices.antt")


def files():
    for folder in ("specs", "proofs", "src"):
        for f in sorted(glob.glob(f"crates/*/{folder}/**/*", recursive=True)):
            if f.endswith((".antt", ".rt")):
                yield f


def badly_spelled(name):
    if name in CHOSEN:
        return True
    if name[0].isupper():
        return "-" in name
    return "-" in name or "\u2032" in name or re.search(r"[a-z][A-Z]", name) is not None


def spelled(name):
    if name in CHOSEN:
        return CHOSEN[name]
    name = name.replace("\u2032", "'")
    if name[0].isupper():
        return "".join(p[:1].upper() + p[1:] for p in name.split("-"))
    name = name.replace("-", "_")
    return re.sub(r"(?<=[a-z])([A-Z])", lambda m: "_" + m.group(1).lower(), name)


def declared():
    """The names that specs/ and proofs/ define, those in modules too, and the fields of their records."""
    names, fields = collections.defaultdict(set), collections.defaultdict(set)
    for f in files():
        if f.endswith(".rt"):
            continue
        # how far the record is indented whose fields may follow
        record = None
        for line in open(f, encoding="utf-8"):
            depth = len(line) - len(line.lstrip(" "))
            if line.strip() and record is not None and depth <= record:
                record = None
            head = re.match(r"^ *(?:(?:abbrev|unfoldable|pub) )*(record|data) ([^\s:(){}]+)", line)
            if head:
                names[head.group(2)].add(f)
                record = depth
                continue
            item = re.match(r"^ *(?:(?:abbrev|unfoldable|pub) )*([^\s:(){}\u25cc]+) : ", line)
            if not item or line.lstrip().startswith("--"):
                continue
            made = f.endswith(MADE) and re.search(r" : (goal|need|given)\.", line)
            if record is not None:
                fields[item.group(1)].add(f)
            elif not made and depth <= 4:
                names[item.group(1)].add(f)
    return names, fields


def in_backticks(text, turn):
    """The text with the names turned that stand between backticks."""
    word = re.compile(NAME)
    return re.sub(r"`[^`\n]+`", lambda m: word.sub(lambda w: turn.get(w.group(0), w.group(0)), m.group(0)), text)


def main(dry):
    names, fields = declared()
    turn = {n: spelled(n) for n in (*names, *CHOSEN) if badly_spelled(n)}
    turn_field = {n: spelled(n) for n in fields if badly_spelled(n)}
    found = 0
    back = collections.defaultdict(set)
    for old, new in turn.items():
        back[new].add(old)
    for new, olds in sorted(back.items()):
        if new in names and new not in turn:
            olds = olds | {new}
        if len(olds) > 1:
            found += 1
            print("fall together:", ", ".join(f"{o} ({'; '.join(sorted(names[o]))})" for o in sorted(olds)), "->", new)
    texts = {}
    for f in files():
        text = open(f, encoding="utf-8").read()
        free, out, at = set(), [], 0
        clash = []
        for m in TOKEN.finditer(text):
            t = m.group(0)
            dotted = m.start() > 0 and text[m.start() - 1] == "."
            out.append(text[at:m.start()])
            at = m.end()
            new = t
            if t.startswith(("--", "//")):
                new = in_backticks(t, {**turn_field, **turn})
            elif t[0] not in '"\u00ab':
                if not dotted:
                    free.add(t)
                    if t in turn:
                        new = turn[t]
                        clash.append((t, new))
                    elif t in turn_field:
                        new = turn_field[t]
                elif t in turn_field:
                    new = turn_field[t]
                elif t in turn and re.search(r"(specs|proofs|[A-Z]\w*)\.$", text[:m.start()]):
                    new = turn[t]
            out.append(new)
        out.append(text[at:])
        for old, new in sorted(set(clash)):
            # In src/ a function may have the name of the definition that it meets; clauses name no function.
            if new in free and not (f.endswith(".rt") and re.search(rf"\bfn {new}\b|[{{,:]\s*{new}\s*[,;}}]", text)):
                found += 1
                print(f"{f}: {old} -> {new}, which stands there already")
        texts[f] = (text, "".join(out))
    if found and not dry:
        print(f"{found} names fall together; nothing is renamed")
        return 1
    for f in sorted(glob.glob("docs/*.md")) + ["README.md"]:
        text = open(f, encoding="utf-8").read()
        texts[f] = (text, in_backticks(text, {**turn_field, **turn}))
    n = 0
    for f, (old, new) in texts.items():
        if old != new:
            n += 1
            if not dry:
                open(f, "w", encoding="utf-8").write(new)
    print(f"{len(turn)} names and {len(turn_field)} fields, in {n} files")
    return 0


if __name__ == "__main__":
    raise SystemExit(main("--dry" in sys.argv[1:]))

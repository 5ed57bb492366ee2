"""Cuts pieces of text out of rav1e's sources, edits them, and writes programs from them.

What is expected and not found raises Missing, so that nothing is put together from
sources other than those that the pieces were chosen from.
"""

import pathlib
import re
import shutil

HERE = pathlib.Path(__file__).resolve().parent

# How an item of a kind begins, and what ends it.
KINDS = {
    "fn": (r"(?:const[ \t]+)?fn", "}"),
    "const": (r"const", ";"),
    "static": (r"static", ";"),
    "struct": (r"struct", "}"),
    "impl": (r"impl", "}"),
}


class Missing(Exception):
    """What the sources given should have, and have not."""


def piece(text, file, kind, name):
    """The item of that kind and name, from its first word to its closing brace or semicolon."""
    words, closing = KINDS[kind]
    begin = r"^[ \t]*(?:pub(?:\([a-z]+\))?[ \t]+)?" + words + r"[ \t]+" + name + r"\b"
    found = list(re.finditer(begin, text, flags=re.M))
    if len(found) != 1:
        raise Missing(f"{file}: {len(found)} items '{kind} {name}' where one was expected")
    start = found[0].start()
    depth = 0
    at = start
    while at < len(text):
        if text.startswith("//", at):
            at = text.find("\n", at)
            if at < 0:
                break
        elif text[at] == '"':
            at = text.find('"', at + 1)
            if at < 0:
                break
        elif text[at] in "([{":
            depth += 1
        elif text[at] in ")]}":
            depth -= 1
        if depth == 0 and text[at] == closing:
            return text[start:at + 1]
        at += 1
    raise Missing(f"{file}: '{kind} {name}' has no end")


def between(text, file, first, after):
    """The text from `first` up to `after`; each has to stand there once, and in this order."""
    for anchor in (first, after):
        if text.count(anchor) != 1:
            raise Missing(f"{file}: {text.count(anchor)} times, not once, the text to cut at: {anchor!r}")
    start, stop = text.index(first), text.index(after)
    if start >= stop:
        raise Missing(f"{file}: the text {first!r} stands behind {after!r}")
    return text[start:stop]


def edited(text, file, edits):
    """The text with each edit made; an edit is (old, new, times, why)."""
    for old, new, times, _why in edits:
        if text.count(old) != times:
            raise Missing(f"{file}: {text.count(old)} times, not {times}, the text to edit: {old!r}")
        text = text.replace(old, new)
    return text


def edited_all(files, edits):
    """The files by name, each with the edits that there are for it."""
    return {name: edited(text, name, edits.get(name, [])) for name, text in files.items()}


def sources(directory):
    """The folder with rate.rs: RAV1E_DIR/src, or RAV1E_DIR itself."""
    for folder in (directory / "src", directory):
        if (folder / "rate.rs").is_file():
            return folder
    raise Missing(f"{directory}: neither src/rate.rs nor rate.rs; give the folder of rav1e 0.8.1's crate")


def read(folder, name):
    try:
        return (folder / name).read_text(encoding="utf-8")
    except (OSError, UnicodeDecodeError) as error:
        raise Missing(f"{folder / name}: {error}") from error


def write(folder, files, driver, *beside):
    """A program of those files, with one of our drivers as its main and files of ours beside it."""
    folder.mkdir(parents=True, exist_ok=True)
    for name, text in files.items():
        (folder / name).write_text(text, encoding="utf-8")
    shutil.copyfile(HERE / driver, folder / "main.rs")
    for name in ("checks.rs", *beside):
        shutil.copyfile(HERE / name, folder / name)

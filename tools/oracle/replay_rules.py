#!/usr/bin/env python3
"""Answers the scripts of `replay` by the rules, in Python's unbounded whole numbers.

    tools/oracle/replay_rules.py < SCRIPT

It is a second writing of the controller's rules, apart from our Rattle and from the
original, and it answers every script: also where the original loses bits and the
rules hold a figure at the nearer end of signed 64 bits, and what the original has
not got (the stair, refusals). A line that is none of the script's stops it before
anything is answered, with status 1 and the line's number on standard error.
"""

import re
import sys

sys.dont_write_bytecode = True
from curve_rules import Curve, accepted, towards_zero  # noqa: E402
from rules import LEAST, MOST, ONE, blog64, compare, held, joined, quantizer, select, shown, tables_of  # noqa: E402

SUBTYPES = range(4)
SEF, SEF_BITS = 4, 24
ENTRIES, PATTERN = 4096, 64
STEPS = 64
ACCEPTED = 1 << 30
NUMBERS = 1 << 64
# How far a subtype's log quantizer lies from the base: -D, 0, D, 2 D.
D = 8 * ((33_810_170 * (1 << 54) * 2 + 86_043_287) // (2 * 86_043_287))
DISTANCES = (-D, 0, D, 2 * D)
# The most that a base moves from the previous frame's: the log of 5/4.
CHANGE = blog64(5) - blog64(4)


class Refused(Exception):
    """The number of the question that was answered by no."""


def ask(yes, number):
    if not yes:
        raise Refused(number)


# ---- models and outlooks


class Stair:
    def __init__(self, counts):
        self.rows = [counts[at:at + STEPS] for at in range(0, len(counts), STEPS)]
        ask(all(high >= low for row in self.rows for high, low in zip(row, row[1:])), 34)

    def predict(self, subtype, log_q):
        return self.rows[subtype][min(max((log_q >> 55) + 24, 0), STEPS - 1)]

    def trim(self, _subtype, log_q, *_):
        return log_q

    def learn(self, *_):
        pass


class Outlook:
    """A list of entries, and what its front parts come to."""

    def __init__(self, entries):
        self.entries = entries
        self.known = {}

    def count(self, units):
        if units not in self.known:
            self.known[units] = self.counted(units)
        return self.known[units]

    def counted(self, units):
        kinds, ends = [0] * 5, 0
        for entry in self.entries:
            if ends == units:
                break
            kinds[entry & 7] += 1
            ends += entry >> 3
        return kinds, sum(kinds[:SEF]), ends


def outlook(entries, fewest, most, length):
    ask(fewest <= len(entries) <= most, 31)
    ask(all(entry in (0, 1, 2, 3, 8, 9, 10, 11, 12) for entry in entries), 32)
    length = len(entries) if length is None else length
    return Outlook([entries[at % len(entries)] for at in range(length)])


# ---- the controller


def log_of(base, subtype):
    rounded = held((held(base + (1 << 11)) >> 12) << 12)
    return held(rounded + DISTANCES[subtype])


class Controller:
    def __init__(self, tables, stair, settings):
        figures = accepted(*settings)
        if isinstance(figures, int):
            raise Refused(figures)
        width, height, _, _, _, self.depth, self.sampling, self.lowest, self.highest, _, _, self.dropping = settings
        self.tables = tables
        self.credit, self.delay = figures
        self.model = stair or Curve(width * height, self.credit, self.delay)
        self.limit = self.credit * self.delay
        self.fullness = self.target = self.limit + 1 >> 1
        self.bias = self.coded = self.accepted = self.choices = 0
        self.reports = [0] * 4
        self.out = None  # number, subtype and log quantizer of the ticket that is out

    def entry_log(self, kind, index):
        return blog64(self.tables[kind, self.depth][index]) - (self.depth - 5) * ONE

    def flat(self, index, subtype):
        """The base and the log quantizer that stand for an index."""
        nearest = select(self.tables["ac", self.depth][index], self.tables["dc", self.depth])
        base = self.entry_log("ac", index) + self.entry_log("dc", nearest) + 1 >> 1
        return base, log_of(base, subtype)

    def predicted(self, base, kinds):
        bits = 0
        for subtype in SUBTYPES:
            if kinds[subtype]:
                bits = held(bits + held(kinds[subtype] * self.model.predict(subtype, log_of(base, subtype))))
        return held(bits + SEF_BITS * kinds[SEF])

    def search(self, kinds, total):
        """The found base, and how many were compared."""
        bottom = self.entry_log("ac", self.lowest)
        top = self.entry_log("ac", 255 if self.highest is None else self.highest)
        middle, tries = bottom + top >> 1, 0
        while bottom < top:
            tries += 1
            bits = self.predicted(middle, kinds)
            if bits == total:
                break
            if bits > total:
                bottom = middle + 1
            else:
                top = middle - 1
            middle = bottom + top >> 1
        return middle, tries

    def choose(self, outlook_now, subtype, previous, mean):
        ask(self.out is None, 11)
        ask(subtype in SUBTYPES, 12)
        kinds, frames, units = outlook_now.count(self.delay)
        share = held(towards_zero(self.bias, self.coded + 100) * frames)
        total = held(held(self.fullness - self.target + share) + units * self.credit)
        found, tries = self.search(kinds, total)
        base = found
        if previous is not None:
            base = min(max(base, held(previous - CHANGE)), held(previous + CHANGE))
        log_q = self.model.trim(
            subtype, log_of(base, subtype), self.fullness, self.credit, self.limit, self.highest is not None
        )
        if self.highest is not None:
            most = self.flat(self.highest, subtype)
            base, log_q = min(base, most[0]), min(log_q, most[1])
        if self.lowest > 0:
            least = self.flat(self.lowest, subtype)
            base, log_q = max(base, least[0]), max(log_q, least[1])
        dc, ac, scales = quantizer(self.tables, log_q, self.depth, self.sampling, subtype == 0, mean)
        self.choices = (self.choices + 1) % NUMBERS
        self.out = self.choices, subtype, log_q
        return (
            f"ticket={self.choices} found={found} total={total} tries={tries} base={base} log_q={log_q}"
            f" dc={joined(dc)} ac={joined(ac)} scales={joined(map(shown, scales))}"
        )

    def is_out(self, ticket):
        return self.out is not None and self.out[0] == ticket

    def trial(self, ticket, bits):
        ask(self.is_out(ticket), 21)
        _, subtype, log_q = self.out
        ask(self.reports[subtype] == 0, 23)
        ask(bits >= 1, 24)
        self.model.learn(subtype, bits, log_q, True, self.reports[subtype])
        self.out = None
        return "ok"

    def report(self, ticket, bits, is_shown, droppable):
        ask(self.is_out(ticket), 21)
        ask(self.accepted < ACCEPTED, 13)
        _, subtype, log_q = self.out
        predicted = self.model.predict(subtype, log_q) if bits else 0
        if bits:
            self.model.learn(subtype, bits, log_q, False, self.reports[subtype])
        dropped = bits == 0 or bool(self.dropping and droppable and bits > self.fullness + self.credit)
        charge = 0 if dropped else bits
        self.charged(charge, is_shown)
        self.bias = held(self.bias + held(predicted - charge))
        self.coded += bits > 0
        self.reports[subtype] += 1
        self.out = None
        return f"charge={charge} dropped={int(dropped)}"

    def charged(self, charge, is_shown):
        self.fullness = min(self.fullness - charge + (self.credit if is_shown else 0), self.limit)
        self.accepted += 1

    def withdraw(self, ticket):
        if self.is_out(ticket):
            self.out = None
        return "ok"

    def show(self):
        ask(self.out is None, 11)
        ask(self.accepted < ACCEPTED, 13)
        self.charged(SEF_BITS, True)
        return "ok"

    def status(self):
        return (
            f"fullness={self.fullness} credit={self.credit} limit={self.limit} bias={self.bias}"
            f" coded={self.coded} out={int(self.out is not None)}"
        )


# ---- scripts


class Session:
    def __init__(self, tables):
        self.tables = tables
        self.stair = None
        self.outlook = Outlook([])
        self.controller = None

    def made(self, name, operands):
        """What makes a model, an outlook or a controller."""
        if name == "curve":
            self.stair = None
        elif name == "stair":
            self.stair = Stair(operands)
        elif name == "list":
            self.outlook = outlook(operands, 0, ENTRIES, None)
        elif name == "pattern":
            self.outlook = outlook(operands, 1, PATTERN, ENTRIES)
        else:
            self.controller = None
            self.controller = opened = Controller(self.tables, self.stair, operands)
            return f"credit={opened.credit} limit={opened.limit} fullness={opened.fullness}"
        return "ok"

    def answer(self, name, operands):
        try:
            if name in ("curve", "stair", "list", "pattern", "open"):
                return f"{name} {self.made(name, operands)}"
            if self.controller is None:
                return f"{name} closed"
            if name == "choose":
                operands = [self.outlook, *operands]
            return f"{name} {getattr(self.controller, name)(*operands)}"
        except Refused as refused:
            return f"{name} refused {refused}"


class Malformed(Exception):
    pass


def unsigned(bits):
    return r"\+?0*([0-9]{1,20})", 0, (1 << bits) - 1


U8, U32, U64 = unsigned(8), unsigned(32), unsigned(64)
I64 = r"([+-]?)0*([0-9]{1,20})", LEAST, MOST
MARK = r"([01])", 0, 1
# The operands' types, and whether `-` may stand for them.
OPERANDS = {
    "curve": [], "stair": [U32] * 4 * STEPS,
    "open": [U32, U32, U32, U32, U32, U8, U8, U8, (U8,), U32, (U32,), MARK],
    "choose": [U8, (I64,), I64], "trial": [U64, U32], "report": [U64, U32, MARK, MARK],
    "withdraw": [U64], "show": [], "status": [],
}


def number(word, kind):
    if isinstance(kind[0], tuple):
        if word == "-":
            return None
        kind = kind[0]
    pattern, least, most = kind
    found = re.fullmatch(pattern, word)
    if found:
        value = int("".join(found.groups()))
        if least <= value <= most:
            return value
    raise Malformed(f"'{word}' is no number of its type")


def line_of(text):
    """The name and the operands of a line, or nothing."""
    try:
        text = text.decode("utf-8")
    except UnicodeDecodeError:
        raise Malformed("not UTF-8") from None
    words = [word for word in re.split(r"[\t\n\f\r ]+", text.split("#")[0]) if word]
    if not words:
        return None
    name, words = words[0], words[1:]
    kinds = [U8] * len(words) if name in ("list", "pattern") else OPERANDS.get(name)
    if kinds is None or len(kinds) != len(words):
        raise Malformed("no such line, or wrong count of operands")
    return name, [number(word, kind) for word, kind in zip(words, kinds)]


def main():
    lines = []
    for at, text in enumerate(sys.stdin.buffer.read().split(b"\n"), 1):
        try:
            line = line_of(text)
        except Malformed as why:
            sys.exit(f"replay: line {at}: {why}")
        if line:
            lines.append(line)
    session = Session(tables_of(compare.ROOT / "crates/tables/src/tables.rt"))
    for name, operands in lines:
        print(session.answer(name, operands))


if __name__ == "__main__":
    main()

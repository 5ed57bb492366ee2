#!/usr/bin/env python3
"""Writes the lines that `lessons` is run on, and the original's answers to them.

    tools/oracle/lessons.py ORACLE OUT_DIR [SEED]

ORACLE is lessons-oracle as build.sh makes it; OUT_DIR gets the files stdin and
stdout (crates/lessons in this repository). The lines follow from the seed, by
default 1, and from ORACLE's answers to trims. A line on which ORACLE says
'overflow' is left out.
"""

import pathlib
import random
import subprocess
import sys

LEAST, MOST = -(1 << 63), (1 << 63) - 1
ONE = 1 << 57
SUBTYPES = range(4)
# The pixels to a bit at which an exponent and a first scale change, and one less.
ROWS = (0, 1, 2, 3, 4, 91, 92, 125, 126, 138, 139, 1000)
# Key interval and delay; an absent delay is 12, 13, 15 and 240 here.
TIMINGS = (
    (1, None), (9, None), (10, None), (10_000, None), (30, 12), (30, 19), (30, 20), (30, 21), (30, 22), (30, 24),
    (30, 240), (30, 1024),
)


def asked(oracle, lines):
    """The oracle's answers, one for each line."""
    done = subprocess.run([oracle], input="\n".join(lines) + "\n", capture_output=True, text=True, check=False)
    if done.returncode != 0:
        sys.exit(f"lessons.py: {oracle}: status {done.returncode}: {done.stderr.strip()}")
    answers = done.stdout.splitlines()
    if len(answers) != len(lines):
        sys.exit(f"lessons.py: {oracle}: {len(answers)} answers to {len(lines)} lines")
    return answers


class Curve:
    """A script about one curve: its first line, and what is put behind it."""

    def __init__(self, rng, size, rate, bitrate, timing):
        self.rng = rng
        (width, height), (numerator, denominator), (interval, delay) = size, rate, timing
        units = max(12, min(240, interval * 3 // 2)) if delay is None else delay
        self.credit = max(40, min(bitrate * denominator // numerator, 1 << 46)) - 16
        self.limit = self.credit * units
        if self.limit > 1 << 35:
            raise ValueError("these settings are refused")
        self.reports = [0, 0, 0, 0]
        lowest = rng.randrange(100)
        highest = rng.choice(("-", rng.randint(lowest, 255)))
        self.lines = [
            f"curve {width} {height} {numerator} {denominator} {bitrate} {rng.choice((8, 10, 12))} {rng.randrange(4)}"
            f" {lowest} {highest} {interval} {'-' if delay is None else delay} {rng.randrange(2)}"
        ]

    def learn(self, subtype, bits, log_q, trial=False):
        self.lines.append(f"learn {subtype} {bits} {log_q} {int(trial)} {self.reports[subtype]}")
        if not trial:
            self.reports[subtype] += 1

    def predict(self, subtype, log_q):
        self.lines.append(f"predict {subtype} {log_q}")

    def trim(self, subtype, log_q, fullness, highest):
        self.lines.append(f"trim {subtype} {log_q} {fullness} {self.credit} {self.limit} {int(highest)}")

    def trims(self, subtype):
        """A high and a low log quantizer at a full, a nearly full, a nearly empty and an overdrawn reservoir."""
        margin = (self.limit + 31) >> 5
        soft = self.limit - margin - self.credit
        for fullness in (self.limit, soft + 1 + self.rng.randrange(margin), soft, 0, -(self.credit >> 1) - 1):
            log_q = self.rng.choice((self.rng.randrange(-ONE, 3 * ONE), self.rng.randrange(5 * ONE, 11 * ONE)))
            self.trim(subtype, log_q, fullness, self.rng.random() < 0.3)


def rows(rng):
    """A fresh curve on each side of every change of exponents, with every kind of delay."""
    lines = []
    for pixels_to_a_bit, timing in zip(ROWS, TIMINGS):
        credit = rng.randrange(2, 50) * 1024
        width = 64 if pixels_to_a_bit < 50 else 1024
        # the least number of pixels that falls into the row, or the greatest but for what the width leaves over
        height = pixels_to_a_bit * credit // width + (0 if pixels_to_a_bit in (2, 4, 92, 126, 139) else credit // width - 1)
        curve = Curve(rng, (width, max(1, height)), (25, 1), (credit + 16) * 25 + rng.randrange(25), timing)
        for subtype in SUBTYPES:
            curve.predict(subtype, rng.randrange(-ONE, 9 * ONE))
            curve.predict(subtype, rng.choice((0, -ONE, 3 * ONE, 12 * ONE, LEAST, -(1 << 62), 1 << 61, MOST)))
        curve.trims(rng.randrange(4))
        lines += curve.lines
    return lines


def ends(rng):
    """The least and the greatest frames, rates and bitrates that there are."""
    lines = []
    for size, rate, bitrate, timing in (
        ((1, 1), (1_000_000, 1), 1, (1, None)),
        ((24, 1), (1_000_000, 1), 1, (1, None)),
        ((48, 2), (25, 1), 1000, (1, None)),
        ((65_536, 65_536), (1_000_000, 1), 1, (10_000, 1024)),
        ((65_536, 65_536), (1000, 1), (1 << 31) - 1, (240, None)),
        ((1, 1), (1, 1000), 33_554, (2, 1024)),
        ((65_536, 1), (1, 16), (1 << 27) + 1, (12, 12)),
    ):
        curve = Curve(rng, size, rate, bitrate, timing)
        for subtype in SUBTYPES:
            curve.predict(subtype, 0)
            curve.learn(subtype, rng.choice((1, (1 << 32) - 1)), rng.randrange(-4 * ONE, 13 * ONE))
            curve.predict(subtype, rng.randrange(-4 * ONE, 13 * ONE))
            curve.learn(subtype, rng.choice((1, (1 << 32) - 1)), rng.randrange(-4 * ONE, 13 * ONE))
            curve.predict(subtype, rng.randrange(-4 * ONE, 13 * ONE))
        curve.trims(rng.randrange(4))
        lines += curve.lines
    return lines


def equalities(rng):
    """Predictions that are equal to the soft or the hard limit, and a soft limit of one bit and of none."""
    curve = Curve(rng, (256, 256), (25, 1), 1_000_000, (240, 12))
    soft = curve.limit - ((curve.limit + 31) >> 5) - curve.credit
    for subtype in SUBTYPES:
        # one bit to a pixel at a log quantizer of 0
        curve.learn(subtype, 1 << 16, 0)
        for log_q in (-33, -32, 5, 31, 32):
            curve.trim(subtype, log_q, (1 << 16) + soft, True)
            curve.trim(subtype, log_q, (1 << 16) - (curve.credit >> 1), False)
        for fullness in (soft, soft + 1):
            curve.trim(subtype, 25 * ONE + 17, fullness, True)
        # a reservoir far beyond its limit
        curve.trim(subtype, 0, (1 << 62) + rng.getrandbits(60), False)
    return curve.lines


def fine(rng):
    """The greatest count, and counts of many digits after a first lesson, so that its last digits show."""
    curve = Curve(rng, (640, 360), (25, 1), 1_000_000, (240, None))
    # subtype 1's scale, pixels and power come to a log between 62 and 64 here
    for log_q in range(-267 * ONE // 10, -254 * ONE // 10, ONE // 4):
        curve.predict(1, log_q)
    # a log quantizer at which each subtype's count has about 50 digits
    for subtype, log_q in zip(SUBTYPES, (-26 * ONE, -17 * ONE, -15 * ONE, -13 * ONE)):
        for _ in range(4):
            curve.learn(subtype, rng.randrange(50_000, 1_000_000), rng.randrange(0, 1 << 50) * 64 + rng.randrange(32, 64), trial=True)
            for _ in range(2):
                curve.predict(subtype, log_q + rng.randrange(ONE))
    return curve.lines


def course(rng, count, choices, timing, every):
    """A long course of lessons whose bits and log quantizer wander, with a jump now and then."""
    curve = Curve(rng, (640, 360), (30_000, 1001), rng.randrange(200_000, 3_000_000), timing)
    log_q, log_bits = rng.randrange(2 * ONE, 6 * ONE), rng.uniform(11, 16)
    for subtype in rng.sample(SUBTYPES, 2):
        # trials come before the subtype's first report, once or twice
        for _ in range(rng.choice((1, 2))):
            curve.learn(subtype, int(2 ** rng.gauss(log_bits, 1)), log_q, trial=True)
            curve.predict(subtype, log_q)
    for turn in range(count):
        log_q = max(-ONE, min(9 * ONE, log_q + rng.randint(-ONE // 8, ONE // 8)))
        log_bits = max(4, min(22, log_bits + rng.gauss(0, 0.1)))
        if rng.random() < 0.03:
            log_q, log_bits = rng.randrange(-ONE, 9 * ONE), rng.uniform(4, 22)
        subtype = rng.choice(choices)
        curve.learn(subtype, int(2 ** rng.gauss(log_bits, 0.5)) if rng.random() < 0.99 else 0, log_q)
        if turn % every == every - 1:
            curve.predict(subtype, rng.choice((log_q, rng.randrange(-2 * ONE, 12 * ONE))))
        if turn % (8 * every) == 8 * every - 1:
            curve.trims(subtype)
    for subtype in SUBTYPES:
        curve.predict(subtype, log_q)
    return curve.lines


def swings(rng, choices):
    """Lessons from one far end to the other, down to scales that 32 bits just hold."""
    curve = Curve(rng, (320, 240), (25, 1), 300_000, (60, 40))
    for turn in range(60):
        subtype = rng.choice(choices)
        deep = -(1 << 63) * 64 // 139 + (1 << 58)
        log_q = rng.choice((12 * ONE, -4 * ONE, deep // rng.randrange(1, 9), -deep // 4, rng.randrange(-ONE, 9 * ONE)))
        curve.learn(subtype, rng.choice((1, 1 << 16, (1 << 32) - 1)), log_q, trial=turn % 17 == 16)
        if turn % 2:
            curve.predict(subtype, rng.choice((log_q, 0, deep // 2)))
    curve.trims(choices[0])
    return curve.lines


def neighbours(oracle, lines):
    """The lines, and behind a trim that was moved, some with log quantizers about the answer."""
    found = []
    for line, answer in zip(lines, asked(oracle, lines)):
        found.append(line)
        name, subtype, log_q, *rest = line.split()
        if name == "trim" and answer not in (log_q, "overflow") and len(found) % 3 == 0:
            found += [" ".join((name, subtype, str(int(answer) + step), *rest)) for step in (-65, -1, 0, 64)]
    return found


def main():
    if len(sys.argv) not in (3, 4):
        sys.exit("use: lessons.py ORACLE OUT_DIR [SEED]")
    oracle, out = sys.argv[1], pathlib.Path(sys.argv[2])
    seed = int(sys.argv[3]) if len(sys.argv) == 4 else 1
    rng = random.Random(seed)
    lines = rows(rng) + ends(rng) + equalities(rng) + fine(rng)
    lines += course(rng, 520, (1,), (240, 1024), 16)
    lines += course(rng, 135, (2,), (10_000, None), 9)
    lines += course(rng, 100, (0, 1, 2, 3), (17, None), 5)
    lines += course(rng, 40, (0, 3), (240, 25), 4)
    lines += course(rng, 30, (1, 2), (240, 12), 4)
    for choices in ((0,), (1, 2, 3)):
        lines += swings(rng, choices)
    lines = neighbours(oracle, lines)
    pairs = [pair for pair in zip(lines, asked(oracle, lines)) if pair[1] != "overflow"]
    out.mkdir(parents=True, exist_ok=True)
    head = f"# Written by tools/oracle/lessons.py with seed {seed}; the answers are those of rav1e 0.8.1.\n\n"
    (out / "stdin").write_text(head + "".join(line + "\n" for line, _ in pairs))
    (out / "stdout").write_text("".join(answer + "\n" for _, answer in pairs))
    counts = {}
    for line, _ in pairs:
        counts[line.split()[0]] = counts.get(line.split()[0], 0) + 1
    for command, count in counts.items():
        print(f"{command}: {count}")
    moved = sum(1 for line, answer in pairs if line.startswith("trim") and line.split()[2] != answer)
    print(f"{len(pairs)} lines written, {moved} of the trims moved, {len(lines) - len(pairs)} left out (overflow)")


main()

#!/usr/bin/env python3
"""Gives two programs the same random lessons and questions, and stops at the first difference.

    tools/compare/lessons.py ORACLE OURS SEED COUNT [any]

ORACLE is lessons-oracle as tools/oracle/build.sh makes it; OURS is our lessons, or
any program that reads the same lines. The lines follow from SEED alone, so a run
can be repeated. They are scripts: a curve, then lessons, predictions and trims. A
line that ORACLE answers by 'overflow' (the original loses bits there, and the rules
differ from it on purpose, or it did in a lesson before) is counted and passed over.
With 'any' there are also lines that the original has no answer to: refused settings,
subtypes above 3, limits under 1, and more of the logs that lose bits; ORACLE is then
tools/oracle/curve_rules.py.
At a difference the script is shortened as far as the difference stays, and printed.
The status is 0 if all other answers are equal, 1 at a difference, and 2 if a
program fails.
"""

import random
import subprocess
import sys

BATCH = 50_000
ONE = 1 << 57
LEAST, MOST = -(1 << 63), (1 << 63) - 1
# The pixels to a bit at which an exponent and a first scale change.
ROWS = (1, 2, 4, 92, 126, 139)


def spread(rng, high):
    """A whole number from 1 to high; every count of binary digits is about as likely."""
    return max(1, min(high, int(2 ** rng.uniform(0, high.bit_length()))))


def near(rng, number, reach=2):
    return max(LEAST, min(MOST, number + rng.randint(-reach, reach)))


def any_signed(rng):
    size = rng.getrandbits(rng.randrange(64))
    return rng.choice((size, -size, size, -size, LEAST, MOST, near(rng, LEAST), near(rng, MOST)))


class Script:
    """A curve and what is asked of it."""

    def __init__(self, rng, wild):
        self.rng, self.wild = rng, wild
        self.reports = [0, 0, 0, 0]
        # how lessons go: the log quantizer and the log of the bits that they stay near
        self.log_q = rng.randrange(-2 * ONE, 13 * ONE)
        self.size = rng.uniform(0, 31)
        if wild and rng.random() < 0.7:
            self.lines = [self.refused()]
            return
        self.lines = [self.curve()]
        few = rng.random() < 0.2
        for _ in range(rng.randrange(1, 30) if few else rng.randrange(30, 1200)):
            kind = rng.random()
            self.lines.append(self.learn() if kind < 0.6 else self.predict() if kind < 0.8 else self.trim())

    def curve(self):
        rng = self.rng
        while True:
            numerator, denominator = rng.choice(
                ((25, 1), (30, 1), (30_000, 1001), (1_000_000, 1_000_000), (spread(rng, 10**6), spread(rng, 10**6)))
            )
            bitrate = spread(rng, (1 << 31) - 1)
            interval = spread(rng, 10_000)
            delay = rng.choice((None, 12, 13, 20, 21, 22, 1024, rng.randint(12, 1024), rng.randint(12, 60)))
            self.credit = max(40, min(bitrate * denominator // numerator, 1 << 46)) - 16
            units = max(12, min(240, interval * 3 // 2)) if delay is None else delay
            self.limit = self.credit * units
            if self.limit <= 1 << 35:
                break
        width, height = spread(rng, 65_536), spread(rng, 65_536)
        if rng.random() < 0.6:
            # near a change of exponents
            pixels = rng.choice(ROWS) * self.credit + rng.choice((-1, 0, 0, 1, rng.randint(-50, 50)))
            width = rng.choice((1, spread(rng, 65_536)))
            height = max(1, min(65_536, pixels // width + rng.choice((0, 0, 1))))
        lowest = rng.randrange(256)
        highest = rng.choice(("-", rng.randint(lowest, 255)))
        return (
            f"curve {width} {height} {numerator} {denominator} {bitrate} {rng.choice((8, 10, 12))} {rng.randrange(4)}"
            f" {lowest} {highest} {interval} {'-' if delay is None else delay} {rng.randrange(2)}"
        )

    def refused(self):
        """Settings of which one, two or three are put at some place about their bounds: most are refused."""
        rng, words = self.rng, self.curve().split()
        bounds = {
            1: (0, 1, 65_536, 65_537), 2: (0, 1, 65_536, 65_537, (1 << 32) - 1), 3: (0, 1, 10**6, 10**6 + 1),
            4: (0, 1, 10**6, 10**6 + 1), 5: (0, 1, (1 << 31) - 1, 1 << 31, (1 << 32) - 1), 6: (*range(14), 255),
            7: (*range(6), 255), 8: (0, 100, 255), 9: ("-", 0, 99, 100, 101, 255), 10: (0, 1, 10_000, 10_001),
            11: ("-", 0, 11, 12, 1024, 1025, (1 << 32) - 1),
        }
        for at in rng.sample(sorted(bounds), rng.choice((1, 1, 2, 3))):
            words[at] = str(rng.choice(bounds[at]))
        if rng.random() < 0.3:
            # a limit about 2^35
            delay = rng.choice((12, 16, 64, 1024))
            words[3:6], words[11] = ["1", "1", str((1 << 35) // delay + 16 + rng.choice((-1, 0, 1)))], str(delay)
        return " ".join(words)

    def subtype(self):
        return self.rng.randrange(256) if self.wild and self.rng.random() < 0.02 else self.rng.randrange(4)

    def log(self):
        """A log quantizer: near the script's most of the time, else any that frames have, else far off."""
        rng, kind = self.rng, self.rng.random()
        if kind < 0.7:
            return self.log_q + rng.randint(-ONE // 4, ONE // 4)
        if kind < 0.95:
            return rng.randrange(-4 * ONE, 14 * ONE)
        return rng.randint(-(1 << 61), 1 << 61)

    def any_log(self):
        return any_signed(self.rng) if self.rng.random() < 0.05 else self.log()

    def learn(self):
        rng, subtype = self.rng, self.rng.choice((0, 1, 1, 1, 2, 3))
        if self.wild and rng.random() < 0.01:
            return f"learn {rng.randrange(4, 256)} {spread(rng, (1 << 32) - 1)} {self.log()} 0 0"
        kind = rng.random()
        if kind < 0.8:
            bits = int(2 ** min(31.999, max(0, rng.gauss(self.size, 1))))
        elif kind < 0.98:
            bits = spread(rng, (1 << 32) - 1)
        else:
            bits = rng.choice((0, 1, 2, (1 << 32) - 1))
        trial = rng.random() < (0.3 if self.reports[subtype] == 0 else 0.01)
        reports = self.reports[subtype]
        if rng.random() < 0.01:
            reports = rng.choice((0, 9, 10, 11, spread(rng, (1 << 30) - 1), (1 << 30) - 1))
        if not trial:
            self.reports[subtype] += 1
        log_q = any_signed(rng) if rng.random() < (0.05 if self.wild else 0.0002) else self.log()
        return f"learn {subtype} {bits} {log_q} {int(trial)} {reports}"

    def predict(self):
        return f"predict {self.subtype()} {self.any_log()}"

    def trim(self):
        rng = self.rng
        credit, limit = self.credit, self.limit
        kind = rng.random()
        if kind < 0.1:
            credit, limit = spread(rng, 1 << 46), spread(rng, 1 << 35)
        elif kind < 0.13:
            credit, limit = any_signed(rng), any_signed(rng) if self.wild else max(1, any_signed(rng))
        soft = limit - ((limit + 31) >> 5) - credit
        fullness = rng.choice((
            rng.randint(-abs(limit), abs(limit)), rng.randint(-abs(limit), abs(limit)), limit, near(rng, soft, 2),
            near(rng, soft + ((limit + 31) >> 5)), soft + rng.randint(0, 1 + (abs(limit) >> 5)),
            0, -(credit >> 1), near(rng, -(credit >> 1)), near(rng, 0, 200), any_signed(rng) if rng.random() < 0.1 else limit,
        ))
        fullness = max(LEAST, min(MOST, fullness))
        return f"trim {self.subtype()} {self.any_log()} {fullness} {credit} {limit} {rng.choice((0, 0, 1))}"


def answers(program, lines):
    try:
        done = subprocess.run(
            [program], input="\n".join(lines) + "\n", capture_output=True, text=True, check=False
        )
    except OSError as error:
        sys.exit(failed(f"{program}: {error}"))
    found = done.stdout.splitlines()
    if done.returncode != 0:
        sys.exit(failed(f"{program}: status {done.returncode}: {done.stderr.strip()}"))
    if len(found) != len(lines):
        sys.exit(failed(f"{program}: {len(found)} answers to {len(lines)} lines"))
    return found


def failed(why):
    print(f"lessons.py: {why}", file=sys.stderr)
    return 2


def differing(oracle, ours, lines):
    """The answers to the last line, if they differ."""
    theirs, our = answers(oracle, lines)[-1], answers(ours, lines)[-1]
    return (theirs, our) if theirs not in ("overflow", our) else None


def shortest(oracle, ours, script):
    """The script without the lines that the difference at its last line does not need."""
    size = len(script) // 2
    while size > 0:
        at = 1
        while at < len(script) - 1:
            shorter = script[:at] + script[min(at + size, len(script) - 1):]
            if differing(oracle, ours, shorter):
                script = shorter
            else:
                at += size
        size //= 2
    return script


def main():
    if len(sys.argv) != 5 and sys.argv[5:] != ["any"]:
        sys.exit(failed("use: lessons.py ORACLE OURS SEED COUNT [any]"))
    oracle, ours = sys.argv[1:3]
    rng, count = random.Random(int(sys.argv[3])), int(sys.argv[4])
    equal, passed_over = {}, {}
    while sum(equal.values()) + sum(passed_over.values()) < count:
        lines = []
        while len(lines) < BATCH:
            lines += Script(rng, len(sys.argv) == 6).lines
        start = 0
        for at, (theirs, our) in enumerate(zip(answers(oracle, lines), answers(ours, lines))):
            name = lines[at].split()[0]
            if name == "curve":
                start = at
            if theirs == "overflow":
                passed_over[name] = passed_over.get(name, 0) + 1
            elif theirs == our:
                equal[name] = equal.get(name, 0) + 1
            else:
                script = shortest(oracle, ours, lines[start:at + 1])
                print("differs:", *script, sep="\n")
                print("original: %s\nours:     %s" % (differing(oracle, ours, script) or (theirs, our)))
                print(f"{sum(equal.values())} equal before it, {sum(passed_over.values())} passed over (overflow)")
                sys.exit(1)
    for name in sorted(equal):
        print(f"{name}: {equal[name]} equal, {passed_over.get(name, 0)} passed over")
    print(f"{sum(equal.values())} equal, {sum(passed_over.values())} passed over (overflow), 0 differ")


main()

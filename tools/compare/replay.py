#!/usr/bin/env python3
"""Gives two programs the same random runs of a rate controller, and stops at the first difference.

    tools/compare/replay.py ORACLE OURS SEED COUNT [any] [script]

ORACLE is replay-oracle as tools/oracle/build.sh makes it; OURS is our replay, or any
program that reads the same scripts, as tools/oracle/replay_rules.py. The lines follow
from SEED alone, so a run can be repeated. They are drives: a model and an outlook are
made, a controller is opened, and frames are chosen, tried, reported, withdrawn and
shown. A line that ORACLE answers by 'overflow' (the original loses bits there, or
did in a call before) or by 'none' (the original has no stair) is counted and passed
over.
With 'any' there are also runs on a stair, and more of the figures at which the
original loses bits; ORACLE is then tools/oracle/replay_rules.py. With 'script' the
lines are printed, and neither program is run.
At a difference the drive is shortened as far as the difference stays, and printed.
The status is 0 if all other answers are equal, 1 at a difference, and 2 if a
program fails.
"""

import random
import re
import subprocess
import sys

BATCH = 20_000
ONE = 1 << 57
LEAST, MOST = -(1 << 63), (1 << 63) - 1
BITS = (1 << 32) - 1
LAWFUL = (0, 1, 2, 3, 8, 9, 10, 11, 12)
# The pixels to a bit at which an exponent and a first scale change.
ROWS = (1, 2, 4, 92, 126, 139)
# Settings whose limit is 2^35, and some whose limit is above it, the first by one: numerator, denominator, bitrate, delay.
AT_THE_LIMIT = ((1, 1, (1 << 25) + 16, 1024), (1, 2, (1 << 30) + 8, 16), (1, 1, (1 << 27) + 16, 256), (3, 2, 3 * (1 << 29) + 24, 32))
ABOVE_IT = (
    (1, 1, ((1 << 35) + 1) // 33 + 16, 33), (1, 1, (1 << 25) + 17, 1024), (1, 1, (1 << 27) + 17, 256),
    (1, 1_000_000, (1 << 31) - 1, 12), (1, 32_768, (1 << 31) - 1, None),
)
PYRAMID = (1, 2, 11, 12, 11, 12)


def spread(rng, high):
    """A whole number from 1 to high; every count of binary digits is about as likely."""
    return max(1, min(high, int(2 ** rng.uniform(0, high.bit_length()))))


def near(rng, number, reach=2):
    return max(LEAST, min(MOST, number + rng.randint(-reach, reach)))


def any_signed(rng):
    size = rng.getrandbits(rng.randrange(64))
    return rng.choice((size, -size, size, -size, LEAST, MOST, near(rng, LEAST), near(rng, MOST)))


class Drive:
    """One run. A ticket stands as T, the last one given, or as T-1, T+2 and so on; `rendered` puts the numbers in."""

    def __init__(self, rng, wild):
        self.rng, self.wild = rng, wild
        self.lines = []
        self.on_stair = wild and rng.random() < 0.5
        self.lines.append(self.stair() if self.on_stair else "curve")
        self.outlook()
        for _ in range(rng.choice((0, 0, 0, 1, 2, 3))):
            self.refused_opening()
        self.opening()
        # how the drive goes: what the reservoir is drawn towards, and by how much sizes swing
        self.manner = rng.choice(("even", "even", "even", "even", "starved", "sated", "anyhow"))
        self.aim = rng.uniform(-0.2, 1.05)
        self.swing = rng.choice((0.1, 0.4, 1.0, 2.0))
        self.base = rng.randrange(-ONE, 9 * ONE)
        self.previous = rng.choice((0.0, 0.3, 0.9))
        self.means = rng.choice((0.0, 0.0, 0.5))
        self.subtypes = rng.choice(((0,), (1,), (0, 1, 1, 1), (0, 1, 2, 3, 3), (2, 3), (0, 1, 2, 3)))
        frames = rng.choice((rng.randrange(1, 12), rng.randrange(10, 60), rng.randrange(50, 250)))
        if rng.random() < 0.02:
            frames = rng.randrange(600, 1300)
        for _ in range(frames):
            self.frame()
        self.ending()

    def put(self, line, chance=0.3):
        self.lines.append(line)
        if self.rng.random() < chance:
            self.lines.append("status")

    # ---- models and outlooks

    def stair(self):
        rng = self.rng
        rows = []
        for _ in range(4):
            row, count = [], rng.choice((spread(rng, BITS), BITS, rng.randrange(1000), 0))
            for _ in range(64):
                row.append(count)
                if rng.random() < 0.7:
                    count = rng.randint(count * 3 // 4, count) if rng.random() < 0.9 else max(0, count - 1)
            rows += row
        if rng.random() < 0.1:
            at = rng.randrange(1, 256)
            rows[at] = min(BITS, rows[at - 1] + rng.choice((0, 1)))
        return "stair " + " ".join(map(str, rows))

    def entries(self, most):
        rng = self.rng
        kinds = rng.choice((LAWFUL, (8, 9, 9, 9), (9,), (12,), (1, 2, 3), (8, 9, 10, 11), (1, 12), (0, 12, 12)))
        count = rng.choice((1, 2, 3, rng.randint(1, most), rng.randint(1, min(most, 64)), most))
        return [rng.choice(kinds) for _ in range(count)]

    def outlook(self):
        rng, kind = self.rng, self.rng.random()
        if kind < 0.35:
            entries = [8, *PYRAMID * rng.randrange(1, 10)] if rng.random() < 0.5 else [8, *[9] * rng.randrange(1, 63)]
            line = ["pattern", *entries]
        elif kind < 0.6:
            line = ["pattern", *self.entries(64)]
        elif kind < 0.9:
            line = ["list", *self.entries(rng.choice((10, 60, 300, 300, 1100, 4096)))]
        elif kind < 0.94:
            line = ["list"]
        else:
            # refused: 31 for the length, before 32 for an entry
            line = [*rng.choice((["list"], ["pattern"])), *self.entries(20)]
            fault = rng.random()
            if fault < 0.5:
                line.insert(rng.randrange(1, len(line) + 1), rng.choice((4, 5, 7, 13, 15, 16, 24, 128, 255, rng.randrange(256))))
            if fault > 0.4:
                longer = ["list", *[rng.choice(line[1:])] * rng.choice((4096, 4097))]
                line = rng.choice((["pattern"], ["pattern", *[rng.choice(line[1:])] * 65], ["pattern", *[9] * 64], longer))
        self.put(" ".join(map(str, line)), 0)

    # ---- openings

    def settings(self):
        rng = self.rng
        while True:
            numerator, denominator = rng.choice(
                ((25, 1), (30, 1), (30_000, 1001), (10**6, 10**6), (spread(rng, 10**6), spread(rng, 10**6)))
            )
            bitrate, interval = spread(rng, (1 << 31) - 1), spread(rng, 10_000)
            delay = rng.choice((None, None, 12, 13, 20, 22, 1024, rng.randint(12, 1024), rng.randint(12, 60)))
            if rng.random() < 0.05:
                numerator, denominator, bitrate, delay = rng.choice(AT_THE_LIMIT)
            self.credit = max(40, min(bitrate * denominator // numerator, 1 << 46)) - 16
            self.delay = max(12, min(240, interval * 3 // 2)) if delay is None else delay
            self.limit = self.credit * self.delay
            if self.limit <= 1 << 35:
                break
        width, height = spread(rng, 65_536), spread(rng, 65_536)
        if rng.random() < 0.6:
            # about as many pixels to a bit as where the exponents change
            pixels = rng.choice(ROWS) * self.credit + rng.choice((-1, 0, 0, 1, rng.randint(-50, 50)))
            width = rng.choice((1, spread(rng, 65_536)))
            height = max(1, min(65_536, pixels // width + rng.choice((0, 0, 1))))
        elif rng.random() < 0.5:
            width, height = rng.choice(((640, 360), (1280, 720), (1920, 1080), (320, 180)))
        lowest = rng.choice((0, 0, 0, 1, rng.randrange(60), rng.randrange(256), 255))
        highest = rng.choice((None, None, None, 255, lowest, rng.randint(lowest, 255), min(255, lowest + 1)))
        self.dropping = rng.randrange(2)
        return [
            width, height, numerator, denominator, bitrate, rng.choice((8, 10, 12)), rng.randrange(4), lowest,
            "-" if highest is None else highest, interval, "-" if delay is None else delay, self.dropping,
        ]

    def opening(self):
        self.lines.append(" ".join(map(str, ["open", *self.settings()])))
        self.fullness = self.limit + 1 >> 1
        self.reports = [0] * 4

    def refused_opening(self):
        """Settings of which one, two or three are put at some place about their bounds, and calls that find it closed."""
        rng, words = self.rng, self.settings()
        bounds = {
            0: (0, 1, 65_536, 65_537), 1: (0, 1, 65_536, 65_537, BITS), 2: (0, 1, 10**6, 10**6 + 1),
            3: (0, 1, 10**6, 10**6 + 1), 4: (0, 1, (1 << 31) - 1, 1 << 31, BITS), 5: (*range(14), 255),
            6: (*range(6), 255), 7: (0, 100, 255), 8: ("-", 0, 99, 100, 101, 255), 9: (0, 1, 10_000, 10_001),
            10: ("-", 0, 11, 12, 1024, 1025, BITS),
        }
        for at in rng.sample(sorted(bounds), rng.choice((1, 1, 2, 3))):
            words[at] = rng.choice(bounds[at])
        if rng.random() < 0.2:
            words[2], words[3], words[4], words[10] = rng.choice(ABOVE_IT)
        self.lines.append(" ".join("-" if word is None else str(word) for word in ["open", *words]))
        calls = ("status", "show", "withdraw 1", "trial 1 1", "report 1 5 1 0", "choose 0 - 0")
        self.lines += rng.sample(calls, rng.randrange(4))

    # ---- frames

    def choice(self, subtype):
        rng = self.rng
        previous, mean = "-", 0
        if rng.random() < self.previous:
            self.base += rng.randint(-ONE // 3, ONE // 3)
            self.base = max(-2 * ONE, min(10 * ONE, self.base))
            previous = self.base if rng.random() < 0.97 else rng.randint(-12 * ONE, 14 * ONE)
        if rng.random() < self.means:
            mean = rng.choice((rng.randint(-ONE, ONE), rng.randint(-3 * ONE, 3 * ONE), rng.randint(-30 * ONE, 30 * ONE)))
        if self.wild and rng.random() < 0.1:
            previous = rng.choice(("-", previous, any_signed(rng)))
            mean = rng.choice((mean, any_signed(rng)))
        return f"choose {subtype} {previous} {mean}"

    def size(self):
        """A frame's bits."""
        rng, kind = self.rng, self.rng.random()
        if kind < 0.03:
            bits = rng.choice((0, 0, 1, 2, BITS))
        elif kind < 0.1:
            bits = self.fullness + self.credit + rng.choice((-1, 0, 1, rng.randint(-100, 100)))
        elif kind < 0.13:
            bits = spread(rng, BITS)
        else:
            wanted = self.credit + (self.fullness - self.aim * self.limit) / self.delay
            manners = {"even": 1, "starved": 4, "sated": 0.2, "anyhow": 2 ** rng.uniform(-6, 6)}
            bits = int(max(1, wanted) * manners[self.manner] * 2 ** min(20, rng.gauss(0, self.swing)))
        return max(0, min(BITS, bits))

    def frame(self):
        rng = self.rng
        if rng.random() < 0.05:
            self.outlook()
        if rng.random() < 0.08:
            self.put("show")
            self.fullness = min(self.limit, self.fullness - 24 + self.credit)
        if rng.random() < 0.04:
            self.misuse(False, 0)
        subtype = rng.choice(self.subtypes)
        if rng.random() < (0.3 if self.reports[subtype] == 0 else 0.01):
            for _ in range(rng.choice((1, 1, 2))):
                self.put(self.choice(subtype))
                self.put(f"trial T {max(1, self.size())}")
            if self.reports[subtype] > 0:
                # those were refused, and the first choice is still out
                self.put("withdraw T")
        self.put(self.choice(subtype))
        if rng.random() < 0.06:
            self.misuse(True, subtype)
        if rng.random() < 0.04:
            self.put("withdraw T")
            return
        self.report(subtype)

    def report(self, subtype):
        rng, bits = self.rng, self.size()
        is_shown, droppable = int(rng.random() < 0.85), int(rng.random() < 0.5)
        self.put(f"report T {bits} {is_shown} {droppable}")
        if not (self.dropping and droppable and bits > self.fullness + self.credit):
            self.fullness -= bits
        self.fullness = min(self.limit, self.fullness + is_shown * self.credit)
        self.reports[subtype] += 1

    def misuse(self, out, subtype):
        """Calls that are refused, or that change nothing."""
        rng = self.rng
        wrong = rng.choice(("T-1", "T+1", "T-2", "0", str((1 << 64) - 1), str(rng.getrandbits(64))))
        calls = [
            f"report {wrong} {self.size()} {rng.randrange(2)} {rng.randrange(2)}", f"trial {wrong} {rng.choice((0, 5))}",
            f"withdraw {wrong}", f"choose {rng.choice((4, 5, 8, 255))} - 0",
        ]
        if out:
            calls += [f"choose {rng.randrange(6)} - 0", "show", "trial T 0"]
            if self.reports[subtype] > 0:
                calls.append(f"trial T {spread(rng, BITS)}")
        else:
            calls += [f"report T {self.size()} 1 0", f"trial T {rng.choice((0, 5))}", "withdraw T"]
        for call in rng.sample(calls, rng.randrange(1, 4)):
            self.put(call)

    def ending(self):
        """Status, and now and then a choice with figures at which most sums leave 64 bits."""
        rng = self.rng
        self.lines.append("status")
        if rng.random() < 0.4:
            far = rng.randint(-60 * ONE, 60 * ONE)
            previous = rng.choice(("-", "-", far, far // 2, any_signed(rng), LEAST, MOST))
            mean = rng.choice((0, 0, far, -far, any_signed(rng), LEAST, MOST))
            self.lines.append(f"choose {rng.choice(self.subtypes)} {previous} {mean}")
            self.lines += [f"report T {self.size()} 1 0", "status", self.choice(1), "withdraw T"]


def rendered(script):
    """The lines with their tickets: how far a number counts is known from which calls are accepted."""
    lines, choices, out, reports = [], 0, None, [0] * 4
    for line in script:
        line = re.sub(r"\bT([+-]\d+)?", lambda found: str((choices + int(found[1] or 0)) % (1 << 64)), line)
        lines.append(line)
        name, *words = line.split(" ", 3)
        if name == "open":
            choices, out, reports = 0, None, [0] * 4
        elif name == "choose" and out is None and int(words[0]) < 4:
            choices, out = choices + 1, int(words[0])
        elif name in ("trial", "report", "withdraw") and out is not None and int(words[0]) == choices:
            if name == "trial" and (reports[out] > 0 or int(words[1]) < 1):
                continue
            if name == "report":
                reports[out] += 1
            out = None
    return lines


def answers(program, lines):
    try:
        done = subprocess.run(
            [program], input="\n".join(lines) + "\n", capture_output=True, text=True, check=False
        )
    except OSError as error:
        sys.exit(failed(f"{program}: {error}"))
    found = done.stdout.splitlines()
    if done.returncode != 0:
        sys.exit(failed(f"{program}: status {done.returncode}: {done.stderr.strip()}"))
    if len(found) != len(lines):
        sys.exit(failed(f"{program}: {len(found)} answers to {len(lines)} lines"))
    return found


def failed(why):
    print(f"replay.py: {why}", file=sys.stderr)
    return 2


def differing(oracle, ours, script):
    """The answers to the last line, if they differ."""
    lines = rendered(script)
    theirs, our = answers(oracle, lines)[-1], answers(ours, lines)[-1]
    return (theirs, our) if theirs not in ("overflow", "none", our) else None


def shortest(oracle, ours, script):
    """The script without the lines that the difference at its last line does not need."""
    size = len(script) // 2
    while size > 0:
        at = 0
        while at < len(script) - 1:
            shorter = script[:at] + script[min(at + size, len(script) - 1):]
            if differing(oracle, ours, shorter):
                script = shorter
            else:
                at += size
        size //= 2
    return script


def told(oracle, ours, script, pair):
    script = shortest(oracle, ours, script)
    print("differs:", *rendered(script), sep="\n")
    print("original: %s\nours:     %s" % (differing(oracle, ours, script) or pair))


def kind_of(answer):
    """What an answer counts as: its call, with the number of a refusal."""
    words = answer.split()
    return " ".join(words[:3] if words[1:2] == ["refused"] else words[:2] if words[1:2] == ["closed"] else words[:1])


def main():
    if len(sys.argv) != 5 and sys.argv[5:] not in (["any"], ["script"], ["any", "script"]):
        sys.exit(failed("use: replay.py ORACLE OURS SEED COUNT [any] [script]"))
    oracle, ours = sys.argv[1:3]
    rng, count = random.Random(int(sys.argv[3])), int(sys.argv[4])
    equal, passed_over, done = {}, {}, 0
    while done < count:
        drives, total = [], 0
        while total < min(BATCH, count - done):
            drives.append(Drive(rng, "any" in sys.argv[5:]).lines)
            total += len(drives[-1])
        done += total
        lines = [line for drive in drives for line in rendered(drive)]
        if "script" in sys.argv[5:]:
            print(*lines, sep="\n")
            continue
        pairs = iter(list(zip(answers(oracle, lines), answers(ours, lines))))
        for drive in drives:
            for at, line in enumerate(drive):
                theirs, our = next(pairs)
                if theirs in ("overflow", "none"):
                    name = line.split()[0]
                    passed_over[name] = passed_over.get(name, 0) + 1
                elif theirs == our:
                    equal[kind_of(our)] = equal.get(kind_of(our), 0) + 1
                else:
                    told(oracle, ours, drive[:at + 1], (theirs, our))
                    print(f"{sum(equal.values())} equal before it, {sum(passed_over.values())} passed over")
                    sys.exit(1)
    if "script" in sys.argv[5:]:
        return
    for name in sorted({*equal, *passed_over}):
        print(f"{name}: {equal.get(name, 0)} equal, {passed_over.get(name, 0)} passed over")
    print(f"{sum(equal.values())} equal, {sum(passed_over.values())} passed over (overflow or no stair), 0 differ")


main()

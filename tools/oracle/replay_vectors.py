#!/usr/bin/env python3
"""Writes the scripts that `replay` is run on, and the original's answers to them.

    tools/oracle/replay_vectors.py ORACLE OUT_DIR [SEED]

ORACLE is replay-oracle as build.sh makes it; OUT_DIR gets the files stdin and stdout
(crates/replay in this repository). The lines follow from the seed, by default 1, and
from ORACLE's answers: frames are as large as an encoder would make them at the
quantizer that was chosen. A run in which ORACLE says 'overflow' is left out whole.
"""

import bisect
import pathlib
import random
import subprocess
import sys

sys.dont_write_bytecode = True
from replay_rules import CHANGE, DISTANCES  # noqa: E402
from rules import LEAST, MOST, ONE, blog64  # noqa: E402

BITS = (1 << 32) - 1
TICKETS = 1 << 64
SUBTYPES = range(4)
# The pixels to a bit at which an exponent and a first scale change, and one less.
ROWS = (0, 1, 2, 3, 4, 91, 92, 125, 126, 138, 139, 1000)
# Key interval and delay; an absent delay is 12, 13, 15 and 240 here.
TIMINGS = (
    (1, None), (9, None), (10, None), (10_000, None), (30, 12), (30, 19), (30, 20), (30, 21), (30, 22), (30, 24),
    (30, 240), (30, 1024),
)
GROUP = "pattern 8 9 9 9 9 9 9 9"
PYRAMID = "pattern 8 1 2 11 12 11 12 1 2 11 12 11 12"


def asked(oracle, lines):
    """The oracle's answers, one for each line."""
    done = subprocess.run([oracle], input="\n".join(lines) + "\n", capture_output=True, text=True, check=False)
    if done.returncode != 0:
        sys.exit(f"replay_vectors.py: {oracle}: status {done.returncode}: {done.stderr.strip()}")
    answers = done.stdout.splitlines()
    if len(answers) != len(lines):
        sys.exit(f"replay_vectors.py: {oracle}: {len(answers)} answers to {len(lines)} lines")
    return answers


def settings(size=(640, 360), rate=(25, 1), bitrate=1_000_000, depth=8, sampling=0, indexes=(0, None), timing=(240, 12),
             dropping=0):
    words = [*size, *rate, bitrate, depth, sampling, *indexes, *timing, dropping]
    return " ".join("-" if word is None else str(word) for word in words)


class Run:
    """One opening and what is asked behind it; the oracle is asked at every line, so that a line can follow from its answers."""

    def __init__(self, oracle, *first):
        self.oracle, self.lines, self.answers = oracle, [], []
        self.ticket, self.base = 0, None
        for line in first:
            self.put(line)

    def put(self, line):
        """The figures of the answer, by name."""
        self.lines.append(line)
        self.answers.append(asked(self.oracle, self.lines)[-1])
        return dict(word.split("=") for word in self.answers[-1].split() if "=" in word)

    def lost(self):
        return "overflow" in self.answers

    def choose(self, subtype, previous=None, mean=0):
        """The choice; its base is kept, as the one that an encoder would hand in next."""
        told = self.put(f"choose {subtype} {'-' if previous is None else previous} {mean}")
        if told:
            self.ticket, self.base = int(told["ticket"]), int(told["base"])
        return told

    def report(self, bits, shown=1, droppable=0, status=False):
        told = self.put(f"report {self.ticket} {max(0, min(BITS, bits))} {shown} {droppable}")
        if status:
            self.put("status")
        return told

    def status(self):
        return {name: int(figure) for name, figure in self.put("status").items()}

    def withdraw(self):
        self.put(f"withdraw {self.ticket}")


class Film:
    """How many bits a frame takes at a log quantizer: more for an intra frame, fewer for a later B frame, with noise."""

    def __init__(self, rng, pixels, noise=0.3):
        self.rng, self.noise = rng, noise
        self.logs = [rng.gauss(log, 0.5) + pixels.bit_length() for log in (1.5, 0.5, -0.3, -1.2)]

    def bits(self, subtype, log_q):
        log = self.logs[subtype] - 1.2 * int(log_q) / ONE + self.rng.gauss(0, self.noise)
        return int(2 ** max(-2, min(31.9, log)))


# ---- runs


def closed(_rng, oracle):
    """Calls before any opening, and after a refused one."""
    calls = ("status", "choose 0 - 0", "trial 0 1", "report 0 1 1 0", "withdraw 0", "show")
    return [Run(oracle, *calls, "open " + settings(size=(0, 1)), *calls)]


def figures(_rng, oracle):
    """The worked figures of the opening, of totals, of the cap and of dropping."""
    run = Run(oracle, "open " + settings(), "status", "choose 0 - 0", "report 1 100000 1 0", "status")
    capped = Run(oracle, "open " + settings())
    for _ in range(7):
        capped.choose(1)
        capped.report(0, status=True)
    runs = [run, capped]
    for bits in (279_888, 279_889):
        for dropping, droppable in ((1, 1), (1, 0), (0, 1)):
            dropped = Run(oracle, "open " + settings(dropping=dropping))
            dropped.choose(0)
            dropped.report(bits, 1, droppable, True)
            runs.append(dropped)
    return runs


def openings(rng, oracle):
    """Both sides of every question's bounds, and questions in their order."""
    lines = []
    for size in ((0, 1), (1, 0), (1, 1), (65_536, 65_536), (65_537, 1), (1, 65_537), (BITS, 1)):
        lines.append(settings(size=size))
    for rate in ((0, 1), (1, 0), (1_000_000, 1_000_000), (1_000_001, 1), (1, 1_000_001)):
        lines.append(settings(rate=rate))
    for bitrate in (0, 1, 1 << 31, BITS):
        lines.append(settings(bitrate=bitrate))
    lines.append(settings(rate=(1000, 1), bitrate=(1 << 31) - 1))
    lines += [settings(depth=depth) for depth in (0, 7, 8, 9, 10, 11, 12, 13, 255)]
    lines += [settings(sampling=sampling) for sampling in (0, 1, 2, 3, 4, 255)]
    for indexes in ((0, 0), (255, 255), (1, 0), (255, 254), (255, None), (100, 101)):
        lines.append(settings(indexes=indexes))
    for timing in ((0, None), (10_000, None), (10_001, None), (8, None), (9, None), (160, None), (161, None), (1, 11), (1, 12),
                   (1, 1024), (1, 1025), (1, BITS)):
        lines.append(settings(timing=timing))
    # a limit of 2^35, and one above it; a credit that is brought down to 2^46, and one brought up to 40
    lines.append(settings(rate=(1, 1), bitrate=(1 << 25) + 16, timing=(1, 1024)))
    lines.append(settings(rate=(1, 1), bitrate=((1 << 35) + 1) // 33 + 16, timing=(1, 33)))
    lines.append(settings(rate=(1, 1_000_000), bitrate=(1 << 31) - 1))
    lines.append(settings(rate=(1, 32_768), bitrate=(1 << 31) - 1))
    lines += [settings(rate=(1, 1), bitrate=bitrate) for bitrate in (39, 40, 41)]
    # each question before the next
    bad = dict(size=(0, 0), rate=(0, 0), bitrate=0, depth=9, sampling=4, indexes=(2, 1), timing=(0, 11))
    while bad:
        lines.append(settings(**bad))
        del bad[next(iter(bad))]
    lines.append(settings(rate=(1, 1), bitrate=(1 << 31) - 1, timing=(0, 1024)))
    return [Run(oracle, *["open " + line for line in lines], "status")]


def outlooks(rng, oracle):
    """Outlooks that are refused, which leave the one before; short, long, hidden and shown ones."""
    run = Run(oracle, GROUP, "open " + settings(timing=(240, 40)))
    counted = [
        "list", "list 4", "list 13", "list 16", "pattern", "pattern 9 5", "pattern 9 255", "pattern " + "9 " * 64 + "9",
        "pattern " + "4 " * 65, "list 12", "list 12 12 12 12 12", "list 0 1 2 3", "pattern 0 1 2 3", "pattern 12", "pattern 0 1 2 3 8",
        "list " + " ".join(str(rng.choice((1, 2, 3, 9, 10, 11, 12))) for _ in range(100)),
        "list " + "9 " * 39 + "11 10 8", "list " + "9 " * 40 + "11 10 8", "list " + "9 " * 38 + "11 2", "pattern " + "1 " * 63 + "9",
        "pattern " + "2 " * 60 + "12", "pattern 1 10 11 12", "list " + "3 " * 4095 + "11", "list " + "1 " * 4096 + "9", PYRAMID,
    ]
    for line in counted:
        run.put(line)
        told = run.choose(rng.randrange(4), None)
        if rng.random() < 0.5:
            run.report(int(1e5 * rng.random()))
        else:
            run.withdraw()
        run.base = int(told.get("base", 0))
    return [run]


def tickets(rng, oracle):
    """Every refusal of a call, and what it leaves; tickets that are stale, foreign and at the end of their numbers."""
    run = Run(oracle, GROUP, "open " + settings(dropping=1))

    def wrong(*numbers):
        for number in numbers:
            run.put(f"report {number % TICKETS} 1000 1 1")
            run.put(f"trial {number % TICKETS} 0")
            run.put(f"withdraw {number % TICKETS}")
    wrong(0, 1, -1)
    run.put("choose 4 - 0")
    run.put("choose 255 - 0")
    run.choose(1)
    run.put("status")
    run.put("choose 1 - 0")
    run.put("choose 4 - 0")
    run.put("show")
    wrong(0, 2, -1, TICKETS // 2 + 1)
    run.put("status")
    run.put("trial 1 0")
    run.put("trial 1 7000")
    run.put("trial 1 7000")
    run.put("status")
    run.put("show")
    run.choose(1)
    wrong(1, 3)
    run.put(f"trial {run.ticket} {BITS}")
    run.choose(2)
    run.report(0, status=True)
    run.choose(2)
    run.put(f"trial {run.ticket} 5000")
    run.put(f"trial {run.ticket} 0")
    run.put("status")
    run.report(5000, status=True)
    wrong(run.ticket)
    run.choose(1)
    run.put(f"trial {run.ticket} 1")
    run.withdraw()
    run.withdraw()
    run.put("status")
    run.choose(1)
    run.report(4000, 0, 0, True)
    run.choose(1)
    run.put(f"trial {run.ticket} 4000")
    run.put("choose 0 - 0")
    run.report(4000, 1, 1, True)
    # a new opening, and the numbers begin again
    run.put("open " + settings(dropping=1))
    run.put(f"withdraw {run.ticket}")
    run.choose(3)
    run.put("open " + settings(indexes=(9, 8)))
    run.put("status")
    run.put("open " + settings())
    run.put("show")
    run.put("status")
    return [run]


def stairs(_rng, oracle):
    """A stair that rises is refused, and the curve stays the model."""
    row = list(range(64, 0, -1))
    rising = [*row, *row, *row[:63], 3, *row]
    return [Run(oracle, "curve", "stair " + " ".join(map(str, rising)), GROUP, "open " + settings(), "choose 1 - 0", "report 1 9000 1 0", "status")]


def rows(rng, oracle):
    """A fresh controller on each side of every change of exponents, with every delay, depth and sampling."""
    runs = []
    for at, (pixels_to_a_bit, timing) in enumerate(zip(ROWS, TIMINGS)):
        credit = rng.randrange(2, 50) * 1024
        width = 64 if pixels_to_a_bit < 50 else 1024
        # the least number of pixels that falls into the row, or the greatest but for what the width leaves over
        height = pixels_to_a_bit * credit // width + (0 if pixels_to_a_bit in (2, 4, 92, 126, 139) else credit // width - 1)
        size = (width, max(1, height))
        run = Run(oracle, rng.choice((GROUP, PYRAMID)), "open " + settings(
            size, (25, 1), (credit + 16) * 25 + rng.randrange(25), (8, 10, 12)[at % 3], at // 3 % 4, (0, None), timing))
        film = Film(rng, size[0] * size[1])
        for subtype in SUBTYPES:
            told = run.choose(subtype, run.base, rng.choice((0, rng.randrange(-ONE, ONE))))
            if subtype % 2:
                run.put(f"trial {run.ticket} {max(1, film.bits(subtype, told['log_q']))}")
                told = run.choose(subtype, run.base)
            run.report(film.bits(subtype, told["log_q"]), status=subtype == 3)
        run.choose(1, run.base)
        run.withdraw()
        runs.append(run)
    return runs


def drive(rng, oracle, count, order, outlook, noise=0.3, droppable=0.0, means=0.0, previous=True, hidden=0.0, every=5, **words):
    """Frames of a film in an order of subtypes, with trials first, each handed the base of the one before."""
    size = words.get("size", (640, 360))
    run, film = Run(oracle, outlook, "open " + settings(**words)), Film(rng, size[0] * size[1], noise)
    seen = set()
    for turn in range(count):
        subtype = order[turn % len(order)]
        if subtype == 4:
            run.put("show")
            continue
        base, mean = run.base if previous else None, rng.randrange(-ONE, ONE) if rng.random() < means else 0
        if subtype not in seen:
            seen.add(subtype)
            told = run.choose(subtype, base, mean)
            run.put(f"trial {run.ticket} {max(1, film.bits(subtype, told['log_q']))}")
        told = run.choose(subtype, base, mean)
        if run.lost():
            return [run]
        run.report(film.bits(subtype, told["log_q"]), int(rng.random() >= hidden), int(rng.random() < droppable), turn % every == every - 1)
    return [run]


def drives(rng, oracle):
    """Films at every depth and sampling: short delays, delays that grow, dropping, hidden frames, large means."""
    pyramid = (0, 1, 2, 3, 4, 3, 4, 1, 2, 3, 4, 3, 4)
    runs = drive(rng, oracle, 30, (0, 1, 1, 1, 1), GROUP)
    runs += drive(rng, oracle, 26, pyramid, PYRAMID, depth=10, sampling=1, timing=(24, None), hidden=0.4, means=0.3)
    runs += drive(rng, oracle, 26, pyramid, PYRAMID, depth=12, sampling=2, timing=(60, 24), size=(1280, 720), bitrate=3_000_000)
    runs += drive(rng, oracle, 60, (1,), "pattern 9", sampling=3, timing=(240, None), every=20)
    runs += drive(rng, oracle, 40, (3, 2, 3), "pattern 10 11 11", sampling=2, timing=(60, 50), every=13, previous=False)
    runs += drive(rng, oracle, 30, (0, 1, 2, 3), "pattern 8 9 10 11", noise=1.5, droppable=0.7, dropping=1, sampling=1, every=2)
    runs += drive(rng, oracle, 24, (0,), "list " + "8 " * 20, noise=1.0, depth=10, sampling=3, rate=(30_000, 1001), indexes=(20, 200))
    runs += drive(rng, oracle, 24, (1, 2), "pattern 9 10", noise=1.0, depth=12, sampling=0, indexes=(0, 180), means=1.0, rate=(1, 2))
    return runs


def reservoirs(rng, oracle):
    """Full, nearly full, nearly empty and overdrawn reservoirs, where the soft and the hard limit move the log quantizer."""
    runs = []
    for at, (indexes, sampling, depth) in enumerate((((0, None), 0, 8), ((0, 255), 1, 10), ((10, None), 2, 12), ((60, 120), 3, 8))):
        run = Run(oracle, PYRAMID, "open " + settings(indexes=indexes, sampling=sampling, depth=depth, timing=(240, 12 + 9 * at)))
        film = Film(rng, 640 * 360)
        for subtype in SUBTYPES:
            told = run.choose(subtype)
            run.report(film.bits(subtype, told["log_q"]))
        held = run.status()
        credit, limit = held["credit"], held["limit"]
        margin = (limit + 31) >> 5
        soft = limit - margin - credit
        for fullness in (soft, soft + 1, soft + rng.randrange(2, margin), soft + margin, limit, 0, 1, -(credit >> 1), 1 - (credit >> 1),
                         -(credit >> 1) - rng.randrange(10**6)):
            # reports that bring the reservoir to that fullness
            held = run.status()
            need = fullness - held["fullness"]
            while need > 0 and need > credit:
                run.choose(1)
                run.report(0)
                need -= credit
            run.choose(3)
            run.report(-need if need <= 0 else credit - need, int(need > 0))
            for subtype in rng.sample(SUBTYPES, 2):
                previous = rng.choice((None, rng.randrange(-ONE, ONE), rng.randrange(5 * ONE, 9 * ONE)))
                run.choose(subtype, previous)
                run.withdraw()
            if fullness in (soft, soft + 1):
                # less than a bit is predicted here, so that a soft limit of one bit shows, and one of none
                run.choose(2, 20 * ONE)
                run.withdraw()
        run.put("status")
        runs.append(run)
    return runs


def overdrawn(rng, oracle):
    """Reports as large as can be, and choices with a negative total; then the way back up."""
    run = Run(oracle, GROUP, "open " + settings(timing=(240, 12), rate=(1, 10), bitrate=200_000_000))
    for _ in range(4):
        run.choose(rng.randrange(4), run.base)
        run.report(BITS, rng.randrange(2), 1, True)
    for _ in range(4):
        run.choose(rng.randrange(4), run.base)
        run.report(rng.choice((0, 1, 1000)), status=True)
    for _ in range(12):
        run.put("show")
    run.put("status")
    run.choose(1)
    return [run]


def previous_bases(rng, oracle):
    """The previous base's reach on both sides of the found base, at its ends, and far off."""
    run = Run(oracle, GROUP, "open " + settings(sampling=1, depth=10))
    told = run.choose(1)
    found = int(told["found"])
    run.withdraw()
    for offset in (0, CHANGE - 1, CHANGE, CHANGE + 1, 2 * ONE):
        for previous in (found - offset, found + offset):
            run.choose(rng.randrange(4), previous)
            run.withdraw()
    return [run]


def far(rng, oracle):
    """Previous bases and means as far off as the original bears them."""
    runs = []
    # at 48 and 61 sixty-fourths the power of any log quantizer stays within 64 bits
    for size, subtype in (((64, 16), 0), ((256, 16), 0), ((8192, 512), 3)):
        for previous in (LEAST + CHANGE, -50 * ONE, -40 * ONE, 40 * ONE, 50 * ONE, MOST - CHANGE):
            for mean in (0, min(MOST, -(previous // ONE) * ONE)):
                run = Run(oracle, "pattern 9 10", "open " + settings(size, bitrate=100_000, depth=10, sampling=3, indexes=(0, None)))
                run.choose(subtype, previous, mean)
                run.withdraw()
                runs.append(run)
    for mean in (LEAST, -40 * ONE, 30 * ONE, 50 * ONE, 53 * ONE, 54 * ONE, 55 * ONE, 56 * ONE, MOST):
        for depth, sampling in ((8, 3), (12, 0)):
            run = Run(oracle, GROUP, "open " + settings(depth=depth, sampling=sampling))
            run.choose(rng.randrange(2), None, mean)
            run.withdraw()
            runs.append(run)
    # counts as large as can be: with a highest index set the hard limit is not asked
    for at in range(12):
        run = Run(oracle, GROUP, "open " + settings(depth=10, indexes=(0, 255)))
        log_q = -(62 * ONE + at * ONE // 8 - 20 * ONE) * 64 // 104
        run.choose(1, log_q - CHANGE)
        run.report(1000, status=True)
        run.choose(1)
        run.withdraw()
        runs.append(run)
    return runs


def equalities(_rng, oracle):
    """Predictions that are equal to the soft or the hard limit, and one step on either side.

    They take a reservoir and a base whose logs agree in their lowest 33 digits, so that a scale in Q24 makes up the rest.
    """
    runs = []
    subtype, exp, credit, pixels = 3, 139, 1 << 30, 32 * ONE
    nearest = (DISTANCES[subtype] + 32) >> 6
    for full in (False, True):
        run = Run(oracle, "pattern 9 11", "open " + settings((65_536, 65_536), (1, 1), credit + 16, depth=10))
        for _ in range(6 * full):
            run.choose(1)
            run.report(0)
        held = run.status()
        limit = held["limit"] - (held["limit"] + 31 >> 5)
        bits = held["fullness"] + credit - limit if full else held["fullness"] + (credit >> 1)
        charge = next(x for x in range(1, 10_000) if (blog64(bits - x) - pixels + exp * nearest) % 64 == 0)
        rest = blog64(bits - charge) - pixels + exp * nearest
        steps = -(rest >> 6) * pow(exp, -1, 1 << 27) % (1 << 27)
        steps += ((ONE if full else 4 * ONE) - (steps << 12) >> 39) << 27
        scale = rest + 64 * exp * steps
        run.choose(1)
        run.report(charge, 0)
        told = run.choose(subtype, 5 * ONE)
        wanted = scale + pixels - ((int(told["log_q"]) + 32) >> 6) * exp
        run.put(f"trial {run.ticket} {bisect.bisect_left(range(1 << 32), wanted, key=blog64)}")
        found = int(run.choose(subtype)["found"])
        run.withdraw()
        for base in (steps - 1 << 12, steps << 12, steps + 1 << 12):
            run.choose(subtype, base - CHANGE if found > base else base + CHANGE)
            run.withdraw()
        runs.append(run)
    return runs


def indexes(rng, oracle):
    """Lowest and highest index: equal, neighbours, at the ends; each bound where it counts and where it does not."""
    runs = []
    for at, (lowest, highest) in enumerate((
        (0, 0), (255, 255), (255, None), (100, 100), (100, 101), (0, 1), (254, 255), (1, None), (60, None), (0, 90), (60, 200), (200, None),
    )):
        run = Run(oracle, PYRAMID, "open " + settings(
            depth=(8, 10, 12)[at % 3], sampling=at % 4, indexes=(lowest, highest), timing=(60, 13), bitrate=rng.choice((100_000, 1_000_000, 8_000_000))))
        film = Film(rng, 640 * 360)
        for subtype in (0, 1, 3, 2, 1):
            previous = rng.choice((None, run.base, -2 * ONE, 10 * ONE))
            told = run.choose(subtype, previous)
            run.report(film.bits(subtype, told["log_q"]))
        run.put("status")
        run.put("list")
        run.choose(1)
        run.report(film.bits(1, told["log_q"]))
        for previous in (-4 * ONE, 10 * ONE):
            run.choose(1, previous)
            run.withdraw()
        runs.append(run)
    return runs


def reach(_rng, oracle):
    """4:2:0 near the last entry, where chroma's AC index is brought up to 63 below luma's, and no mean and small ones."""
    runs = []
    for depth, index, subtype in ((8, 255, 1), (8, 235, 2), (8, 222, 3), (8, 215, 3), (10, 244, 2), (10, 228, 3), (12, 240, 2), (12, 226, 3), (12, 255, 1)):
        run = Run(oracle, GROUP, "open " + settings(depth=depth, indexes=(index, index)))
        for mean in (0, -ONE // 40, ONE // 20):
            run.choose(subtype, None, mean)
            run.withdraw()
        runs.append(run)
    return runs


def small(rng, oracle):
    """The least credit, one pixel, and scales that are cut at 16; shows whose bits are the total."""
    run = Run(oracle, "pattern 12", "open " + settings((1, 1), (1_000_000, 1), 1, timing=(1, None)))
    run.choose(0)
    for bits in (BITS, 1, 24, 100_000, 0):
        run.report(bits, status=True)
        run.choose(rng.randrange(4))
    run.withdraw()
    for _ in range(3):
        run.put("show")
    run.put(GROUP)
    run.choose(1)
    return [run]


def large(rng, oracle):
    """The greatest limit and the largest frame."""
    runs = []
    for subtype in (0, 1):
        run = Run(oracle, PYRAMID, "open " + settings((65_536, 65_536), (1, 1), (1 << 25) + 16, timing=(10_000, 1024), depth=12, sampling=2))
        for bits in (BITS, 1 << 25, 0, 1 << 24):
            run.choose(subtype, run.base)
            run.report(bits, status=True)
        run.choose(2, run.base)
        runs.append(run)
    return runs


def main():
    if len(sys.argv) not in (3, 4):
        sys.exit("use: replay_vectors.py ORACLE OUT_DIR [SEED]")
    oracle, out = sys.argv[1], pathlib.Path(sys.argv[2])
    seed = int(sys.argv[3]) if len(sys.argv) == 4 else 1
    rng = random.Random(seed)
    parts = (closed, figures, openings, outlooks, tickets, stairs, rows, drives, reservoirs, overdrawn, previous_bases, far, equalities, indexes, reach, small, large)
    runs = [run for part in parts for run in part(rng, oracle)]
    kept = [run for run in runs if not run.lost()]
    lines = [line for run in kept for line in run.lines]
    answers = asked(oracle, lines)
    if answers != [answer for run in kept for answer in run.answers]:
        sys.exit("replay_vectors.py: a run's answers depend on the runs before it")
    out.mkdir(parents=True, exist_ok=True)
    head = f"# Written by tools/oracle/replay_vectors.py with seed {seed}; the answers are those of rav1e 0.8.1.\n\n"
    (out / "stdin").write_text(head + "".join(line + "\n" for line in lines))
    (out / "stdout").write_text("".join(answer + "\n" for answer in answers))
    counts = {}
    for line in lines:
        counts[line.split()[0]] = counts.get(line.split()[0], 0) + 1
    for command, count in counts.items():
        print(f"{command}: {count}")
    print(f"{len(lines)} lines of {len(kept)} runs written, {len(runs) - len(kept)} runs left out (overflow)")


main()

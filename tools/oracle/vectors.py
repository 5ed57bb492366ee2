#!/usr/bin/env python3
"""Writes the questions that `qindex` is run on, and the original's answers to them.

    tools/oracle/vectors.py ORACLE OUT_DIR [SEED]

ORACLE is qindex-oracle as build.sh makes it; OUT_DIR gets the files stdin and
stdout (crates/qindex in this repository). The questions follow from the seed, by
default 1, and from the tables, which ORACLE is asked for. A question on which
ORACLE says 'overflow' is left out.
"""

import math
import pathlib
import random
import subprocess
import sys

LEAST, MOST = -(1 << 63), (1 << 63) - 1
ONE = 1 << 57
DEPTHS = (8, 10, 12)
NO_DEPTHS = (0, 9, 11, 255)
COLOUR, MONOCHROME = (0, 1, 2), 3
NO_SAMPLINGS = (4, 255)


def asked(oracle, lines):
    """The oracle's answers, one for each line."""
    done = subprocess.run([oracle], input="\n".join(lines) + "\n", capture_output=True, text=True, check=False)
    if done.returncode != 0:
        sys.exit(f"vectors.py: {oracle}: status {done.returncode}: {done.stderr.strip()}")
    answers = done.stdout.splitlines()
    if len(answers) != len(lines):
        sys.exit(f"vectors.py: {oracle}: {len(answers)} answers to {len(lines)} questions")
    return answers


def tables_from(oracle):
    tables = {}
    for kind in ("dc", "ac"):
        for depth in DEPTHS:
            lines = [f"{kind}_q {depth} {index}" for index in range(256)]
            tables[kind, depth] = [int(entry) for entry in asked(oracle, lines)]
    return tables


def logs(rng):
    """blog64: both ends, nothing, every power of two with its neighbours, every count of digits."""
    numbers = [LEAST, -rng.getrandbits(62), -1, 0, MOST - 1, MOST]
    for digits in range(63):
        power = 1 << digits
        numbers += [power - 1, power, power + 1]
        if digits > 1:
            numbers.append(rng.randrange(power, 2 * power))
    return [f"blog64 {n}" for n in numbers]


def powers(rng):
    """bexp64: both ends, every whole log with its neighbours, fractions, both sides of 31, 62 and 63."""
    numbers = [LEAST, -ONE, -rng.getrandbits(60), MOST]
    for whole in range(64):
        numbers += [whole * ONE - 1, whole * ONE, whole * ONE + 1]
    for whole in (0, 1, 15, 29, 30, 31, 32, 45, 60, 61, 62, 62, 63):
        numbers.append(whole * ONE + rng.randrange(2, ONE - 1))
    for bit in (8, 24, 40, 56):
        numbers.append(rng.randrange(64) * ONE + (1 << bit))
    return [f"bexp64 {x}" for x in numbers]


def entries(rng):
    """ac_q and dc_q: the first two, the last two, two between, and depths that there are not."""
    lines = []
    for kind in ("ac", "dc"):
        for depth in DEPTHS:
            for index in (0, 1, rng.randrange(2, 128), rng.randrange(128, 254), 254, 255):
                lines.append(f"{kind}_q {depth} {index}")
        lines += [f"{kind}_q {depth} {rng.randrange(256)}" for depth in NO_DEPTHS]
    return lines


def steps_near(rng, table):
    """Step sizes at every kind of place: below, equal, of equal entries, between, last, beyond."""
    steps = [LEAST, -rng.getrandbits(40), -1, 0, 1, table[0] - 1, table[0], table[1]]
    steps += [table[rng.randrange(2, 254)], table[254], table[255] - 1, table[255], table[255] + 1]
    steps += [65535, 65536, 65536 + table[100], (1 << 32) + table[100], MOST]
    twice = [low for low, high in zip(table, table[1:]) if low == high]
    steps += rng.sample(twice, min(6, len(twice)))
    gaps = [index for index in range(255) if table[index + 1] - table[index] > 2]
    exact = [index for index in range(255) if table[index] < table[index + 1] and squared(table, index)]
    for index in rng.sample(gaps, min(3, len(gaps))) + gaps[-1:] + exact:
        # the last one below the geometric mean, and the first one not below it
        middle = math.isqrt(table[index] * table[index + 1] - 1)
        steps += [middle, middle + 1]
    return steps


def squared(table, index):
    product = table[index] * table[index + 1]
    return math.isqrt(product) ** 2 == product


def selections(rng, tables):
    lines = []
    for kind in ("ac", "dc"):
        for depth in DEPTHS:
            steps = steps_near(rng, tables[kind, depth])
            lines += [f"select_{kind}_qi {depth} {q}" for q in dict.fromkeys(steps)]
        lines += [f"select_{kind}_qi {depth} {rng.randrange(4, 20000)}" for depth in NO_DEPTHS]
    return lines


def mean_of(rng):
    return rng.choice((0, rng.randrange(-ONE, ONE), rng.randrange(-3 * ONE, 3 * ONE)))


def quantizers(rng):
    """quantizer: each depth, sampling and kind of frame, over all logs; refusals."""
    lines = []

    def ask(log_q, depth, sampling, intra, mean):
        lines.append(f"quantizer {log_q} {depth} {sampling} {intra} {mean}")

    for depth in DEPTHS:
        for sampling in (*COLOUR, MONOCHROME):
            for intra in (0, 1):
                ask(rng.randrange(-ONE, 9 * ONE), depth, sampling, intra, 0)
                ask(rng.randrange(0, 8 * ONE), depth, sampling, intra, mean_of(rng))
        # the luma index is the least there is, and the chroma indexes are or are not
        ask(-5 * ONE, depth, rng.choice(COLOUR), 0, 0)
        ask(-ONE // 2 - (depth - 8) * ONE, depth, rng.choice(COLOUR), 1, 0)
        # 4:2:0 near the last entry: V's AC index is 63 below luma's
        for intra in (0, 1):
            ask(1126000000000000000 if intra or depth > 8 else 1096000000000000000, depth, 0, intra, 0)
        # the last index everywhere
        ask(20 * ONE, depth, rng.choice(COLOUR), 1, 0)
        # a log and a mean that make up for each other
        log_q = rng.randrange(20 * ONE, 40 * ONE)
        ask(log_q, depth, rng.choice(COLOUR), 1, rng.randrange(0, 8 * ONE) - log_q)
        # figures near the ends
        for log_q in (LEAST, LEAST // 2, -40 * ONE, 40 * ONE, 55 * ONE, MOST // 2):
            ask(log_q, depth, rng.choice((*COLOUR, MONOCHROME)), 1, 0)
            ask(log_q, depth, rng.choice((*COLOUR, MONOCHROME)), 0, mean_of(rng))
        ask(MOST, depth, 3, 1, LEAST)
        ask(LEAST, depth, 0, 1, MOST)
        for sampling in NO_SAMPLINGS:
            ask(rng.randrange(0, 8 * ONE), depth, sampling, rng.randrange(2), 0)
    for depth in NO_DEPTHS:
        ask(rng.randrange(0, 8 * ONE), depth, rng.choice((*COLOUR, MONOCHROME)), 1, 0)
        ask(rng.randrange(0, 8 * ONE), depth, rng.choice(NO_SAMPLINGS), 0, mean_of(rng))
    return lines


def main():
    if len(sys.argv) not in (3, 4):
        sys.exit("use: vectors.py ORACLE OUT_DIR [SEED]")
    oracle, out = sys.argv[1], pathlib.Path(sys.argv[2])
    seed = int(sys.argv[3]) if len(sys.argv) == 4 else 1
    rng = random.Random(seed)
    tables = tables_from(oracle)
    lines = logs(rng) + powers(rng) + entries(rng) + selections(rng, tables) + quantizers(rng)
    lines = list(dict.fromkeys(lines))
    pairs = [pair for pair in zip(lines, asked(oracle, lines)) if pair[1] != "overflow"]
    out.mkdir(parents=True, exist_ok=True)
    head = f"# Written by tools/oracle/vectors.py with seed {seed}; the answers are those of rav1e 0.8.1.\n\n"
    (out / "stdin").write_text(head + "".join(question + "\n" for question, _ in pairs))
    (out / "stdout").write_text("".join(answer + "\n" for _, answer in pairs))
    counts = {}
    for question, _ in pairs:
        counts[question.split()[0]] = counts.get(question.split()[0], 0) + 1
    for command, count in counts.items():
        print(f"{command}: {count}")
    print(f"{len(pairs)} questions written, {len(lines) - len(pairs)} left out (overflow)")


main()

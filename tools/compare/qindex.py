#!/usr/bin/env python3
"""Asks two programs the same random questions and stops at the first difference.

    tools/compare/qindex.py ORACLE OURS SEED COUNT

ORACLE is qindex-oracle as tools/oracle/build.sh makes it; OURS is our qindex, or
any program that reads the same lines. The questions follow from SEED alone, so a
run can be repeated. A question that ORACLE answers by 'overflow' (the original
loses bits there, and the rules differ from it on purpose) is counted and passed
over. The status is 0 if all other answers are equal, 1 at a difference, and 2 if
a program fails.
"""

import random
import subprocess
import sys

BATCH = 20_000
ONE = 1 << 57
LEAST, MOST = -(1 << 63), (1 << 63) - 1
DEPTHS = (8, 10, 12)


def signed(rng):
    """A signed 64-bit number; every count of binary digits is as likely."""
    size = rng.getrandbits(rng.randrange(64))
    return rng.choice((size, -size, LEAST, MOST)) if rng.random() < 0.05 else rng.choice((size, size, -size))


def near(rng, number):
    return max(LEAST, min(MOST, number + rng.choice((-2, -1, 0, 0, 1, 2))))


def log(rng):
    """A log: of a step size most of the time, else near a whole one, else any."""
    kind = rng.random()
    if kind < 0.6:
        return rng.randrange(-2 * ONE, 13 * ONE)
    if kind < 0.8:
        return near(rng, rng.randrange(-64, 64) * ONE)
    return signed(rng)


def mean(rng):
    kind = rng.random()
    if kind < 0.3:
        return 0
    return rng.randrange(-2 * ONE, 2 * ONE) if kind < 0.8 else signed(rng)


def depth(rng):
    return rng.choice(DEPTHS) if rng.random() < 0.98 else rng.randrange(256)


def sampling(rng):
    return rng.randrange(4) if rng.random() < 0.98 else rng.randrange(256)


def step(rng):
    kind = rng.random()
    if kind < 0.7:
        return int(2 ** rng.uniform(1, 15))
    return rng.randrange(0, 32_000) if kind < 0.9 else signed(rng)


def question(rng):
    command = rng.choice(
        ("blog64", "bexp64", "bexp64", "select_ac_qi", "select_dc_qi", "ac_q", "dc_q", "quantizer", "quantizer", "quantizer")
    )
    if command == "blog64":
        number = near(rng, 1 << rng.randrange(63)) if rng.random() < 0.2 else signed(rng)
        return f"blog64 {number}"
    if command == "bexp64":
        return f"bexp64 {rng.randrange(64) * ONE + rng.getrandbits(57) if rng.random() < 0.5 else log(rng)}"
    if command in ("ac_q", "dc_q"):
        return f"{command} {depth(rng)} {rng.randrange(256)}"
    if command == "quantizer":
        return f"quantizer {log(rng)} {depth(rng)} {sampling(rng)} {rng.randrange(2)} {mean(rng)}"
    return f"{command} {depth(rng)} {step(rng)}"


def answers(program, lines):
    try:
        done = subprocess.run(
            [program], input="\n".join(lines) + "\n", capture_output=True, text=True, check=False
        )
    except OSError as error:
        sys.exit(failed(f"{program}: {error}"))
    found = done.stdout.splitlines()
    if done.returncode != 0:
        sys.exit(failed(f"{program}: status {done.returncode}: {done.stderr.strip()}"))
    if len(found) != len(lines):
        sys.exit(failed(f"{program}: {len(found)} answers to {len(lines)} questions"))
    return found


def failed(why):
    print(f"qindex.py: {why}", file=sys.stderr)
    return 2


def main():
    if len(sys.argv) != 5:
        sys.exit(failed("use: qindex.py ORACLE OURS SEED COUNT"))
    oracle, ours = sys.argv[1:3]
    rng, count = random.Random(int(sys.argv[3])), int(sys.argv[4])
    equal = passed_over = 0
    while equal + passed_over < count:
        lines = [question(rng) for _ in range(min(BATCH, count - equal - passed_over))]
        for line, theirs, our in zip(lines, answers(oracle, lines), answers(ours, lines)):
            if theirs == "overflow":
                passed_over += 1
            elif theirs == our:
                equal += 1
            else:
                print(f"differs: {line}\noriginal: {theirs}\nours:     {our}")
                print(f"{equal} equal before it, {passed_over} passed over (overflow)")
                sys.exit(1)
    print(f"{equal} equal, {passed_over} passed over (overflow), 0 differ")


main()

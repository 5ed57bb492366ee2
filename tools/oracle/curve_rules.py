#!/usr/bin/env python3
"""Answers the lines of `lessons` by the rules, in Python's unbounded whole numbers.

    tools/oracle/curve_rules.py < LINES

It is a second writing of the curve model's rules, apart from our Rattle and from the
original, and it answers every line: also those on which the original loses bits,
where the rules hold a figure at the nearer end of signed 64 bits, and those that the
original has no answer to (refused settings, subtypes above 3, limits under 1).
"""

import sys

sys.dont_write_bytecode = True
from rules import ONE, bexp64, blog64, held  # noqa: E402

# The tangent of i times 5 degrees, in Q12.
TANGENTS = [
    0, 358, 722, 1098, 1491, 1910, 2365, 2868, 3437, 4096, 4881, 5850, 7094, 8784, 11254, 15286, 23230, 46817,
]
# For each subtype: the exponent in Q6 and the first scale in eighths, up to a number of pixels to a bit.
GUESSES = [
    ((1, 48, 36), (4, 61, 55), (None, 77, 129)),
    ((2, 69, 32), (139, 104, 84), (None, 83, 19)),
    ((2, 84, 30), (92, 120, 68), (None, 68, 4)),
    ((2, 87, 27), (126, 139, 84), (None, 61, 1)),
]
INTRA_DELAY, INTER_DELAY = 4, 10


def towards_zero(a, b):
    return a // b if a >= 0 else -(-a // b)


def low_32(a):
    return (a + (1 << 31)) % (1 << 32) - (1 << 31)


def gains(delay):
    """The follower's c0, c1 and g in Q24."""
    turn = (1 << 24) // delay * 36
    i = min(turn >> 24, 16)
    warp = max(1, TANGENTS[i] + ((TANGENTS[i + 1] - TANGENTS[i]) * 256 * (turn - (i << 24)) >> 32))
    k1 = 3 * warp
    k2 = k1 * warp
    a = (k2 << 23) // (((1 << 12) + k1 << 12) + k2 + 256 >> 9)
    b1 = 2 * a * ((1 << 48) // k2 - (1 << 24))
    b2 = (1 << 56) - (4 * a << 24) - b1
    return b1 + (1 << 31) >> 32, b2 + (1 << 31) >> 32, a + 128 >> 8


class Filter:
    def __init__(self, guesses, ratio, delay):
        _, self.exp, eighths = next(row for row in guesses if row[0] is None or ratio < row[0])
        self.delay = delay
        self.gains = gains(delay)
        self.begin(held(blog64(eighths) - 3 * ONE))

    def begin(self, scale):
        self.scale = scale
        self.x0 = self.x1 = self.y0 = self.y1 = (scale >> 32) + 1 >> 1

    def power(self, log_q):
        return held((held(log_q + 32) >> 6) * self.exp)

    def follow(self, scale):
        x = (scale >> 32) + 1 >> 1
        c0, c1, g = self.gains
        y = low_32((x + 2 * self.x0 + self.x1) * g + self.y0 * c0 + self.y1 * c1 + (1 << 23) >> 24)
        self.x0, self.x1, self.y0, self.y1 = x, self.x0, y, self.y0
        self.scale = held(y << 33)

    def root(self, power):
        return held(towards_zero(held(power + (self.exp >> 1)), self.exp) << 6)


class Curve:
    def __init__(self, pixels, credit, delay):
        self.log_pixels = blog64(pixels)
        self.target = delay >> 1
        self.filters = [
            Filter(guesses, pixels // credit, INTER_DELAY if subtype else INTRA_DELAY)
            for subtype, guesses in enumerate(GUESSES)
        ]

    def predict(self, subtype, log_q):
        if subtype > 3:
            return 0
        f = self.filters[subtype]
        return bexp64(held(held(f.scale + self.log_pixels) - f.power(log_q)))

    def learn(self, subtype, bits, log_q, trial, reports):
        if subtype > 3 or bits < 1:
            return
        f = self.filters[subtype]
        scale = min(held(held(blog64(bits) - self.log_pixels) + f.power(log_q)), 16 * ONE)
        if trial or reports == 0:
            f.begin(scale)
            return
        if subtype > 0 and f.delay < self.target and f.delay <= reports:
            f.delay += 1
            f.gains = gains(f.delay)
        f.follow(scale)

    def trim(self, subtype, log_q, fullness, credit, limit, highest):
        if subtype > 3 or limit < 1:
            return log_q
        f = self.filters[subtype]
        pixels = held(held(f.y0 << 33) + self.log_pixels)
        margin = held(limit + 31) >> 5
        soft = held(held(fullness + credit) - held(limit - margin))
        power = f.power(log_q)
        if soft > 0 and held(pixels - power) < blog64(soft):
            way = held(held(pixels - blog64(soft)) - power) >> 32
            share = held(min(margin, soft) << 32) // margin
            log_q = f.root(held(power + held(way * share)))
        hard = blog64(held(fullness + (credit >> 1)))
        if not highest and held(pixels - f.power(log_q)) > hard:
            log_q = f.root(held(pixels - hard))
        return log_q


def accepted(width, height, numerator, denominator, bitrate, depth, sampling, lowest, highest, interval, delay, _dropping):
    """Credit and delay of the settings, or the number of the first question that is answered by no."""
    asked = (
        1 <= width <= 65_536 and 1 <= height <= 65_536,
        1 <= numerator <= 1_000_000 and 1 <= denominator <= 1_000_000,
        1 <= bitrate < 1 << 31,
        depth in (8, 10, 12),
        sampling in range(4),
        lowest <= 255 and (highest is None or lowest <= highest <= 255),
        1 <= interval <= 10_000 and (delay is None or 12 <= delay <= 1024),
    )
    if False in asked:
        return asked.index(False) + 1
    credit = max(40, min(bitrate * denominator // numerator, 1 << 46)) - 16
    if delay is None:
        delay = max(12, min(240, interval * 3 // 2))
    return 8 if credit * delay > 1 << 35 else (credit, delay)


def opened(width, height, *others):
    """The curve of the settings, or the number of the first question that is answered by no."""
    figures = accepted(width, height, *others)
    return figures if isinstance(figures, int) else Curve(width * height, *figures)


def answer(curve, name, operands):
    if name == "learn":
        curve.learn(*operands)
        return "learn ok"
    return str(curve.predict(*operands) if name == "predict" else curve.trim(*operands))


def main():
    curve = None
    for line in sys.stdin:
        name, *words = line.split("#")[0].split() or [None]
        operands = [None if word == "-" else int(word) for word in words]
        if name == "curve":
            curve = opened(*operands)
            print(f"curve refused {curve}" if isinstance(curve, int) else "curve ok")
        elif name in ("predict", "learn", "trim"):
            print(answer(curve, name, operands))
        elif name is not None:
            sys.exit(f"curve_rules.py: no such line: {name}")


if __name__ == "__main__":
    main()

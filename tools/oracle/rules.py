#!/usr/bin/env python3
"""Answers the questions of `qindex` by the rules, in Python's unbounded whole numbers.

    tools/oracle/rules.py [--tables FILE] < QUESTIONS

It is a second writing of the rules, apart from our Rattle and from the original,
and it answers every question: also those on which the original loses bits, where
the rules hold a figure at the nearer end of signed 64 bits. FILE has the six
tables, in our layout (by default crates/tables/src/tables.rt) or in one of
another implementation's that tools/tables/compare.py reads.
"""

import argparse
import bisect
import decimal
import pathlib
import sys

sys.dont_write_bytecode = True
sys.path.insert(0, str(pathlib.Path(__file__).resolve().parent.parent / "tables"))
import compare  # noqa: E402

LEAST, MOST = -(1 << 63), (1 << 63) - 1
ONE = 1 << 57  # a log has 2^57 steps to a doubling
EXACT = 1 << 53
SAMPLINGS = range(4)  # 4:2:0, 4:2:2, 4:4:4, monochrome
MONOCHROME = 3

ATANH_LOG2 = [
    0x32B803473F7AD0F4, 0x2F2A71BD4E25E916, 0x2E68B244BB93BA06, 0x2E39FB9198CE62E4,
    0x2E2E683F68565C8F, 0x2E2B850BE2077FC1, 0x2E2ACC58FE7B78DB, 0x2E2A9E2DE52FD5F2,
    0x2E2A92A338D53EEC, 0x2E2A8FC08F5E19B6, 0x2E2A8F07E51A485E, 0x2E2A8ED9BA8AF388,
    0x2E2A8ECE2FE7384A, 0x2E2A8ECB4D3E4B1A, 0x2E2A8ECA94940FE8, 0x2E2A8ECA6669811D,
    0x2E2A8ECA5ADEDD6A, 0x2E2A8ECA57FC347E, 0x2E2A8ECA57438A43, 0x2E2A8ECA57155FB4,
    0x2E2A8ECA5709D510, 0x2E2A8ECA5706F267, 0x2E2A8ECA570639BD, 0x2E2A8ECA57060B92,
    0x2E2A8ECA57060008, 0x2E2A8ECA5705FD25, 0x2E2A8ECA5705FC6C, 0x2E2A8ECA5705FC3E,
    0x2E2A8ECA5705FC33, 0x2E2A8ECA5705FC30, 0x2E2A8ECA5705FC2F, 0x2E2A8ECA5705FC2F,
]
# The turns' steps: 3, 12 and 39 come twice.
STEPS = [*range(0, 4), *range(3, 13), *range(12, 40), *range(39, 62)]
EXP_TURNS, TAIL_TURNS = 34, 30
EXP_START = 0x26A3D0E401DD846D

MODEL_ADD = [-0x244FE7ECB3DD90, -0x3741DA38AD0924, -0x7083BDA626311C, 0]
MODEL_MUL = [0x8A050DD, 0x8877666, 0x8D4A712, 0]
OFFSET_U, OFFSET_V = 0x19D5D9FD5010B37, 0xA4D3C25E68DC58


def held(a):
    return max(LEAST, min(MOST, a))


def atanh(i):
    return ATANH_LOG2[min(i, 31)]


def along(sign, a):
    return -a if sign < 0 else a


def turned(k, z):
    """z after turn k; it doubles unless the step comes again."""
    z -= along(z, atanh(STEPS[k]))
    return z if STEPS[k + 1] == STEPS[k] else z * 2


def bexp64(x):
    ipart = x >> 57
    if ipart < 0:
        return 0
    if ipart >= 63:
        return MOST
    z = x - ipart * ONE
    if z == 0:
        w = 1 << 62
    else:
        z, w, tail = z << 5, EXP_START, 0
        for k in range(EXP_TURNS):
            w += along(z, w >> (STEPS[k] + 1))
            z = turned(k, z)
        if ipart > 30:
            for k in range(EXP_TURNS, EXP_TURNS + TAIL_TURNS):
                tail += along(z, w >> STEPS[k])
                z = turned(k, z)
        w = held(held(w * 2) + tail)
    return ((w >> (61 - ipart)) + 1) >> 1 if ipart < 62 else w


def blog64(n):
    if n <= 0:
        return -1
    ipart = n.bit_length() - 1
    w = n >> (ipart - 61) if ipart > 61 else n << (61 - ipart)
    if w == 1 << 61:
        return ipart * ONE
    x, y, z = w + (1 << 61), w - (1 << 61), 0
    for i in STEPS:
        z += along(y, atanh(i) >> i)
        x, y = x - along(y, y >> (i + 1)), y - along(y, x >> (i + 1))
    return ipart * ONE + ((z + 8) >> 4)


def select(q, table):
    """The index nearest to q in the log domain; of equal entries the lowest."""
    if q < table[0]:
        return 0
    if q >= table[255]:
        return 255
    at = bisect.bisect_left(table, q)
    if table[at] == q or q * q >= table[at - 1] * table[at]:
        return at
    return at - 1


def chroma_lowering(x, sampling):
    if sampling == 0:
        return (x >> 2) + (x >> 6)
    if sampling == 1:
        return (x >> 3) + (x >> 4) - (x >> 7)
    if sampling == 2:
        return (x >> 4) + (x >> 5) + (x >> 8)
    return 0


def scale_of(log_q, plane_log_q):
    return min(bexp64(held(held(held(log_q - plane_log_q) * 2) + 16 * ONE)), EXACT) / 65536


def parameters(tables, log_q, depth, sampling, intra, mean):
    """The six indexes before they are kept near the luma index, and the three scales."""
    scale = held(mean + (depth - 5) * ONE)
    log_y = log_q
    if not intra and depth == 8:
        log_y = held(held(log_q + held((log_q >> 32) * MODEL_MUL[sampling])) + MODEL_ADD[sampling])
    lowering = chroma_lowering(max(held(log_y + mean), 0), sampling)
    logs = [log_y] + [held(log_y + held(offset - lowering)) for offset in (OFFSET_U, OFFSET_V)]
    steps = [bexp64(held(log + scale)) for log in logs]
    dc = [select(step, tables["dc", depth]) for step in steps]
    ac = [select(step, tables["ac", depth]) for step in steps]
    return dc, ac, [scale_of(log_q, log) for log in logs]


def quantizer(tables, log_q, depth, sampling, intra, mean):
    dc, ac, scales = parameters(tables, log_q, depth, sampling, intra, mean)
    base = max(ac[0], 1)
    dc = [min(max(index, base - 63, 1), base + 63, 255) for index in dc]
    ac = [base] + [min(max(index, base - 63, 1), base + 63, 255) for index in ac[1:]]
    if sampling == MONOCHROME:
        dc[1:], ac[1:], scales = [0, 0], [0, 0], scales[:1]
    return dc, ac, scales


def shown(scale):
    """As Rust prints an f64 by {}: the fewest digits that read back as it, no exponent.

    Where two such texts are equally near, Rust takes the larger one; Python's own
    repr takes the even one, so it does not do here.
    """
    exact = decimal.Decimal(scale)
    for digits in range(1, 18):
        near = decimal.Context(prec=digits, rounding=decimal.ROUND_HALF_UP).plus(exact)
        if float(near) == scale:
            return format(near, "f")
    raise AssertionError("17 digits tell every f64")


def joined(values):
    return ",".join(str(value) for value in values)


def answer(tables, words):
    command, operands = words[0], [int(word) for word in words[1:]]
    if command == "blog64":
        return str(blog64(*operands))
    if command == "bexp64":
        return str(bexp64(*operands))
    depth = operands[1] if command == "quantizer" else operands[0]
    if depth not in compare.DEPTHS:
        return "refused 4"
    if command in ("ac_q", "dc_q"):
        return str(tables[command[:2], depth][operands[1]])
    if command in ("select_ac_qi", "select_dc_qi"):
        return str(select(operands[1], tables[command[7:9], depth]))
    if command == "quantizer":
        if operands[2] not in SAMPLINGS:
            return "refused 5"
        dc, ac, scales = quantizer(tables, *operands)
        return f"dc={joined(dc)} ac={joined(ac)} scales={joined(map(shown, scales))}"
    sys.exit(f"rules.py: no such question: {command}")


def tables_of(path):
    code = str(path).endswith(".rt")
    return compare.read(path, compare.from_code if code else compare.from_other)


def main():
    parser = argparse.ArgumentParser(description="Answers the questions of qindex by the rules.")
    parser.add_argument("--tables", default=compare.ROOT / "crates/tables/src/tables.rt")
    tables = tables_of(parser.parse_args().tables)
    for line in sys.stdin:
        words = line.split("#")[0].split()
        if words:
            print(answer(tables, words))


if __name__ == "__main__":
    main()

#!/usr/bin/env python3
"""Cuts the functions to compare with out of rav1e 0.8.1 and lays them beside our driver.

    tools/oracle/assemble.py RAV1E_DIR OUT_DIR

It writes three Rust programs, each in two ways, which build.sh compiles:

    OUT_DIR/plain/             the original's functions as they are, but for visibility
    OUT_DIR/checked/           the same with the edits of CHECKED below, so that a figure
                               which would lose bits stops the question
    OUT_DIR/lessons/plain/     the parts of the rate control that are its curve model
    OUT_DIR/lessons/checked/   the same with the edits of CHECKED in curve_pieces.py
    OUT_DIR/replay/plain/      the whole one-pass rate control, with probes
    OUT_DIR/replay/checked/    the same with the edits of both

Nothing of the original is kept in this repository: every piece is read from
RAV1E_DIR when this is run. A piece that is not found, or an edit whose text does
not stand there as often as expected, ends the run with status 1.
"""

import pathlib
import sys

import curve_pieces
import replay_pieces
from cutting import Missing, edited_all, piece, read, sources, write

# ---- what is cut

LOGEXP = [("fn", "q57"), ("const", "ATANH_LOG2"), ("fn", "bexp64"), ("fn", "blog64")]
QUANTIZE = [("fn", "dc_q"), ("fn", "ac_q"), ("fn", "select_qi"), ("fn", "select_dc_qi"), ("fn", "select_ac_qi")]
RATE = [
    ("const", "FRAME_NSUBTYPES"), ("const", "QSCALE"), ("const", "MQP_Q12"), ("const", "DQP_Q57"),
    ("const", "Q_MODEL_ADD"), ("const", "Q_MODEL_MUL"), ("const", "Q57_SQUARE_EXP_SCALE"),
    ("struct", "QuantizerParameters"), ("fn", "chroma_offset"),
]
# The two functions of rate.rs that stand in an impl, and the type that the impl is of.
METHODS = [("QuantizerParameters", "new_from_log_q"), ("RCState", "calc_flat_quantizer")]

# ---- what is edited, in both programs: test calls

VISIBLE = {
    "rate.rs": [
        ("  fn new_from_log_q(", "  pub fn new_from_log_q(", 1,
         "the driver calls it"),
        ("  fn calc_flat_quantizer(", "  pub fn calc_flat_quantizer(", 1,
         "a driver can call it"),
    ],
}

# ---- what is edited in the checked program only

CHECKED = {
    "logexp.rs": [
        ("(v as i64) << 57", "crate::checks::shl(v as i64, 57)", 1,
         "a left shift drops top bits without a panic, also in a debug build"),
        ("z <<= 5;", "z = crate::checks::shl(z, 5);", 1,
         "the same"),
        ("n << (61 - ipart)", "crate::checks::shl(n, (61 - ipart) as u32)", 1,
         "the same"),
        ("w = (w << 1) + (wlo as i64);", "w = crate::checks::shl(w, 1) + (wlo as i64);", 1,
         "the same"),
        ("wlo += (((w >> i) + mask) ^ mask) as i32;",
         "wlo += crate::checks::narrow(((w >> i) + mask) ^ mask);", 2,
         "`as i32` drops top bits without a panic"),
    ],
    "quantize.rs": [
        ("""match qlookup
      .binary_search(&NonZeroU16::new(quantizer as u16).expect("Not zero"))
    {""",
         """match crate::checks::lowest(
      qlookup,
      NonZeroU16::new(quantizer as u16).expect("Not zero"),
    ) {""", 1,
         "binary_search leaves open which of several equal entries it finds: the lowest index is the rule"),
    ],
    "rate.rs": [
        ("bexp64((log_target_q - q) * 2 + q57(16)) as f64 / 65536.",
         "crate::checks::exact(bexp64((log_target_q - q) * 2 + q57(16))) / 65536.", 1,
         "`as f64` rounds beyond 2^53: such a scale is marked (NaN), and the driver looks at the marks that it prints"),
        ("(log_target_q + log_isqrt_mean_scale) as f64",
         "log_target_q.wrapping_add(log_isqrt_mean_scale) as f64", 1,
         "lambda is no part of an answer, so its own sum shall not stop the question"),
    ],
}


def assembled(folder):
    """The files of the plain program, by name."""
    logexp, quantize, rate = (read(folder, name) for name in ("util/logexp.rs", "quantize/mod.rs", "rate.rs"))
    methods = [
        f"impl {owner} {{\n{piece(rate, 'rate.rs', 'fn', name)}\n}}" for owner, name in METHODS
    ]
    files = {
        "logexp.rs": [piece(logexp, "util/logexp.rs", *what) for what in LOGEXP],
        "quantize.rs": [
            '#[path = "tables.rs"]\nmod tables;',
            "use std::num::NonZeroU16;\nuse tables::*;",
        ] + [piece(quantize, "quantize/mod.rs", *what) for what in QUANTIZE],
        "tables.rs": [read(folder, "quantize/tables.rs")],
        "rate.rs": [
            "use crate::logexp::{bexp64, blog64, q57};",
            "use crate::quantize::{ac_q, dc_q, select_ac_qi, select_dc_qi};",
            "use crate::ChromaSampling;",
            "pub struct RCState;",
        ] + [piece(rate, "rate.rs", *what) for what in RATE] + methods,
    }
    return edited_all({name: "\n\n".join(parts) + "\n" for name, parts in files.items()}, VISIBLE)


def main():
    if len(sys.argv) != 3:
        sys.exit("use: assemble.py RAV1E_DIR OUT_DIR")
    try:
        folder = sources(pathlib.Path(sys.argv[1]))
        plain = assembled(folder)
        checked = edited_all(plain, CHECKED)
        plain_curve = curve_pieces.assembled(folder)
        checked_curve = edited_all(edited_all(plain_curve, {"logexp.rs": CHECKED["logexp.rs"]}), curve_pieces.CHECKED)
        plain_replay = replay_pieces.assembled(folder, plain)
        checked_replay = edited_all(plain_replay, {
            "logexp.rs": CHECKED["logexp.rs"] + curve_pieces.LOGEXP_SHIFTS,
            "quantize.rs": CHECKED["quantize.rs"],
            "rate.rs": CHECKED["rate.rs"] + curve_pieces.RATE_SHIFTS,
        })
    except Missing as missing:
        sys.exit(f"assemble.py: {missing}")
    out = pathlib.Path(sys.argv[2])
    write(out / "plain", plain, "qindex.rs")
    write(out / "checked", checked, "qindex.rs")
    write(out / "lessons" / "plain", plain_curve, "curve.rs")
    write(out / "lessons" / "checked", checked_curve, "curve.rs")
    write(out / "replay" / "plain", plain_replay, "replay.rs", "probe.rs")
    write(out / "replay" / "checked", checked_replay, "replay.rs", "probe.rs")


main()

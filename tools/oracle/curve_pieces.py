"""What is cut out of rav1e 0.8.1 for the curve model, and what is edited in it.

The rate control's state is taken whole, with `new` and `update_state`. `select_qi`
searches a base quantizer before it trims it, so of this one fragments are taken:
what it predicts, and its soft and hard limit. assemble.py writes the programs.
"""

from cutting import between, edited_all, piece, read

LOGEXP = [
    ("fn", "q57"), ("const", "ATANH_LOG2"), ("fn", "bexp64"), ("fn", "blog64"),
    ("fn", "q57_to_q24"), ("fn", "q24_to_q57"), ("fn", "bexp_q24"),
]
RATE = [
    ("const", "FRAME_NSUBTYPES"), ("const", "FRAME_SUBTYPE_SEF"),
    ("const", "PASS_SINGLE"), ("const", "PASS_1"), ("const", "PASS_2"), ("const", "PASS_2_PLUS_1"),
    ("const", "TWOPASS_HEADER_SZ"), ("const", "SEF_BITS"), ("const", "QSCALE"), ("const", "INTER_DELAY_TARGET_MIN"),
    ("const", "ROUGH_TAN_LOOKUP"), ("struct", "IIRBessel2"), ("fn", "warp_alpha"),
    ("fn", "iir_bessel2_get_parameters"), ("impl", "IIRBessel2"),
    ("struct", "RCFrameMetrics"), ("impl", "RCFrameMetrics"), ("struct", "RCDeserialize"),
    ("impl", "Default for RCDeserialize"), ("struct", "RCState"),
]
ENCODER = [("static", "TEMPORAL_DELIMITER")]
METHODS = ["update_state", "needs_trial_encode"]

# Fragments of select_qi: where each begins, and what follows it.
PREDICT = ("bexp64(\n              log_scale[ftj] + self.log_npixels", ";\n        }\n        // The number of bits for Show Existing Frame")
SCALE = ("let mut log_cur_scale = ", "match self.twopass_state {")
TRIM = ("if self.cap_overflow {", "if let Some(qi_max) = self.maybe_ac_qi_max {")

# Around the pieces, our own: what the driver calls, and what stands in for parts that one pass never reaches.
# A lesson is given to update_state as a frame that is neither shown nor droppable, with a bias of 0 and the reservoir
# at its target, so that what it does beside the lesson loses no bits.
CALLS = """
impl RCState {{
  pub fn predict(&self, ftj: usize, log_q: i64) -> i64 {{
    let log_scale = self.log_scale;
    {predict}
  }}

  pub fn learn(&mut self, fti: usize, bits: i64, log_q: i64, trial: bool, reports: i32) {{
    self.nframes[fti] = reports;
    self.reservoir_fullness = self.reservoir_target;
    self.rate_bias = 0;
    self.update_state(bits, fti, false, log_q, trial, false);
  }}

  pub fn set_reservoir(&mut self, fullness: i64, credit: i64, limit: i64, highest: Option<u8>) {{
    self.reservoir_fullness = fullness;
    self.bits_per_tu = credit;
    self.reservoir_max = limit;
    self.maybe_ac_qi_max = highest;
  }}

  pub fn trim(&self, fti: usize, mut log_q: i64) -> i64 {{
    {scale}
    {trim}
    log_q
  }}

  fn twopass_in(&mut self, _: Option<&[u8]>) -> Result<usize, String> {{
    unreachable!()
  }}
}}

fn clamp<T: Ord>(input: T, min: T, max: T) -> T {{
  input.clamp(min, max)
}}
"""

# ---- what is edited in both programs

VISIBLE = {
    "rate.rs": [
        ("      assert!(self.needs_trial_encode(fti));\n", "", 1,
         "a model takes a trial after any number of reports; it is the controller that refuses one"),
    ],
}

# ---- what is edited in the checked program only, beside the edits of bexp64 and blog64

LOGEXP_SHIFTS = [
    ("(v as i64) << 33", "crate::checks::shl(v as i64, 33)", 1,
     "a left shift drops top bits without a panic, also in a debug build"),
]
RATE_SHIFTS = [
    ("(((t1 - t0) << 8) as i64)", "crate::checks::shl((t1 - t0) as i64, 8)", 1,
     "the slope is kept whole: a shift by 8 in 16 bits cuts its top"),
    ("((t0 as i64) << 32)", "crate::checks::shl(t0 as i64, 32)", 1,
     "a left shift drops top bits"),
    ("(((1 << 12) + k1) << 12)", "crate::checks::shl((1 << 12) + k1, 12)", 1,
     "the same"),
    ("(k2 << 23)", "crate::checks::shl(k2, 23)", 1,
     "the same"),
    ("((4 * a) << 24)", "crate::checks::shl(4 * a, 24)", 1,
     "the same"),
    ("(self.scalefilter[fti].y[0] as i64) << 33", "crate::checks::shl(self.scalefilter[fti].y[0] as i64, 33)", 1,
     "the same"),
    ("(margin.min(soft_limit) << 32)", "crate::checks::shl(margin.min(soft_limit), 32)", 1,
     "the same"),
    ("((log_q_exp + (exp >> 1)) / exp) << 6", "crate::checks::shl((log_q_exp + (exp >> 1)) / exp, 6)", 2,
     "the same"),
]
CHECKED = {
    "logexp.rs": LOGEXP_SHIFTS,
    "rate.rs": RATE_SHIFTS + [
        ("bexp64(prev_log_scale + self.log_npixels - log_q_exp)", "(0, prev_log_scale).0", 1,
         "the estimate is no part of a lesson, so its own sums shall not stop the lesson"),
    ],
}


def assembled(folder):
    """The files of the plain program, by name."""
    logexp, encoder, rate = (read(folder, name) for name in ("util/logexp.rs", "encoder.rs", "rate.rs"))
    # QuantizerParameters and RCFrameMetrics have a `new` too: the one to take is that of RCState.
    state = between(rate, "rate.rs", "impl RCState {", "pub(crate) fn select_first_pass_qi(")
    methods = [piece(state, "rate.rs", "fn", "new")] + [piece(rate, "rate.rs", "fn", name) for name in METHODS]
    select_qi = piece(rate, "rate.rs", "fn", "select_qi")
    calls = CALLS.format(
        predict=between(select_qi, "rate.rs", *PREDICT),
        scale=between(select_qi, "rate.rs", *SCALE),
        trim=between(select_qi, "rate.rs", *TRIM),
    )
    files = {
        "logexp.rs": [piece(logexp, "util/logexp.rs", *what) for what in LOGEXP],
        "rate.rs": [
            "use crate::logexp::{bexp64, bexp_q24, blog64, q24_to_q57, q57, q57_to_q24};",
        ] + [piece(encoder, "encoder.rs", *what) for what in ENCODER]
        + ["#[derive(Copy, Clone)]\n" * (what == ("struct", "RCFrameMetrics")) + piece(rate, "rate.rs", *what) for what in RATE]
        + ["impl RCState {\n" + "\n\n".join(methods) + "\n}", calls],
    }
    return edited_all({name: "\n\n".join(parts) + "\n" for name, parts in files.items()}, VISIBLE)

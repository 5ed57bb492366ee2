"""What is cut out of rav1e 0.8.1 for the whole one-pass rate control, and what is edited in it.

The rate control's state is taken whole, with `new`, `select_qi`, `update_state` and
what these call. assemble.py writes the programs.
"""

import curve_pieces
from cutting import between, edited_all, piece, read

RATE = [
    ("const", "FRAME_NSUBTYPES"), ("const", "FRAME_SUBTYPE_I"), ("const", "FRAME_SUBTYPE_SEF"),
    ("const", "PASS_SINGLE"), ("const", "PASS_1"), ("const", "PASS_2"), ("const", "PASS_2_PLUS_1"),
    ("const", "TWOPASS_HEADER_SZ"), ("const", "SEF_BITS"), ("const", "QSCALE"), ("const", "INTER_DELAY_TARGET_MIN"),
    ("const", "MQP_Q12"), ("const", "DQP_Q57"), ("const", "Q_MODEL_ADD"), ("const", "Q_MODEL_MUL"),
    ("const", "ROUGH_TAN_LOOKUP"), ("struct", "IIRBessel2"), ("fn", "warp_alpha"),
    ("fn", "iir_bessel2_get_parameters"), ("impl", "IIRBessel2"),
    ("struct", "RCFrameMetrics"), ("impl", "RCFrameMetrics"), ("struct", "RCDeserialize"),
    ("impl", "Default for RCDeserialize"), ("struct", "RCState"),
    ("struct", "QuantizerParameters"), ("const", "Q57_SQUARE_EXP_SCALE"), ("fn", "chroma_offset"),
    ("impl", "QuantizerParameters"),
]
METHODS = ["select_first_pass_qi", "select_qi", "calc_flat_quantizer", "update_state", "needs_trial_encode"]

# Around the pieces, our own: what the driver reads and sets, and what stands in for parts that one pass never reaches.
CALLS = """
impl RCState {
  pub fn set_drop_frames(&mut self, on: bool) {
    self.drop_frames = on;
  }

  pub fn fullness(&self) -> i64 {
    self.reservoir_fullness
  }

  pub fn credit(&self) -> i64 {
    self.bits_per_tu
  }

  pub fn limit(&self) -> i64 {
    self.reservoir_max
  }

  pub fn bias(&self) -> i64 {
    self.rate_bias
  }

  pub fn coded(&self) -> i64 {
    self.nencoded_frames
  }

  fn twopass_in(&mut self, _: Option<&[u8]>) -> Result<usize, String> {
    unreachable!()
  }
}
"""

# ---- what is edited in both programs: what the answers have and the original keeps to itself

VISIBLE = {
    "rate.rs": [
        ("      while log_qlo < log_qhi {\n", "      while log_qlo < log_qhi {\n        crate::probe::compared();\n", 1,
         "the middles that are compared are counted"),
        ("      if let Some(prev_log_base_q) = maybe_prev_log_base_q {\n",
         "      crate::probe::found(log_base_q, rate_total);\n"
         "      if let Some(prev_log_base_q) = maybe_prev_log_base_q {\n", 1,
         "the found base and the total are kept"),
        ("        self.reservoir_fullness -= bits;\n",
         "        crate::probe::charged(bits);\n        self.reservoir_fullness -= bits;\n", 1,
         "the charge is kept"),
    ],
}


def assembled(folder, quantizer):
    """The files of the plain program, by name; `quantizer` has the files of `qindex`."""
    logexp, encoder, rate = (read(folder, name) for name in ("util/logexp.rs", "encoder.rs", "rate.rs"))
    # QuantizerParameters and RCFrameMetrics have a `new` too: the one to take is that of RCState.
    state = between(rate, "rate.rs", "impl RCState {", "pub(crate) fn select_first_pass_qi(")
    methods = [piece(state, "rate.rs", "fn", "new")] + [piece(rate, "rate.rs", "fn", name) for name in METHODS]
    files = {
        "logexp.rs": [piece(logexp, "util/logexp.rs", *what) for what in curve_pieces.LOGEXP],
        "rate.rs": [
            "use crate::logexp::{bexp64, bexp_q24, blog64, q24_to_q57, q57, q57_to_q24};",
            "use crate::quantize::{ac_q, dc_q, select_ac_qi, select_dc_qi};",
            "use crate::{clamp, ChromaSampling, ContextInner, Pixel};\nuse std::cmp;",
        ] + [piece(encoder, "encoder.rs", *what) for what in curve_pieces.ENCODER]
        + ["#[derive(Copy, Clone)]\n" * (what == ("struct", "RCFrameMetrics")) + piece(rate, "rate.rs", *what) for what in RATE]
        + ["impl RCState {\n" + "\n\n".join(methods) + "\n}", CALLS],
    }
    texts = edited_all({name: "\n\n".join(parts) + "\n" for name, parts in files.items()}, VISIBLE)
    return texts | {name: quantizer[name] for name in ("quantize.rs", "tables.rs")}

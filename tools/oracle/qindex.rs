// Answers the questions of `qindex` by the original's functions, one to a line.
//
// assemble.py lays this file beside the pieces that it cuts out of rav1e's
// sources; build.sh compiles them in three ways. With `--cfg plain` the original
// is unedited: a panic is told, all three scales are printed, and a depth goes
// to the original as it stands. Without it the answers are those to compare
// with: `refused N` for a depth or a sampling that there is not, and `overflow`
// for a question on which the original would lose bits.
#![allow(non_upper_case_globals, dead_code)]

mod checks;
mod logexp;
mod quantize;
mod rate;

use std::io::{self, BufWriter, Read, Write};
use std::panic;
use std::process::ExitCode;
use std::str::FromStr;
use std::sync::Mutex;

const PLAIN: bool = cfg!(plain);

/// What the last panic said.
static SAID: Mutex<String> = Mutex::new(String::new());

/// Stands in for the original's enum, with its order.
#[derive(Clone, Copy, PartialEq, Eq)]
pub enum ChromaSampling {
  Cs420,
  Cs422,
  Cs444,
  Cs400,
}

const SAMPLINGS: [ChromaSampling; 4] = [
  ChromaSampling::Cs420,
  ChromaSampling::Cs422,
  ChromaSampling::Cs444,
  ChromaSampling::Cs400,
];

enum Question {
  Blog64(i64),
  Bexp64(i64),
  AcQ(u8, u8),
  DcQ(u8, u8),
  SelectAcQi(u8, i64),
  SelectDcQi(u8, i64),
  Quantizer { log_q: i64, depth: u8, sampling: u8, intra: bool, mean: i64 },
}

fn number<T: FromStr>(word: &str) -> Result<T, String> {
  word.parse().map_err(|_| format!("'{word}' is no number of its type"))
}

fn flag(word: &str) -> Result<bool, String> {
  match number::<u8>(word)? {
    0 => Ok(false),
    1 => Ok(true),
    _ => Err(format!("'{word}' is neither 0 nor 1")),
  }
}

fn question(words: &[&str]) -> Result<Question, String> {
  Ok(match *words {
    ["blog64", n] => Question::Blog64(number(n)?),
    ["bexp64", x] => Question::Bexp64(number(x)?),
    ["ac_q", depth, index] => Question::AcQ(number(depth)?, number(index)?),
    ["dc_q", depth, index] => Question::DcQ(number(depth)?, number(index)?),
    ["select_ac_qi", depth, q] => {
      Question::SelectAcQi(number(depth)?, number(q)?)
    }
    ["select_dc_qi", depth, q] => {
      Question::SelectDcQi(number(depth)?, number(q)?)
    }
    ["quantizer", log_q, depth, sampling, intra, mean] => {
      Question::Quantizer {
        log_q: number(log_q)?,
        depth: number(depth)?,
        sampling: number(sampling)?,
        intra: flag(intra)?,
        mean: number(mean)?,
      }
    }
    _ => return Err("no such question, or wrong count of operands".into()),
  })
}

/// All questions of the text, or the first line that is none.
fn questions(text: &str) -> Result<Vec<Question>, String> {
  let mut found = Vec::new();
  for (at, line) in text.lines().enumerate() {
    let line = line.split('#').next().unwrap_or("");
    let words: Vec<&str> = line.split_ascii_whitespace().collect();
    if !words.is_empty() {
      found.push(
        question(&words).map_err(|why| format!("line {}: {why}", at + 1))?,
      );
    }
  }
  Ok(found)
}

impl Question {
  fn depth(&self) -> Option<u8> {
    match *self {
      Question::Blog64(_) | Question::Bexp64(_) => None,
      Question::AcQ(depth, _) | Question::DcQ(depth, _) => Some(depth),
      Question::SelectAcQi(depth, _) | Question::SelectDcQi(depth, _) => {
        Some(depth)
      }
      Question::Quantizer { depth, .. } => Some(depth),
    }
  }

  fn sampling(&self) -> Option<u8> {
    match *self {
      Question::Quantizer { sampling, .. } => Some(sampling),
      _ => None,
    }
  }

  /// The original has no answer to these: it panics on a depth or takes the
  /// table of another, and it has no such sampling.
  fn refusal(&self) -> Option<&'static str> {
    let no_depth = self.depth().is_some_and(|d| ![8, 10, 12].contains(&d));
    let no_sampling =
      self.sampling().is_some_and(|s| s as usize >= SAMPLINGS.len());
    if no_depth && !PLAIN {
      Some("refused 4")
    } else if no_sampling {
      Some(if PLAIN { "no such sampling" } else { "refused 5" })
    } else {
      None
    }
  }

  fn answer(&self) -> String {
    match *self {
      Question::Blog64(n) => logexp::blog64(n).to_string(),
      Question::Bexp64(x) => logexp::bexp64(x).to_string(),
      Question::AcQ(depth, index) => {
        quantize::ac_q(index, 0, depth as usize).to_string()
      }
      Question::DcQ(depth, index) => {
        quantize::dc_q(index, 0, depth as usize).to_string()
      }
      Question::SelectAcQi(depth, q) => {
        quantize::select_ac_qi(q, depth as usize).to_string()
      }
      Question::SelectDcQi(depth, q) => {
        quantize::select_dc_qi(q, depth as usize).to_string()
      }
      Question::Quantizer { log_q, depth, sampling, intra, mean } => {
        quantizer(log_q, depth, SAMPLINGS[sampling as usize], intra, mean)
      }
    }
  }
}

fn joined<T: ToString>(values: &[T]) -> String {
  values.iter().map(T::to_string).collect::<Vec<_>>().join(",")
}

fn quantizer(
  log_q: i64, depth: u8, sampling: ChromaSampling, intra: bool, mean: i64,
) -> String {
  let parameters = rate::QuantizerParameters::new_from_log_q(
    log_q,
    log_q,
    depth as usize,
    sampling,
    intra,
    mean,
  );
  // A monochrome answer has one scale; the original always gives three.
  let count =
    if !PLAIN && sampling == ChromaSampling::Cs400 { 1 } else { 3 };
  let scales = &parameters.dist_scale[..count];
  if scales.iter().any(|scale| scale.is_nan()) {
    panic!("scale beyond 2^53");
  }
  format!(
    "dc={} ac={} scales={}",
    joined(&parameters.dc_qi),
    joined(&parameters.ac_qi),
    joined(scales)
  )
}

/// The answer's line: what the original gives, or that it gives none.
fn line(question: &Question) -> String {
  if let Some(refusal) = question.refusal() {
    return refusal.into();
  }
  match panic::catch_unwind(panic::AssertUnwindSafe(|| question.answer())) {
    Ok(answer) => answer,
    Err(_) if PLAIN => {
      format!("panic: {}", SAID.lock().map_or(String::new(), |s| s.clone()))
    }
    Err(_) => "overflow".into(),
  }
}

fn run() -> Result<(), String> {
  let mut text = String::new();
  io::stdin().read_to_string(&mut text).map_err(|e| e.to_string())?;
  let questions = questions(&text)?;
  panic::set_hook(Box::new(|info| {
    if let Ok(mut said) = SAID.lock() {
      *said = info.payload_as_str().unwrap_or("no message").to_string();
    }
  }));
  let mut out = BufWriter::new(io::stdout().lock());
  for question in &questions {
    writeln!(out, "{}", line(question)).map_err(|e| e.to_string())?;
  }
  out.flush().map_err(|e| e.to_string())
}

fn main() -> ExitCode {
  match run() {
    Ok(()) => ExitCode::SUCCESS,
    Err(why) => {
      eprintln!("qindex: {why}");
      ExitCode::FAILURE
    }
  }
}

// Teaches and asks the original's rate control as the lines of `lessons` say.
//
// assemble.py lays this file beside the pieces that it cuts out of rav1e's
// sources; build.sh compiles them in three ways. With `--cfg plain` a panic of
// the original is told. Without it, it is answered by `overflow`: the original
// would lose bits there. A lesson that ends so leaves a state that the original
// does not define, so that all lines up to the next `curve` are `overflow` too.
#![allow(dead_code, unused_mut)]

mod checks;
mod logexp;
mod rate;

use rate::RCState;
use std::io::{self, BufWriter, Read, Write};
use std::panic;
use std::process::ExitCode;
use std::str::FromStr;
use std::sync::Mutex;

const PLAIN: bool = cfg!(plain);

/// The subtypes that a model has.
const SUBTYPES: usize = 4;

/// What the last panic said.
static SAID: Mutex<String> = Mutex::new(String::new());

enum Line {
  Curve {
    width: i32,
    height: i32,
    numerator: i64,
    denominator: i64,
    bitrate: i32,
    lowest: u8,
    highest: Option<u8>,
    interval: i32,
    delay: Option<i32>,
  },
  Predict {
    subtype: usize,
    log_q: i64,
  },
  Learn {
    subtype: usize,
    bits: u32,
    log_q: i64,
    trial: bool,
    reports: i32,
  },
  Trim {
    subtype: usize,
    log_q: i64,
    fullness: i64,
    credit: i64,
    limit: i64,
    highest: bool,
  },
}

fn number<T: FromStr>(word: &str) -> Result<T, String> {
  word.parse().map_err(|_| format!("'{word}' is no number of its type"))
}

fn perhaps<T: FromStr>(word: &str) -> Result<Option<T>, String> {
  if word == "-" {
    Ok(None)
  } else {
    number(word).map(Some)
  }
}

fn flag(word: &str) -> Result<bool, String> {
  match word {
    "0" => Ok(false),
    "1" => Ok(true),
    _ => Err(format!("'{word}' is neither 0 nor 1")),
  }
}

fn subtype(word: &str) -> Result<usize, String> {
  match number(word)? {
    n if n < SUBTYPES => Ok(n),
    _ => Err(format!("the original has no model of subtype {word}")),
  }
}

/// What the words say. Settings have to be those that are accepted; depth,
/// sampling and dropping are no part of the model.
fn line(words: &[&str]) -> Result<Line, String> {
  Ok(match *words {
    ["curve", width, height, numerator, denominator, bitrate, _, _, lowest, highest, interval, delay, _] => {
      Line::Curve {
        width: number(width)?,
        height: number(height)?,
        numerator: number(numerator)?,
        denominator: number(denominator)?,
        bitrate: number(bitrate)?,
        lowest: number(lowest)?,
        highest: perhaps(highest)?,
        interval: number(interval)?,
        delay: perhaps(delay)?,
      }
    }
    ["predict", fti, log_q] => {
      Line::Predict { subtype: subtype(fti)?, log_q: number(log_q)? }
    }
    ["learn", fti, bits, log_q, trial, reports] => Line::Learn {
      subtype: subtype(fti)?,
      bits: number(bits)?,
      log_q: number(log_q)?,
      trial: flag(trial)?,
      reports: number(reports)?,
    },
    ["trim", fti, log_q, fullness, credit, limit, highest] => Line::Trim {
      subtype: subtype(fti)?,
      log_q: number(log_q)?,
      fullness: number(fullness)?,
      credit: number(credit)?,
      limit: number(limit)?,
      highest: flag(highest)?,
    },
    _ => return Err("no such line, or wrong count of operands".into()),
  })
}

/// All lines of the text, or the first that is none.
fn lines(text: &str) -> Result<Vec<Line>, String> {
  let mut found = Vec::new();
  for (at, row) in text.lines().enumerate() {
    let row = row.split('#').next().unwrap_or("");
    let words: Vec<&str> = row.split_ascii_whitespace().collect();
    if !words.is_empty() {
      found
        .push(line(&words).map_err(|why| format!("line {}: {why}", at + 1))?);
    }
  }
  match found.first() {
    None | Some(Line::Curve { .. }) => Ok(found),
    Some(_) => Err("the first line makes no curve".into()),
  }
}

/// The answer, and the state after it. No state is one that was lost.
fn answer(line: &Line, state: &mut Option<RCState>) -> String {
  if let Line::Curve {
    width,
    height,
    numerator,
    denominator,
    bitrate,
    lowest,
    highest,
    interval,
    delay,
  } = *line
  {
    *state = Some(RCState::new(
      width, height, numerator, denominator, bitrate, highest, lowest,
      interval, delay,
    ));
    return "curve ok".into();
  }
  let Some(state) = state else { panic!("state lost before") };
  match *line {
    Line::Curve { .. } => unreachable!(),
    Line::Predict { subtype, log_q } => {
      state.predict(subtype, log_q).to_string()
    }
    Line::Learn { subtype, bits, log_q, trial, reports } => {
      state.learn(subtype, bits as i64, log_q, trial, reports);
      "learn ok".into()
    }
    Line::Trim { subtype, log_q, fullness, credit, limit, highest } => {
      state.set_reservoir(fullness, credit, limit, highest.then_some(255));
      state.trim(subtype, log_q).to_string()
    }
  }
}

/// The answer's line: what the original gives, or that it gives none.
fn told(line: &Line, state: &mut Option<RCState>) -> String {
  match panic::catch_unwind(panic::AssertUnwindSafe(|| answer(line, state))) {
    Ok(answer) => answer,
    Err(_) => {
      if matches!(line, Line::Curve { .. } | Line::Learn { .. }) {
        *state = None;
      }
      if PLAIN {
        format!("panic: {}", SAID.lock().map_or(String::new(), |s| s.clone()))
      } else {
        "overflow".into()
      }
    }
  }
}

fn run() -> Result<(), String> {
  let mut text = String::new();
  io::stdin().read_to_string(&mut text).map_err(|e| e.to_string())?;
  let lines = lines(&text)?;
  panic::set_hook(Box::new(|info| {
    if let Ok(mut said) = SAID.lock() {
      *said = info.payload_as_str().unwrap_or("no message").to_string();
    }
  }));
  let mut out = BufWriter::new(io::stdout().lock());
  let mut state = None;
  for line in &lines {
    writeln!(out, "{}", told(line, &mut state)).map_err(|e| e.to_string())?;
  }
  out.flush().map_err(|e| e.to_string())
}

fn main() -> ExitCode {
  match run() {
    Ok(()) => ExitCode::SUCCESS,
    Err(why) => {
      eprintln!("lessons: {why}");
      ExitCode::FAILURE
    }
  }
}

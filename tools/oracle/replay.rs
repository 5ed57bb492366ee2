// Runs the original's one-pass rate control as the lines of `replay` say.
//
// assemble.py lays this file beside the pieces that it cuts out of rav1e's
// sources; build.sh compiles them in three ways. With `--cfg plain` the original
// is unedited but for its probes: a panic is told, three scales are printed, and
// settings, subtypes and trials go to it as they stand. Without it the answers
// are those to compare with: the questions are put here, and `overflow` stands
// where the original would lose bits. A call that ends so leaves a state that
// the original does not define, so that all lines up to the next `open` are
// `overflow` too. The original has no stair: calls of a run on one are `none`.
//
// What the original has not got is kept here: tickets, outlooks, and the count
// of accepted reports and shows.
#![allow(non_upper_case_globals, dead_code, unused_mut, unused_assignments)]

mod checks;
mod logexp;
mod probe;
mod quantize;
mod rate;

use rate::{QuantizerParameters, RCState, FRAME_NSUBTYPES, FRAME_SUBTYPE_SEF};
use std::collections::BTreeMap;
use std::io::{self, BufWriter, Read, Write};
use std::marker::PhantomData;
use std::panic;
use std::process::ExitCode;
use std::str::FromStr;
use std::sync::Mutex;

const PLAIN: bool = cfg!(plain);

/// The bits of a show of an existing frame.
const SEF_BITS: i64 = 24;
/// How many entries an outlook has at most, and a pattern is repeated to.
const ENTRIES: usize = 4096;
/// How many entries a pattern has at most.
const PATTERN: usize = 64;
/// The greatest limit.
const LIMIT: i64 = 1 << 35;
/// How many reports and shows are accepted at most.
const ACCEPTED: u32 = 1 << 30;
/// A row of a stair, and its rows.
const STEPS: usize = 64;
const ROWS: usize = 4;

/// What the last panic said.
static SAID: Mutex<String> = Mutex::new(String::new());

// ---- stand-ins for types of the original

/// Stands in for the original's enum, with its order.
#[derive(Clone, Copy, PartialEq, Eq)]
pub enum ChromaSampling {
  Cs420,
  Cs422,
  Cs444,
  Cs400,
}

const SAMPLINGS: [ChromaSampling; 4] = [
  ChromaSampling::Cs420,
  ChromaSampling::Cs422,
  ChromaSampling::Cs444,
  ChromaSampling::Cs400,
];

pub fn clamp<T: PartialOrd>(input: T, min: T, max: T) -> T {
  if input < min {
    min
  } else if input > max {
    max
  } else {
    input
  }
}

pub trait Pixel {}
impl Pixel for u8 {}

/// The fields of the encoder's configuration that rate control reads.
#[derive(Clone, Copy)]
pub struct Config {
  pub bit_depth: usize,
  pub chroma_sampling: ChromaSampling,
  pub quantizer: usize,
  pub max_key_frame_interval: u64,
}

/// What rate control asks of the encoder. Its guess of the coming frames is
/// answered from the outlook.
pub struct ContextInner<T: Pixel> {
  pub config: Config,
  pub gop_input_frameno_start: BTreeMap<u64, u64>,
  outlook: Vec<u8>,
  pixel: PhantomData<T>,
}

impl<T: Pixel> ContextInner<T> {
  /// Counts the shortest front part of the outlook with so many shown entries,
  /// or else the whole of it; answers its frames and its shown entries.
  pub fn guess_frame_subtypes(
    &self, nframes: &mut [i32; FRAME_NSUBTYPES + 1], units: i32,
  ) -> (i32, i32) {
    let (mut frames, mut shown) = (0, 0);
    for entry in &self.outlook {
      if shown == units {
        break;
      }
      let subtype = (entry & 7) as usize;
      nframes[subtype] += 1;
      if subtype < FRAME_NSUBTYPES {
        frames += 1;
      }
      if entry & 8 != 0 {
        shown += 1;
      }
    }
    (frames, shown)
  }
}

// ---- lines

struct Settings {
  width: u32,
  height: u32,
  numerator: u32,
  denominator: u32,
  bitrate: u32,
  depth: u8,
  sampling: u8,
  lowest: u8,
  highest: Option<u8>,
  interval: u32,
  delay: Option<u32>,
  dropping: bool,
}

enum Call {
  Choose { subtype: u8, previous: Option<i64>, mean: i64 },
  Trial { ticket: u64, bits: u32 },
  Report { ticket: u64, bits: u32, shown: bool, droppable: bool },
  Withdraw { ticket: u64 },
  Show,
  Status,
}

enum Line {
  Curve,
  Stair(Vec<u32>),
  List(Vec<u8>),
  Pattern(Vec<u8>),
  Open(Settings),
  Call(&'static str, Call),
}

fn number<T: FromStr>(word: &str) -> Result<T, String> {
  word.parse().map_err(|_| format!("'{word}' is no number of its type"))
}

fn perhaps<T: FromStr>(word: &str) -> Result<Option<T>, String> {
  if word == "-" {
    Ok(None)
  } else {
    number(word).map(Some)
  }
}

fn flag(word: &str) -> Result<bool, String> {
  match word {
    "0" => Ok(false),
    "1" => Ok(true),
    _ => Err(format!("'{word}' is neither 0 nor 1")),
  }
}

fn numbers<T: FromStr>(words: &[&str]) -> Result<Vec<T>, String> {
  words.iter().map(|word| number(word)).collect()
}

fn line(words: &[&str]) -> Result<Line, String> {
  Ok(match *words {
    ["curve"] => Line::Curve,
    ["stair", ref counts @ ..] if counts.len() == ROWS * STEPS => {
      Line::Stair(numbers(counts)?)
    }
    ["list", ref entries @ ..] => Line::List(numbers(entries)?),
    ["pattern", ref entries @ ..] => Line::Pattern(numbers(entries)?),
    ["open", width, height, numerator, denominator, bitrate, depth, sampling, lowest, highest, interval, delay, dropping] => {
      Line::Open(Settings {
        width: number(width)?,
        height: number(height)?,
        numerator: number(numerator)?,
        denominator: number(denominator)?,
        bitrate: number(bitrate)?,
        depth: number(depth)?,
        sampling: number(sampling)?,
        lowest: number(lowest)?,
        highest: perhaps(highest)?,
        interval: number(interval)?,
        delay: perhaps(delay)?,
        dropping: flag(dropping)?,
      })
    }
    ["choose", subtype, previous, mean] => Line::Call(
      "choose",
      Call::Choose {
        subtype: number(subtype)?,
        previous: perhaps(previous)?,
        mean: number(mean)?,
      },
    ),
    ["trial", ticket, bits] => Line::Call(
      "trial",
      Call::Trial { ticket: number(ticket)?, bits: number(bits)? },
    ),
    ["report", ticket, bits, shown, droppable] => Line::Call(
      "report",
      Call::Report {
        ticket: number(ticket)?,
        bits: number(bits)?,
        shown: flag(shown)?,
        droppable: flag(droppable)?,
      },
    ),
    ["withdraw", ticket] => {
      Line::Call("withdraw", Call::Withdraw { ticket: number(ticket)? })
    }
    ["show"] => Line::Call("show", Call::Show),
    ["status"] => Line::Call("status", Call::Status),
    _ => return Err("no such line, or wrong count of operands".into()),
  })
}

/// All lines of the text, or the first that is none.
fn lines(text: &[u8]) -> Result<Vec<Line>, String> {
  let mut found = Vec::new();
  for (at, row) in text.split(|byte| *byte == b'\n').enumerate() {
    let told = |why: String| format!("line {}: {why}", at + 1);
    let row = std::str::from_utf8(row).map_err(|_| told("not UTF-8".into()))?;
    let row = row.split('#').next().unwrap_or("");
    let words: Vec<&str> = row.split_ascii_whitespace().collect();
    if !words.is_empty() {
      found.push(line(&words).map_err(told)?);
    }
  }
  Ok(found)
}

// ---- a run

/// The ticket that is out, and what the controller keeps for it.
struct Out {
  number: u64,
  subtype: usize,
  log_q: i64,
}

struct Controller {
  state: RCState,
  config: Config,
  out: Option<Out>,
  /// Accepted choices, modulo 2^64.
  choices: u64,
  /// Accepted reports and shows.
  accepted: u32,
}

/// What a run that was begun has come to.
enum Run {
  Closed,
  Lost,
  OnStair,
  Open(Controller),
}

struct Session {
  stair: bool,
  outlook: Vec<u8>,
  run: Run,
}

/// A call's answer behind its name, or the number of its refusal.
type Answer = Result<String, u8>;

impl Settings {
  /// The first of questions 1 to 7 that is answered by no. The original asks
  /// none of them.
  fn refusal(&self) -> Option<u8> {
    let size = 1..=65_536;
    let rate = 1..=1_000_000;
    let asked = [
      size.contains(&self.width) && size.contains(&self.height),
      rate.contains(&self.numerator) && rate.contains(&self.denominator),
      (1..=i32::MAX as u32).contains(&self.bitrate),
      [8, 10, 12].contains(&self.depth),
      (self.sampling as usize) < SAMPLINGS.len(),
      self.highest.map_or(true, |highest| self.lowest <= highest),
      (1..=10_000).contains(&self.interval)
        && self.delay.map_or(true, |delay| (12..=1024).contains(&delay)),
    ];
    asked.iter().position(|yes| !yes).map(|at| at as u8 + 1)
  }

  fn open(&self) -> Result<Controller, u8> {
    if let (Some(number), false) = (self.refusal(), PLAIN) {
      return Err(number);
    }
    let Some(&chroma_sampling) = SAMPLINGS.get(self.sampling as usize) else {
      panic!("no such sampling")
    };
    let mut state = RCState::new(
      self.width as i32,
      self.height as i32,
      self.numerator as i64,
      self.denominator as i64,
      self.bitrate as i32,
      self.highest,
      self.lowest,
      self.interval as i32,
      self.delay.map(|delay| delay as i32),
    );
    if state.limit() > LIMIT && !PLAIN {
      return Err(8);
    }
    state.set_drop_frames(self.dropping);
    let config = Config {
      bit_depth: self.depth as usize,
      chroma_sampling,
      quantizer: 0,
      max_key_frame_interval: self.interval as u64,
    };
    Ok(Controller { state, config, out: None, choices: 0, accepted: 0 })
  }
}

fn joined<T: ToString>(values: &[T]) -> String {
  values.iter().map(T::to_string).collect::<Vec<_>>().join(",")
}

fn quantizer_told(
  parameters: &QuantizerParameters, sampling: ChromaSampling,
) -> String {
  // A monochrome answer has one scale; the original always gives three.
  let count =
    if !PLAIN && sampling == ChromaSampling::Cs400 { 1 } else { 3 };
  let scales = &parameters.dist_scale[..count];
  if scales.iter().any(|scale| scale.is_nan()) {
    panic!("scale beyond 2^53");
  }
  format!(
    "base={} log_q={} dc={} ac={} scales={}",
    parameters.log_base_q,
    parameters.log_target_q,
    joined(&parameters.dc_qi),
    joined(&parameters.ac_qi),
    joined(scales)
  )
}

impl Controller {
  fn is_out(&self, ticket: u64) -> bool {
    self.out.as_ref().is_some_and(|out| out.number == ticket)
  }

  fn choose(
    &mut self, subtype: u8, outlook: &[u8], previous: Option<i64>, mean: i64,
  ) -> Answer {
    if self.out.is_some() {
      return Err(11);
    }
    let subtype = subtype as usize;
    if subtype >= FRAME_NSUBTYPES && !PLAIN {
      return Err(12);
    }
    let context = ContextInner::<u8> {
      config: self.config,
      gop_input_frameno_start: BTreeMap::new(),
      outlook: outlook.to_vec(),
      pixel: PhantomData,
    };
    probe::clear();
    let parameters =
      self.state.select_qi(&context, 0, subtype, previous, mean);
    let seen = probe::seen();
    let quantizer = quantizer_told(&parameters, self.config.chroma_sampling);
    self.choices = self.choices.wrapping_add(1);
    let number = self.choices;
    self.out = Some(Out { number, subtype, log_q: parameters.log_target_q });
    Ok(format!(
      "ticket={number} found={} total={} tries={} {quantizer}",
      seen.found, seen.total, seen.tries
    ))
  }

  fn trial(&mut self, ticket: u64, bits: u32) -> Answer {
    let Some(out) = self.out.as_ref().filter(|out| out.number == ticket)
    else {
      return Err(21);
    };
    // The original asserts both.
    if !self.state.needs_trial_encode(out.subtype) && !PLAIN {
      return Err(23);
    }
    if bits < 1 && !PLAIN {
      return Err(24);
    }
    let (subtype, log_q) = (out.subtype, out.log_q);
    self.state.update_state(bits as i64, subtype, false, log_q, true, false);
    self.out = None;
    Ok("ok".into())
  }

  fn report(
    &mut self, ticket: u64, bits: u32, shown: bool, droppable: bool,
  ) -> Answer {
    let Some(out) = self.out.as_ref().filter(|out| out.number == ticket)
    else {
      return Err(21);
    };
    if self.accepted >= ACCEPTED {
      return Err(13);
    }
    let (subtype, log_q) = (out.subtype, out.log_q);
    probe::clear();
    let dropped = self
      .state
      .update_state(bits as i64, subtype, shown, log_q, false, droppable);
    self.out = None;
    self.accepted += 1;
    Ok(format!(
      "charge={} dropped={}",
      probe::seen().charge,
      dropped as u8
    ))
  }

  fn withdraw(&mut self, ticket: u64) -> Answer {
    if self.is_out(ticket) {
      self.out = None;
    }
    Ok("ok".into())
  }

  fn show(&mut self) -> Answer {
    if self.out.is_some() {
      return Err(11);
    }
    if self.accepted >= ACCEPTED {
      return Err(13);
    }
    self.state.update_state(
      SEF_BITS,
      FRAME_SUBTYPE_SEF,
      true,
      0,
      false,
      false,
    );
    self.accepted += 1;
    Ok("ok".into())
  }

  fn status(&self) -> Answer {
    Ok(format!(
      "fullness={} credit={} limit={} bias={} coded={} out={}",
      self.state.fullness(),
      self.state.credit(),
      self.state.limit(),
      self.state.bias(),
      self.state.coded(),
      self.out.is_some() as u8
    ))
  }

  fn perform(&mut self, call: &Call, outlook: &[u8]) -> Answer {
    match *call {
      Call::Choose { subtype, previous, mean } => {
        self.choose(subtype, outlook, previous, mean)
      }
      Call::Trial { ticket, bits } => self.trial(ticket, bits),
      Call::Report { ticket, bits, shown, droppable } => {
        self.report(ticket, bits, shown, droppable)
      }
      Call::Withdraw { ticket } => self.withdraw(ticket),
      Call::Show => self.show(),
      Call::Status => self.status(),
    }
  }
}

// ---- answers

/// An entry: bits 0 to 2 the subtype, bit 3 shown; a show of an existing frame
/// is always shown.
fn lawful(entry: u8) -> bool {
  matches!(entry, 0..=3 | 8..=12)
}

fn told(name: &str, answer: Answer) -> String {
  match answer {
    Ok(text) => format!("{name} {text}"),
    Err(number) => format!("{name} refused {number}"),
  }
}

impl Session {
  fn outlook(&mut self, entries: &[u8], counts: bool, repeated: bool) -> Answer {
    if !counts {
      return Err(31);
    }
    if !entries.iter().all(|entry| lawful(*entry)) {
      return Err(32);
    }
    let times = if repeated { ENTRIES } else { entries.len() };
    self.outlook = entries.iter().copied().cycle().take(times).collect();
    Ok("ok".into())
  }

  fn stair(&mut self, counts: &[u32]) -> Answer {
    if counts.chunks(STEPS).any(|row| row.windows(2).any(|two| two[0] < two[1]))
    {
      return Err(34);
    }
    self.stair = true;
    Ok("ok".into())
  }

  fn open(&mut self, settings: &Settings) -> String {
    self.run = Run::Lost;
    if self.stair {
      self.run = Run::OnStair;
      return "none".into();
    }
    match settings.open() {
      Err(number) => {
        self.run = Run::Closed;
        told("open", Err(number))
      }
      Ok(controller) => {
        let state = &controller.state;
        let text = format!(
          "credit={} limit={} fullness={}",
          state.credit(),
          state.limit(),
          state.fullness()
        );
        self.run = Run::Open(controller);
        told("open", Ok(text))
      }
    }
  }

  fn answer(&mut self, line: &Line) -> String {
    match line {
      Line::Curve => {
        self.stair = false;
        "curve ok".into()
      }
      Line::Stair(counts) => told("stair", self.stair(counts)),
      Line::List(entries) => {
        told("list", self.outlook(entries, entries.len() <= ENTRIES, false))
      }
      Line::Pattern(entries) => {
        let counts = (1..=PATTERN).contains(&entries.len());
        told("pattern", self.outlook(entries, counts, true))
      }
      Line::Open(settings) => self.open(settings),
      Line::Call(name, call) => match &mut self.run {
        Run::Closed => format!("{name} closed"),
        Run::OnStair => "none".into(),
        Run::Lost => panic!("state lost before"),
        Run::Open(controller) => {
          told(name, controller.perform(call, &self.outlook))
        }
      },
    }
  }

  /// The answer's line: what the original gives, or that it gives none.
  fn line(&mut self, line: &Line) -> String {
    let answer =
      panic::catch_unwind(panic::AssertUnwindSafe(|| self.answer(line)));
    if answer.is_err() {
      self.run = Run::Lost;
    }
    match answer {
      Ok(_) if matches!(self.run, Run::Lost) && !PLAIN => "overflow".into(),
      Ok(answer) => answer,
      Err(_) if PLAIN => {
        format!("panic: {}", SAID.lock().map_or(String::new(), |s| s.clone()))
      }
      Err(_) => "overflow".into(),
    }
  }
}

fn run() -> Result<(), String> {
  let mut text = Vec::new();
  io::stdin().read_to_end(&mut text).map_err(|e| e.to_string())?;
  let lines = lines(&text)?;
  panic::set_hook(Box::new(|info| {
    if let Ok(mut said) = SAID.lock() {
      *said = info.payload_as_str().unwrap_or("no message").to_string();
    }
  }));
  let mut out = BufWriter::new(io::stdout().lock());
  let mut session =
    Session { stair: false, outlook: Vec::new(), run: Run::Closed };
  for line in &lines {
    writeln!(out, "{}", session.line(line)).map_err(|e| e.to_string())?;
  }
  out.flush().map_err(|e| e.to_string())
}

fn main() -> ExitCode {
  match run() {
    Ok(()) => ExitCode::SUCCESS,
    Err(why) => {
      eprintln!("replay: {why}");
      ExitCode::FAILURE
    }
  }
}

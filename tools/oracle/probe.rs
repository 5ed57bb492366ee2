// What a call of the original passes on its way and does not answer.
// assemble.py puts the calls of `compared`, `found` and `charged` in; the driver
// clears the record before it asks, and reads it afterwards.

use std::cell::Cell;

/// What was seen since the record was cleared.
#[derive(Clone, Copy, Default)]
pub struct Seen {
  /// How many middles of the search were compared with the total.
  pub tries: u32,
  /// The last middle of the search, before the previous base is applied.
  pub found: i64,
  /// The bits that the search shares out.
  pub total: i64,
  /// The bits that were taken from the reservoir.
  pub charge: i64,
}

thread_local! {
  static SEEN: Cell<Seen> = Cell::default();
}

fn change(how: impl FnOnce(&mut Seen)) {
  SEEN.with(|cell| {
    let mut seen = cell.get();
    how(&mut seen);
    cell.set(seen);
  });
}

pub fn clear() {
  SEEN.with(|cell| cell.set(Seen::default()));
}

pub fn seen() -> Seen {
  SEEN.with(Cell::get)
}

/// A middle is compared.
pub fn compared() {
  change(|seen| seen.tries += 1);
}

/// The search is over.
pub fn found(base: i64, total: i64) {
  change(|seen| (seen.found, seen.total) = (base, total));
}

/// Bits are taken from the reservoir.
pub fn charged(bits: i64) {
  change(|seen| seen.charge = bits);
}

// What the checked program calls in place of operations of the original that
// lose bits without a panic, and its search for the lowest index.
// assemble.py puts the calls in.

use std::num::NonZeroU16;

// 2^53: up to it every whole number is an f64.
const EXACT: i64 = 1 << 53;

/// `a << k`; panics if bits are lost.
pub const fn shl(a: i64, k: u32) -> i64 {
  let shifted = a << k;
  assert!(shifted >> k == a, "left shift loses bits");
  shifted
}

/// `a as i32`; panics if bits are lost.
pub const fn narrow(a: i64) -> i32 {
  assert!(a >= i32::MIN as i64 && a <= i32::MAX as i64, "cast loses bits");
  a as i32
}

/// `n as f64` up to 2^53, where it is exact; beyond it NaN, as a mark.
pub fn exact(n: i64) -> f64 {
  if n <= EXACT {
    n as f64
  } else {
    f64::NAN
  }
}

/// What `table.binary_search(&value)` answers, with the lowest index where
/// several entries are equal to the value.
pub fn lowest(table: &[NonZeroU16], value: NonZeroU16) -> Result<usize, usize> {
  let at = table.partition_point(|entry| *entry < value);
  if at < table.len() && table[at] == value {
    Ok(at)
  } else {
    Err(at)
  }
}

//! The small part of the context that the coder needs. `build.sh` appends
//! rav1e's checkpoint, `CDFOffset` and log to this file. `CDFContext` here is
//! a flat array in the layout of `layout.rs`.
#![allow(dead_code)]
use std::marker::PhantomData;

pub const NUMBERS: usize = 5528;

#[derive(Clone)]
#[repr(C)]
pub struct CDFContext {
  pub v: [u16; NUMBERS],
}

impl CDFContext {
  /// All symbols of each distribution equally likely.
  pub fn uniform() -> Self {
    let mut v = [0u16; NUMBERS];
    for (_, first, count, len) in crate::layout::RUNS {
      for k in 0..*count {
        for i in 0..*len {
          v[first + k * len + i] =
            (32768 - (32768 * (i as u32 + 1)) / *len as u32) as u16;
        }
      }
    }
    CDFContext { v }
  }
  /// The distribution at a place of the layout.
  pub fn slot<const CDF_LEN: usize>(&self, place: usize) -> CDFOffset<CDF_LEN> {
    assert!(place + CDF_LEN <= NUMBERS);
    let p = self.v[place..].as_ptr() as *const [u16; CDF_LEN];
    self.offset(p)
  }
}


#![allow(warnings)]
pub mod context;
pub mod ec;
pub mod layout;
#[path = "cdf.rs"]
pub mod cdf;

/// The 32-bit generator of bench and script maker.
pub struct Lcg(pub u32);
impl Lcg {
  pub fn draw(&mut self) -> u32 {
    self.0 = self.0.wrapping_mul(1664525).wrapping_add(1013904223);
    self.0 >> 16
  }
}

/// Sum of (i+1) times byte i, modulo 65536.
pub fn w_sum(b: &[u8]) -> u32 {
  let mut w = 0u32;
  for (i, &x) in b.iter().enumerate() {
    w = w.wrapping_add((i as u32).wrapping_add(1).wrapping_mul(x as u32));
  }
  w & 0xffff
}

/// The same sum over the numbers of a context.
pub fn w_sum16(v: &[u16]) -> u32 {
  let mut w = 0u32;
  for (i, &x) in v.iter().enumerate() {
    w = w.wrapping_add((i as u32 + 1).wrapping_mul(x as u32));
  }
  w & 0xffff
}

/// FNV-1a, 32 bits.
pub fn fnv(b: &[u8]) -> u32 {
  let mut h = 2166136261u32;
  for &x in b {
    h = (h ^ x as u32).wrapping_mul(16777619);
  }
  h
}

pub fn hex(b: &[u8]) -> String {
  b.iter().map(|x| format!("{:02x}", x)).collect()
}

/// Runs `$body` with the constant `$N` set to `$n` (2 to 16).
#[macro_export]
macro_rules! with_len {
  ($n:expr, $N:ident, $body:expr) => {
    match $n {
      2 => { const $N: usize = 2; $body }
      3 => { const $N: usize = 3; $body }
      4 => { const $N: usize = 4; $body }
      5 => { const $N: usize = 5; $body }
      6 => { const $N: usize = 6; $body }
      7 => { const $N: usize = 7; $body }
      8 => { const $N: usize = 8; $body }
      9 => { const $N: usize = 9; $body }
      10 => { const $N: usize = 10; $body }
      11 => { const $N: usize = 11; $body }
      12 => { const $N: usize = 12; $body }
      13 => { const $N: usize = 13; $body }
      14 => { const $N: usize = 14; $body }
      15 => { const $N: usize = 15; $body }
      16 => { const $N: usize = 16; $body }
      n => panic!("length {} isn't 2 to 16", n),
    }
  };
}

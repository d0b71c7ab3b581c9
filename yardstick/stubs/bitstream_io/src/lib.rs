//! Stand-in for the part of `bitstream_io` that rav1e's coder uses. A value
//! that doesn't fit its field is an `io::Error`, as in the real crate.
use std::io;
use std::marker::PhantomData;

pub trait Endianness {
  const BIG: bool;
}
pub struct BigEndian;
pub struct LittleEndian;
impl Endianness for BigEndian {
  const BIG: bool = true;
}
impl Endianness for LittleEndian {
  const BIG: bool = false;
}

pub trait Numeric: Copy {
  fn to_i128(self) -> i128;
}
macro_rules! numeric {
  ($($t:ty)*) => { $(impl Numeric for $t {
    fn to_i128(self) -> i128 { self as i128 }
  })* };
}
numeric!(u8 u16 u32 u64 usize i8 i16 i32 i64 isize);

/// Bits wait in `cur` (`n` of them) until a byte is whole. With the little
/// endian only whole bytes are handled (that is all that is used).
pub struct BitWriter<W: io::Write, E: Endianness> {
  w: W,
  cur: u8,
  n: u32,
  e: PhantomData<E>,
}

impl<W: io::Write, E: Endianness> BitWriter<W, E> {
  pub fn endian(w: W, _: E) -> Self {
    BitWriter { w, cur: 0, n: 0, e: PhantomData }
  }
  pub fn new(w: W) -> Self {
    BitWriter { w, cur: 0, n: 0, e: PhantomData }
  }
  pub fn into_writer(self) -> W {
    self.w
  }
}

fn too_wide() -> io::Error {
  io::Error::new(io::ErrorKind::InvalidInput, "excessive value for bits written")
}

pub trait BitWrite {
  fn write_bit(&mut self, bit: bool) -> io::Result<()>;
  fn write<const BITS: u32, U: Numeric>(&mut self, value: U) -> io::Result<()>;
  fn write_var<U: Numeric>(&mut self, bits: u32, value: U) -> io::Result<()>;
  fn write_signed<const BITS: u32, S: Numeric>(
    &mut self, value: S,
  ) -> io::Result<()>;
  fn write_signed_var<S: Numeric>(
    &mut self, bits: u32, value: S,
  ) -> io::Result<()>;
  fn write_bytes(&mut self, buf: &[u8]) -> io::Result<()>;
  fn byte_align(&mut self) -> io::Result<()>;
}

impl<W: io::Write, E: Endianness> BitWrite for BitWriter<W, E> {
  fn write_bit(&mut self, bit: bool) -> io::Result<()> {
    assert!(E::BIG);
    self.cur = self.cur << 1 | bit as u8;
    self.n += 1;
    if self.n == 8 {
      self.w.write_all(&[self.cur])?;
      self.cur = 0;
      self.n = 0;
    }
    Ok(())
  }
  fn write<const BITS: u32, U: Numeric>(&mut self, value: U) -> io::Result<()> {
    self.write_var(BITS, value)
  }
  fn write_var<U: Numeric>(&mut self, bits: u32, value: U) -> io::Result<()> {
    let v = value.to_i128();
    if v < 0 || bits > 64 || v >> bits != 0 {
      return Err(too_wide());
    }
    if E::BIG {
      for i in (0..bits).rev() {
        self.write_bit(v >> i & 1 == 1)?;
      }
    } else {
      assert!(bits % 8 == 0 && self.n == 0);
      for i in 0..bits / 8 {
        self.w.write_all(&[(v >> (8 * i)) as u8])?;
      }
    }
    Ok(())
  }
  fn write_signed<const BITS: u32, S: Numeric>(
    &mut self, value: S,
  ) -> io::Result<()> {
    self.write_signed_var(BITS, value)
  }
  fn write_signed_var<S: Numeric>(
    &mut self, bits: u32, value: S,
  ) -> io::Result<()> {
    let v = value.to_i128();
    if bits == 0 || v < -(1i128 << (bits - 1)) || v >= 1i128 << (bits - 1) {
      return Err(too_wide());
    }
    self.write_var(bits, (v & ((1i128 << bits) - 1)) as u64)
  }
  fn write_bytes(&mut self, buf: &[u8]) -> io::Result<()> {
    for &b in buf {
      self.write_var(8, b)?;
    }
    Ok(())
  }
  fn byte_align(&mut self) -> io::Result<()> {
    while self.n != 0 {
      self.write_bit(false)?;
    }
    Ok(())
  }
}

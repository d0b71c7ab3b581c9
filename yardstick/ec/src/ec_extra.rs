

// ---- appended by build.sh: views of private state, for the harness ----
impl<S> WriterBase<S> {
  pub fn oracle_rng(&self) -> u16 {
    self.rng
  }
  pub fn oracle_fake(&self) -> u32 {
    self.fake_bits_frac
  }
}
impl WriterBase<WriterRecorder> {
  pub fn oracle_tokens(&self) -> &[(u16, u16, u16)] {
    &self.s.storage
  }
}
impl WriterBase<WriterEncoder> {
  /// A writer at a given low and range before any bit.
  pub fn oracle_at(low: u32, rng: u16) -> Self {
    WriterBase {
      rng,
      cnt: -9,
      fake_bits_frac: 0,
      s: WriterEncoder { precarry: Vec::new(), low },
    }
  }
}
pub fn oracle_pdf<const N: usize>(cdf: &[u16; N]) -> [u16; N] {
  cdf_to_pdf(cdf)
}

//! ec_bench N SEED [REPEATS [ONLY]]: speed of the three writers. README.md tells the
//! work exactly. All lines but those that begin with `time` are the same at
//! each run.
use ec_only::context::*;
use ec_only::ec::*;
use ec_only::{fnv, w_sum, w_sum16, Lcg};
use std::hint::black_box;
use std::time::Instant;

const ROUND: usize = 15;
/// Rounds between two clearings of the log.
const ROUNDS_OF_LOG: usize = 270;
/// Rounds of a trial.
const ROUNDS_OF_TRIAL: usize = 4;

const fn skew<const N: usize>() -> [u16; N] {
  let mut c = [0u16; N];
  let mut i = 0;
  while i < N {
    let k = (N - 1 - i) as u32;
    c[i] = (32768 * k * k / (N as u32 * N as u32)) as u16;
    i += 1;
  }
  c
}

/// `$go!(j, N, place, s)` for the round's 15 symbols in `$s`, cut at its end.
macro_rules! round {
  ($s:expr, $go:ident) => {{
    let s: &[u8] = $s;
    if s.len() == ROUND {
      let s: &[u8; ROUND] = s.try_into().unwrap();
      $go!(2, 410, s[0]);
      $go!(3, 726, s[1]);
      $go!(4, 756, s[2]);
      $go!(5, 3332, s[3]);
      $go!(6, 3592, s[4]);
      $go!(7, 3616, s[5]);
      $go!(8, 4064, s[6]);
      $go!(9, 4224, s[7]);
      $go!(10, 4300, s[8]);
      $go!(11, 4420, s[9]);
      $go!(12, 4464, s[10]);
      $go!(13, 4512, s[11]);
      $go!(14, 5058, s[12]);
      $go!(15, 5336, s[13]);
      $go!(16, 5240, s[14]);
    } else {
      for (j, &x) in s.iter().enumerate() {
        match j {
          0 => $go!(2, 410, x),
          1 => $go!(3, 726, x),
          2 => $go!(4, 756, x),
          3 => $go!(5, 3332, x),
          4 => $go!(6, 3592, x),
          5 => $go!(7, 3616, x),
          6 => $go!(8, 4064, x),
          7 => $go!(9, 4224, x),
          8 => $go!(10, 4300, x),
          9 => $go!(11, 4420, x),
          10 => $go!(12, 4464, x),
          11 => $go!(13, 4512, x),
          12 => $go!(14, 5058, x),
          13 => $go!(15, 5336, x),
          _ => $go!(16, 5240, x),
        }
      }
    }
  }};
}

fn plain<W: Writer>(w: &mut W, syms: &[u8]) {
  macro_rules! go {
    ($n:expr, $place:expr, $s:expr) => {{
      static C: [u16; $n] = skew::<$n>();
      w.symbol($s as u32, &C);
    }};
  }
  for s in syms.chunks(ROUND) {
    round!(s, go);
  }
}

// The slot of size 15 has length 16: the context has no CDF of length 15.
macro_rules! slot_len {
  (15) => {
    16
  };
  ($n:expr) => {
    $n
  };
}

#[inline(always)]
fn adapt_rounds<W: Writer>(
  w: &mut W, fc: &mut CDFContext, log: &mut CDFContextLog, syms: &[u8],
) {
  macro_rules! go {
    (15, $place:expr, $s:expr) => {{
      let slot = fc.slot::<16>($place);
      w.symbol_with_update($s as u32, slot, log, fc);
    }};
    ($n:expr, $place:expr, $s:expr) => {{
      let slot = fc.slot::<$n>($place);
      w.symbol_with_update($s as u32, slot, log, fc);
    }};
  }
  for s in syms.chunks(ROUND) {
    round!(s, go);
  }
}

fn adaptive<W: Writer>(
  w: &mut W, fc: &mut CDFContext, log: &mut CDFContextLog, syms: &[u8],
) {
  for part in syms.chunks(ROUND * ROUNDS_OF_LOG) {
    adapt_rounds(w, fc, log, part);
    log.clear();
  }
}

fn trials<W: Writer>(
  w: &mut W, fc: &mut CDFContext, log: &mut CDFContextLog, syms: &[u8],
) -> u32 {
  let mut cost = 0u32;
  for part in syms.chunks(ROUND * ROUNDS_OF_TRIAL) {
    let before = w.tell_frac();
    let c = w.checkpoint();
    let l = log.oracle_checkpoint();
    adapt_rounds(w, fc, log, part);
    cost = cost.wrapping_add(w.tell_frac() - before);
    w.rollback(&c);
    log.rollback(fc, &l);
    adapt_rounds(w, fc, log, part);
    log.clear();
  }
  cost
}

fn symbols(n: usize, g: &mut Lcg) -> Vec<u8> {
  (0..n)
    .map(|i| {
      let size = 2 + (i % ROUND) as u32;
      let x = g.draw() % size;
      let y = g.draw() % size;
      x.min(y) as u8
    })
    .collect()
}

fn one(only: &str, syms: &[u8]) {
  let mut log = CDFContextLog::default();
  let mut fc = CDFContext::uniform();
  macro_rules! by {
    ($w:expr) => {{
      let mut w = $w;
      match only.split('/').next().unwrap() {
        "none" => {}
        "plain" => plain(&mut w, syms),
        "adaptive" => adaptive(&mut w, &mut fc, &mut log, syms),
        _ => {
          black_box(trials(&mut w, &mut fc, &mut log, syms));
        }
      }
      black_box(w.tell_frac());
      w
    }};
  }
  match only.split('/').nth(1).unwrap() {
    "encoder" => {
      black_box(by!(WriterEncoder::new()).done());
    }
    "counter" => {
      by!(WriterCounter::new());
    }
    "recorder" => {
      by!(WriterRecorder::new());
    }
    // The recorder and then its replay.
    _ => {
      let mut w = by!(WriterRecorder::new());
      let mut d = WriterEncoder::new();
      w.replay(&mut d);
      black_box(d.done());
    }
  }
}

struct Best(f64);
impl Best {
  fn time<T>(&mut self, f: impl FnOnce() -> T) -> T {
    let t = Instant::now();
    let x = f();
    self.0 = self.0.min(t.elapsed().as_nanos() as f64);
    x
  }
}

fn main() {
  let a: Vec<String> = std::env::args().collect();
  if a.len() < 3 {
    eprintln!("usage: ec_bench N SEED [REPEATS [MODE/WRITER]]");
    std::process::exit(2);
  }
  let n: usize = a[1].parse().unwrap();
  let seed: u32 = a[2].parse().unwrap();
  let repeats: usize = a.get(3).map_or(5, |x| x.parse().unwrap());
  // For counting instructions: only this one, as `adaptive/encoder`.
  if let Some(only) = a.get(4) {
    let mut g = Lcg(seed);
    let syms = symbols(n, &mut g);
    one(only, black_box(&syms[..]));
    return;
  }
  let mut g = Lcg(seed);
  let syms = symbols(n, &mut g);
  println!("bench n {} seed {} symbols {}", n, seed, fnv(&syms));
  let syms = black_box(&syms[..]);
  let per = |b: &Best, k: usize| b.0 / (n.max(1) * k) as f64;
  let mut log = CDFContextLog::default();

  // plain
  let (mut te, mut tc, mut tr, mut tp) =
    (Best(f64::MAX), Best(f64::MAX), Best(f64::MAX), Best(f64::MAX));
  let mut lines: Vec<String> = Vec::new();
  for _ in 0..repeats {
    lines.clear();
    let mut w = WriterEncoder::new();
    let b = te.time(|| {
      plain(&mut w, syms);
      black_box(w.done())
    });
    lines.push(format!(
      "plain encoder bytes {} sum {} fnv {}",
      b.len(),
      w_sum(&b),
      fnv(&b)
    ));
    let mut w = WriterCounter::new();
    let t = tc.time(|| {
      plain(&mut w, syms);
      black_box(w.tell_frac())
    });
    lines.push(format!("plain counter tell {} tell_frac {}", w.tell(), t));
    let mut w = WriterRecorder::new();
    tr.time(|| {
      plain(&mut w, syms);
      black_box(w.tell_frac())
    });
    lines.push(format!(
      "plain recorder tell {} tell_frac {}",
      w.tell(),
      w.tell_frac()
    ));
    let mut d = WriterEncoder::new();
    let b = tp.time(|| {
      w.replay(&mut d);
      black_box(d.done())
    });
    lines.push(format!(
      "plain replayed bytes {} sum {} fnv {}",
      b.len(),
      w_sum(&b),
      fnv(&b)
    ));
  }
  for l in &lines {
    println!("{}", l);
  }
  println!("time plain encoder {:.3}", per(&te, 1));
  println!("time plain counter {:.3}", per(&tc, 1));
  println!("time plain recorder {:.3}", per(&tr, 1));
  println!("time plain replay {:.3}", per(&tp, 1));

  // adaptive
  let (mut te, mut tc, mut tr, mut tp) =
    (Best(f64::MAX), Best(f64::MAX), Best(f64::MAX), Best(f64::MAX));
  for _ in 0..repeats {
    lines.clear();
    let mut w = WriterEncoder::new();
    let mut fc = CDFContext::uniform();
    let b = te.time(|| {
      adaptive(&mut w, &mut fc, &mut log, syms);
      black_box(w.done())
    });
    lines.push(format!(
      "adaptive encoder bytes {} sum {} fnv {} context {}",
      b.len(),
      w_sum(&b),
      fnv(&b),
      w_sum16(&fc.v)
    ));
    let mut w = WriterCounter::new();
    let mut fc = CDFContext::uniform();
    let t = tc.time(|| {
      adaptive(&mut w, &mut fc, &mut log, syms);
      black_box(w.tell_frac())
    });
    lines.push(format!(
      "adaptive counter tell {} tell_frac {} context {}",
      w.tell(),
      t,
      w_sum16(&fc.v)
    ));
    let mut w = WriterRecorder::new();
    let mut fc = CDFContext::uniform();
    tr.time(|| {
      adaptive(&mut w, &mut fc, &mut log, syms);
      black_box(w.tell_frac())
    });
    lines.push(format!(
      "adaptive recorder tell {} tell_frac {} context {}",
      w.tell(),
      w.tell_frac(),
      w_sum16(&fc.v)
    ));
    let mut d = WriterEncoder::new();
    let b = tp.time(|| {
      w.replay(&mut d);
      black_box(d.done())
    });
    lines.push(format!(
      "adaptive replayed bytes {} sum {} fnv {}",
      b.len(),
      w_sum(&b),
      fnv(&b)
    ));
  }
  for l in &lines {
    println!("{}", l);
  }
  println!("time adaptive encoder {:.3}", per(&te, 1));
  println!("time adaptive counter {:.3}", per(&tc, 1));
  println!("time adaptive recorder {:.3}", per(&tr, 1));
  println!("time adaptive replay {:.3}", per(&tp, 1));

  // trials
  let (mut te, mut tc, mut tr) =
    (Best(f64::MAX), Best(f64::MAX), Best(f64::MAX));
  for _ in 0..repeats {
    lines.clear();
    let mut w = WriterEncoder::new();
    let mut fc = CDFContext::uniform();
    let (b, cost) = te.time(|| {
      let k = trials(&mut w, &mut fc, &mut log, syms);
      (black_box(w.done()), k)
    });
    lines.push(format!(
      "trials encoder bytes {} sum {} fnv {} context {} cost {}",
      b.len(),
      w_sum(&b),
      fnv(&b),
      w_sum16(&fc.v),
      cost
    ));
    let mut w = WriterCounter::new();
    let mut fc = CDFContext::uniform();
    let cost = tc.time(|| trials(&mut w, &mut fc, &mut log, syms));
    lines.push(format!(
      "trials counter tell {} tell_frac {} context {} cost {}",
      w.tell(),
      w.tell_frac(),
      w_sum16(&fc.v),
      cost
    ));
    let mut w = WriterRecorder::new();
    let mut fc = CDFContext::uniform();
    let cost = tr.time(|| trials(&mut w, &mut fc, &mut log, syms));
    lines.push(format!(
      "trials recorder tell {} tell_frac {} context {} cost {}",
      w.tell(),
      w.tell_frac(),
      w_sum16(&fc.v),
      cost
    ));
  }
  for l in &lines {
    println!("{}", l);
  }
  println!("time trials encoder {:.3}", per(&te, 2));
  println!("time trials counter {:.3}", per(&tc, 2));
  println!("time trials recorder {:.3}", per(&tr, 2));
}

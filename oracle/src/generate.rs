//! Random inputs of every kind, and fixed ones beside the limits. What is drawn is admitted: what
//! lies outside is the refusals' matter.

use crate::bytes::Writer;
use crate::calls;
use crate::cases;
use crate::entry::MAX_FRAMES;
use crate::limits;
use crate::random::Random;

/// A random input for the kind of this number.
pub fn input(kind: u8, r: &mut Random) -> Vec<u8> {
    sized(kind, r, None)
}

/// A random input with as many items as there may be.
pub fn full(kind: u8, r: &mut Random) -> Vec<u8> {
    sized(kind, r, Some(MAX_FRAMES))
}

fn sized(kind: u8, r: &mut Random, n: Option<usize>) -> Vec<u8> {
    if kind >= 32 {
        return calls::input(kind, r, n);
    }
    let n = n.unwrap_or_else(|| length(r));
    let w = Writer::new();
    let w = match kind {
        1 => w.each(0..n, |w, _| w.f64(wide(r))),
        2 => w.each(0..n, |w, _| w.f32(any(r))),
        3 => w.each(ordered(r, n), Writer::f32),
        4 => w.each(keys(r, n), Writer::u64),
        5 => w.each(weights(r, n), |w, (frame, weight)| w.u32(frame).f32(weight)),
        6 => w.each(0..n, |w, _| {
            let (p, q) = pitch_pair(r);
            w.f32(p).f32(q)
        }),
        7 => w.each(0..n, |w, _| {
            let (p, q) = estimate_pair(r);
            w.f64(p).f64(q)
        }),
        8 => w.each(0..n, |w, _| {
            let [f, a, b] = against_middle(r);
            w.f32(f).f32(a).f32(b)
        }),
        16 | 22 => w.each(loudness(r, n), Writer::f32),
        17 | 18 => {
            let (lo, hi) = if r.one_in(3) { (0, n) } else { part(r, n) };
            w.size(lo).size(hi).each(level(r, n), Writer::f32)
        }
        19 | 20 => {
            let n = n.max(1);
            let (a, b) = part(r, n - 1);
            w.size(a).size(b).each(level(r, n), Writer::f32)
        }
        21 => {
            let n = n.max(1);
            let (a, b) = part(r, n - 1);
            let s = level(r, n);
            let dip = dip_beside(r, &s[a..=b]);
            w.size(a).size(b).f32(dip).each(s, Writer::f32)
        }
        23..=25 => w.f32(setting(r)).each(loudness(r, n), Writer::f32),
        26..=29 => w.each(pitches(r, n, 20.0, 4000.0), Writer::f32),
        30 => {
            let runs = runs(r, n.min(64));
            let at = beside_run(r, &runs);
            w.size(at).each(runs, |w, (a, b)| w.size(a).size(b))
        }
        _ => w,
    };
    w.bytes
}

/// How many items: mostly few, at times as many as there may be.
pub fn length(r: &mut Random) -> usize {
    match r.below(64) {
        0 => 0,
        1..=12 => r.between(1, 8),
        13..=55 => r.between(1, 48),
        56..=61 => r.between(49, 300),
        62 => r.between(301, MAX_FRAMES),
        _ => r.between(MAX_FRAMES - 8, MAX_FRAMES),
    }
}

/// Two places in order, each from 0 to `last`.
fn part(r: &mut Random, last: usize) -> (usize, usize) {
    let (x, y) = (r.between(0, last), r.between(0, last));
    (x.min(y), x.max(y))
}

// Numbers

/// Any f32, a NaN of any kind among them; often one that is special.
fn any(r: &mut Random) -> f32 {
    const SPECIAL: [u32; 16] = [
        0x0000_0000, // zeros
        0x8000_0000,
        0x0000_0001, // subnormals and the least normal
        0x8000_0001,
        0x007f_ffff,
        0x0080_0000,
        0x7f7f_ffff, // the largest
        0xff7f_ffff,
        0x7f80_0000, // infinities
        0xff80_0000,
        0x7f80_0001, // NaNs
        0xff80_0001,
        0x7fc0_0000,
        0xffff_ffff,
        0x3f80_0000, // 1 and -1
        0xbf80_0000,
    ];
    f32::from_bits(if r.one_in(3) {
        r.pick(&SPECIAL)
    } else {
        r.bits() as u32
    })
}

fn no_nan(r: &mut Random) -> f32 {
    let x = any(r);
    if x.is_nan() {
        f32::from_bits(x.to_bits() & 0xff80_0000)
    } else {
        x
    }
}

/// An f64 for rounding: around the f32s, their middles, their ends and the subnormal ones.
fn wide(r: &mut Random) -> f64 {
    let sign = r.pick(&[1.0, -1.0]);
    let nudge = |r: &mut Random, x: f64| ulps64(x, r.between(0, 4) as i64 - 2);
    match r.below(8) {
        0 => f64::from_bits(r.bits()),
        1 => f64::from(any(r)),
        // Between two neighbouring f32s: the middle and beside it.
        2 | 3 => {
            let x = f32::from_bits(r.bits() as u32 & 0x7f7f_ffff);
            let up = f64::from(f32::from_bits(x.to_bits() + 1).min(f32::MAX));
            nudge(r, sign * (f64::from(x) + up) / 2.0)
        }
        // Subnormal f32s, their middles and below the least.
        4 => {
            let halves = r.between(0, 1 << 20) as f64;
            nudge(r, sign * halves * 2f64.powi(-150))
        }
        5 => sign * r.unit() * 2f64.powi(-126 - r.below(30) as i32),
        // The limit to infinity: the largest f32 and half a step beyond it.
        6 => {
            let top = f64::from(f32::MAX);
            let limit = top + 2f64.powi(103);
            let x = r.pick(&[top, limit, 2f64.powi(128), f64::MAX, f64::INFINITY]);
            nudge(r, sign * x)
        }
        // What the floor rounds: an interpolated dB.
        _ => {
            let (lo, hi) = (f64::from(decibel(r)), f64::from(decibel(r)));
            let t = 0.1 * r.below(MAX_FRAMES) as f64;
            lo + t.fract() * (hi - lo)
        }
    }
}

/// `x` moved by some f64 steps; the ends stay where they are.
fn ulps64(x: f64, steps: i64) -> f64 {
    if !x.is_finite() {
        return x;
    }
    let moved = f64::from_bits((x.to_bits() as i64).wrapping_add(steps) as u64);
    // At zero a step down would wrap into a NaN.
    if moved.is_nan() {
        x
    } else {
        moved
    }
}

fn ulps32(x: f32, steps: i32) -> f32 {
    f32::from_bits((x.to_bits() as i32).wrapping_add(steps) as u32)
}

/// Floats to be put in order: all different, or few values often.
fn ordered(r: &mut Random, n: usize) -> Vec<f32> {
    if r.one_in(2) {
        return (0..n).map(|_| no_nan(r)).collect();
    }
    let few: Vec<f32> = (0..r.between(1, 6)).map(|_| no_nan(r)).collect();
    (0..n).map(|_| r.pick(&few)).collect()
}

/// Numbers to be sorted: any, few values often, sorted either way, or nearly sorted.
fn keys(r: &mut Random, n: usize) -> Vec<u64> {
    let bits = r.pick(&[2, 8, 32, 44, 64]);
    let mut keys: Vec<u64> = (0..n).map(|_| r.bits() >> (64 - bits)).collect();
    match r.below(6) {
        0 => keys.sort_unstable(),
        1 => {
            keys.sort_unstable();
            keys.reverse();
        }
        2 if n > 1 => {
            keys.sort_unstable();
            let (i, j) = (r.below(n), r.below(n));
            keys.swap(i, j);
        }
        3 if n > 0 => keys[0] = r.pick(&[0, u64::MAX]),
        _ => {}
    }
    keys
}

/// Candidates: frames, and weights that are often equal.
fn weights(r: &mut Random, n: usize) -> Vec<(u32, f32)> {
    let style = r.below(5);
    let frames = if r.one_in(8) {
        usize::MAX >> 32
    } else {
        n.max(1)
    };
    let mut step = 0;
    (0..n)
        .map(|_| {
            step += r.between(1, 4) as u32;
            let weight = match style {
                0 => no_nan(r),
                1 => r.real(0.0, 80.0) as f32,
                2 => r.below(3) as f32 * 0.5,
                3 => 0.0,
                _ => r.pick(&[0.0, -0.0, 1.0, 40.0, f32::from_bits(1)]),
            };
            // As a stage makes them, in rising order, or in any.
            let frame = if style == 1 {
                step
            } else {
                r.below(frames) as u32
            };
            (frame, weight)
        })
        .collect()
}

/// `x` as a pitch from `lo` to `hi`.
fn clamped(x: f64, lo: f32, hi: f32) -> f32 {
    (x as f32).clamp(lo, hi)
}

/// Any pitch from `lo` to `hi`: evenly, by octaves, round, or an end.
fn pitch(r: &mut Random, lo: f32, hi: f32) -> f32 {
    let (low, high) = (f64::from(lo), f64::from(hi));
    match r.below(8) {
        0..=2 => clamped(r.real(low, high), lo, hi),
        3..=5 => {
            let octave = (1 << r.below(8)) as f64;
            clamped(low * octave * r.real(1.0, 2.0), lo, hi)
        }
        6 => clamped(r.real(low, high).round(), lo, hi),
        _ => r.pick(&[lo, hi, ulps32(lo, 1), ulps32(hi, -1)]),
    }
}

// 1.5, 3 and 9 semitones up, as near as f64 has them: written out, so that no library's power
// decides what is drawn.
const UP_1_5: f64 = 1.0905077326652577;
const UP_3: f64 = 1.189207115002721;
const UP_9: f64 = 1.681792830507429;

/// A pitch within a few steps of `near` times or through `factor`, where that is one; else any.
fn beside(r: &mut Random, near: f64, factor: f64, lo: f32, hi: f32) -> f32 {
    let there = r.pick(&[near * factor, near / factor]);
    let x = ulps32(there as f32, r.between(0, 6) as i32 - 3);
    if (lo..=hi).contains(&x) {
        x
    } else {
        pitch(r, lo, hi)
    }
}

/// Two pitches, mostly beside 3 semitones apart, either way round.
fn pitch_pair(r: &mut Random) -> (f32, f32) {
    let q = pitch(r, 20.0, 4000.0);
    let p = match r.below(8) {
        0 => pitch(r, 20.0, 4000.0),
        1 => beside(r, q.into(), 1.0, 20.0, 4000.0),
        2 => clamped(f64::from(q) * r.real(1.1, 1.3), 20.0, 4000.0),
        _ => beside(r, q.into(), UP_3, 20.0, 4000.0),
    };
    (p, q)
}

/// Two estimates, mostly beside 1.5 semitones apart, either way round.
fn estimate_pair(r: &mut Random) -> (f64, f64) {
    let (lo, hi) = (60.0, 600.0);
    let q = match r.below(8) {
        0 => r.pick(&[lo, hi, 200.0]),
        // A whole lag, as silence in the parabola gives it.
        1 => 16_000.0 / r.between(32, 229) as f64,
        _ => r.real(lo, hi),
    };
    let p = match r.below(8) {
        0 => r.real(lo, hi),
        1 => q,
        2 => q * r.real(1.08, 1.1),
        _ => {
            let there = r.pick(&[q * UP_1_5, q / UP_1_5]);
            ulps64(there, r.between(0, 8) as i64 - 4)
        }
    };
    (p.clamp(lo, hi), q)
}

/// A pitch and its neighbours' middle values, mostly beside 9 semitones off.
fn against_middle(r: &mut Random) -> [f32; 3] {
    let (lo, hi) = (20.0, 4000.0);
    let a = pitch(r, lo, hi);
    let b = match r.below(4) {
        0 => a,
        1 => clamped(f64::from(a) * r.real(1.0, 1.2), lo, hi),
        2 => ulps32(a, 1).min(hi),
        _ => pitch(r, lo, hi),
    };
    let middle = (f64::from(a) * f64::from(b)).sqrt();
    let f = match r.below(8) {
        0 => pitch(r, lo, hi),
        1 => clamped(middle * r.pick(&[0.5, 1.0, 2.0]), lo, hi),
        _ => beside(r, middle, UP_9, lo, hi),
    };
    [f, a, b]
}

// Tracks

/// A margin or a dip.
pub fn setting(r: &mut Random) -> f32 {
    match r.below(8) {
        0..=2 => r.pick(&[10.0, 3.0, 2.0]),
        3 | 4 => r.pick(&[0.0, -0.0, 0.1, 0.5, 20.0, 30.0, 40.0, 80.0, 200.0]),
        5 => r.below(801) as f32 / 4.0,
        6 => f32::from_bits(r.between(1, 0x4348_0000) as u32),
        _ => r.real(0.0, 60.0) as f32,
    }
}

/// Any finite dB that is admitted.
fn decibel(r: &mut Random) -> f32 {
    match r.below(6) {
        0 => r.pick(&[
            0.0,
            -0.0,
            1000.0,
            -1000.0,
            f32::from_bits(1),
            -f32::from_bits(1),
            f32::MIN_POSITIVE,
            -100.0,
        ]),
        1 => {
            // Any size from the subnormals to 1,000.
            let x = f32::from_bits(r.between(0, 0x447a_0000) as u32);
            r.pick(&[x, -x])
        }
        2 => r.real(-1000.0, 1000.0) as f32,
        3 => r.between(0, 1600) as f32 / 16.0 - 100.0,
        _ => r.real(-100.0, 0.0) as f32,
    }
}

/// A dB track: noise, flat stretches, ties, syllables or extremes, at times with frames that are
/// not finite.
pub fn loudness(r: &mut Random, n: usize) -> Vec<f32> {
    let mut db: Vec<f32> = match r.below(10) {
        0 => (0..n).map(|_| r.real(-100.0, 0.0) as f32).collect(),
        1 | 2 => {
            let few = [-60.0, -50.0, -40.0, -20.0, 0.0];
            flats(r, n, |r| r.pick(&few))
        }
        3 => {
            let grain = r.pick(&[1.0, 2.0, 16.0]);
            (0..n)
                .map(|_| (r.real(-70.0, -10.0) as f32 * grain).round() / grain)
                .collect()
        }
        4 => (0..n).map(|_| decibel(r)).collect(),
        5 => flats(r, n, decibel),
        6 => {
            // A click, or speech one frame short of a region.
            let (at, loud) = (r.between(0, n), r.between(3, 7));
            let near = |i: usize| (at..at + loud).contains(&i);
            (0..n)
                .map(|i| if near(i) { -20.0 } else { -60.0 })
                .collect()
        }
        7 => slopes(r, n),
        _ => syllables(r, n),
    };
    if r.one_in(3) {
        let every = r.pick(&[1, 2, 4, 16, 64]);
        for d in &mut db {
            if r.one_in(every) {
                *d = match r.below(8) {
                    0 => f32::INFINITY,
                    1 => f32::NEG_INFINITY,
                    2 => f32::from_bits(r.pick(&[0x7f80_0001, 0xffc1_2345, 0x7fff_ffff])),
                    3 => -0.0,
                    _ => f32::NAN,
                };
            }
        }
    }
    db
}

/// Stretches of equal values.
fn flats(r: &mut Random, n: usize, mut value: impl FnMut(&mut Random) -> f32) -> Vec<f32> {
    let longest = r.pick(&[2, 4, 12, 40]);
    let mut out = Vec::with_capacity(n + longest);
    while out.len() < n {
        let (x, times) = (value(r), r.between(1, longest));
        out.extend(std::iter::repeat_n(x, times));
    }
    out.truncate(n);
    out
}

/// Up and down in equal steps: many equal tops and bottoms.
fn slopes(r: &mut Random, n: usize) -> Vec<f32> {
    let mut x = -40.0;
    let mut step = 2.0;
    let turn = r.pick(&[3, 6, 12]);
    (0..n)
        .map(|_| {
            if r.one_in(turn) {
                step = r.pick(&[2.0, -2.0, 0.0, 0.5, -0.5]);
            }
            x = (x + step as f32).clamp(-90.0, 0.0);
            x
        })
        .collect()
}

/// Loud stretches of some 6 to 30 frames over a noise floor, each a little uneven, some run
/// together with a shallow dip.
fn syllables(r: &mut Random, n: usize) -> Vec<f32> {
    let floor = r.real(-70.0, -50.0);
    let grain = r.pick(&[0.0, 0.01, 1.0, 3.0]);
    let mut out = Vec::new();
    while out.len() < n {
        for _ in 0..r.between(0, 12) {
            out.push((floor + grain * r.unit()) as f32);
        }
        let (top, size) = (r.real(-35.0, -10.0), r.between(4, 30));
        let dip = r.pick(&[0.0, 1.0, 2.0, 4.0]);
        for k in 0..size {
            let edge = k.min(size - 1 - k).min(3) as f64;
            let middle = if k == size / 2 { dip } else { 0.0 };
            out.push((top - 6.0 * (3.0 - edge) - middle + grain * r.unit()) as f32);
        }
    }
    out.truncate(n);
    out
}

/// A level: a smoothed track, or values such as one can hold. No zero in it is negative.
fn level(r: &mut Random, n: usize) -> Vec<f32> {
    let db = loudness(r, n);
    if r.one_in(2) {
        return tonekit_segment::probe::level(&db);
    }
    let finite = |d: f32| if d.is_finite() { d + 0.0 } else { -100.0 };
    db.into_iter().map(finite).collect()
}

/// A dip: any, or beside the depth of this part of a level, where the answer turns.
pub fn dip_beside(r: &mut Random, s: &[f32]) -> f32 {
    let low = s.iter().copied().fold(f32::INFINITY, f32::min);
    let depth = s[0].min(s[s.len() - 1]) - low;
    match r.below(4) {
        0 | 1 if (0.0..=200.0).contains(&depth) => {
            let steps = r.between(0, 2) as i32 - 1;
            let dip = if depth == 0.0 {
                f32::from_bits(steps.max(0) as u32)
            } else {
                ulps32(depth, steps)
            };
            dip.min(200.0)
        }
        _ => setting(r),
    }
}

/// A pitch track: runs of every length with gaps of 0 to 5 frames and longer ones, the pitch
/// steady, gliding, wild or an octave off, and across a gap often beside 3 semitones away.
pub fn pitches(r: &mut Random, n: usize, lo: f32, hi: f32) -> Vec<f32> {
    let mut out: Vec<f32> = Vec::new();
    let longest = r.pick(&[2, 5, 7, 7, 12, 40]);
    let sparse = r.one_in(4);
    let mut last = pitch(r, lo, hi);
    while out.len() < n {
        let gap = match r.below(8) {
            0..=2 => r.between(0, 3),
            3..=6 => r.between(2, 5),
            _ => r.between(6, 20),
        };
        out.extend(std::iter::repeat_n(0.0, gap));
        let mut hz = match r.below(6) {
            0 => pitch(r, lo, hi),
            1 => last,
            2 => {
                let factor = r.pick(&[2.0, UP_9]);
                beside(r, last.into(), factor, lo, hi)
            }
            _ => beside(r, last.into(), UP_3, lo, hi),
        };
        let style = r.below(6);
        for _ in 0..r.between(1, longest) {
            let shown = match style {
                0 => pitch(r, lo, hi),
                1 if r.one_in(3) => {
                    let factor = r.pick(&[2.0, 1.75, UP_9, UP_9]);
                    beside(r, hz.into(), factor, lo, hi)
                }
                _ => hz,
            };
            out.push(shown);
            if style >= 3 {
                hz = clamped(f64::from(hz) * r.real(0.97, 1.03), lo, hi);
            }
            if sparse {
                out.extend(std::iter::repeat_n(0.0, r.between(0, 3)));
            }
        }
        last = hz;
    }
    out.truncate(n);
    out
}

/// Runs in rising order, apart from each other, as `(first, last)`.
fn runs(r: &mut Random, count: usize) -> Vec<(usize, usize)> {
    let mut at = r.between(0, 6);
    (0..count)
        .map(|_| {
            let first = at;
            let last = first + r.pick(&[0, 1, 4, 4, 9, 20]);
            at = last + r.between(1, 8);
            (first, last)
        })
        .collect()
}

/// A frame in a run, in a gap or past them all.
fn beside_run(r: &mut Random, runs: &[(usize, usize)]) -> usize {
    match runs {
        [] => r.below(MAX_FRAMES),
        _ => {
            let (first, last) = r.pick(runs);
            let near = r.pick(&[first, last]);
            (near + r.between(0, 10)).saturating_sub(5)
        }
    }
}

// Fixed inputs

/// Inputs that are always among those compared: none, one, the specification's cases and zeros
/// whose sign is easily lost.
pub fn fixed(kind: u8) -> Vec<Vec<u8>> {
    let (k2, k3) = (cases::k2(238.0), cases::k2(237.0));
    let level = tonekit_segment::probe::level(&k2.db);
    let least = f32::from_bits(1);
    // A mean that rounds to zero from below, and a floor that does.
    let mut below_zero = [0.0; 8];
    below_zero[0] = -least;
    let after = |w: Writer, xs: &[f32]| w.each(xs.iter().copied(), Writer::f32).bytes;
    let floats = |xs: &[f32]| after(Writer::new(), xs);
    match kind {
        1..=5 => vec![vec![]],
        6 => vec![vec![], floats(&[238.0, 200.0, 237.0, 200.0, 200.0, 238.0])],
        7 => {
            let pairs = [200.0, 218.0, 200.0, 219.0, 219.0, 200.0];
            vec![vec![], Writer::new().each(pairs, Writer::f64).bytes]
        }
        8 => {
            let rows = [
                [200.0, 118.0, 118.0],
                [200.0, 119.0, 119.0],
                [200.0, 110.0, 128.0],
                [200.0, 110.0, 130.0],
                [50.0, 84.0, 84.0],
                [50.0, 85.0, 85.0],
            ];
            vec![vec![], floats(rows.as_flattened())]
        }
        16 | 22 => vec![
            vec![],
            floats(&[-0.0]),
            floats(&[f32::NAN]),
            floats(&below_zero),
            floats(&k2.db),
        ],
        17 | 18 => {
            let within = |lo, hi, xs: &[f32]| after(Writer::new().size(lo).size(hi), xs);
            vec![
                within(0, 0, &[]),
                within(0, 1, &[1.0]),
                within(4, 28, &level),
                within(0, 32, &level),
            ]
        }
        19 | 20 => {
            let between = |a, b, xs: &[f32]| after(Writer::new().size(a).size(b), xs);
            vec![between(0, 0, &[1.0]), between(13, 21, &level)]
        }
        21 => {
            let depth = |dip, xs: &[f32]| after(Writer::new().size(0).size(2).f32(dip), xs);
            vec![
                depth(2.0, &[-20.0, -22.0, -20.0]),
                depth(2.0f32.next_up(), &[-20.0, -22.0, -20.0]),
            ]
        }
        23..=25 => {
            let margin = |m, xs: &[f32]| after(Writer::new().f32(m), xs);
            vec![
                margin(10.0, &[]),
                margin(-0.0, &below_zero),
                margin(40.0, &k2.db),
                margin(40.0f32.next_down(), &k2.db),
                margin(10.0, &cases::k1().db),
                // 4 speech frames and 5.
                margin(10.0, &loud_frames(4)),
                margin(10.0, &loud_frames(5)),
            ]
        }
        26..=29 => vec![
            vec![],
            floats(&[200.0]),
            floats(&k2.pitch),
            floats(&k3.pitch),
        ],
        30 => {
            // As near to both: the earlier.
            let tie = Writer::new().size(4).each([0, 2, 6, 9], Writer::size);
            vec![Writer::new().size(3).bytes, tie.bytes]
        }
        32 => [
            vec![
                vec![],
                floats(&[118.0, 118.0, 200.0, 118.0, 118.0]),
                floats(&[119.0, 119.0, 200.0, 119.0, 119.0]),
                floats(&[110.0, 110.0, 200.0, 128.0, 128.0]),
                floats(&[110.0, 110.0, 200.0, 130.0, 130.0]),
                floats(&[44.0, 44.0, 44.0, 76.0, 44.0, 44.0, 44.0]),
                floats(&[-0.0]),
                floats(&[39.0]),
            ],
            limits::inputs(kind),
            calls::refused(kind),
        ]
        .concat(),
        56 => [cases::k1(), k2, k3, cases::split_outside()]
            .iter()
            .map(|take| take.write())
            .chain(limits::files())
            .collect(),
        33 => {
            // K7, of which the first four lags are asked for.
            let samples = [0, 1, 0, 2, 0, 1, 0, 2];
            vec![vec![], Writer::new().each(samples, Writer::u8).bytes]
        }
        35..=48 => calls::fixed(kind),
        _ => vec![],
    }
}

/// A quiet track with some loud frames.
fn loud_frames(count: usize) -> Vec<f32> {
    let mut db = vec![-60.0; 16];
    db[4..4 + count].fill(-20.0);
    db
}

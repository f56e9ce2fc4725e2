//! Takes that resemble speech: loudness, pitch, sonority and sound, with what the stages decide by:
//! runs and gaps about as long as a limit, flat tops, shallow and deep valleys, octave errors, tones
//! that jump.

use crate::random::Random;

/// Loudness and pitch of syllables: each loud stretch holds a run or two, a creak at times, or
/// no pitch.
pub fn spoken(r: &mut Random, n: usize, (lo, hi): (f32, f32)) -> (Vec<f32>, Vec<f32>) {
    let (mut db, mut pitch): (Vec<f32>, Vec<f32>) = (Vec::new(), Vec::new());
    let ties = r.one_in(2);
    let mut hz = r.real(90.0, 300.0);
    while db.len() < n {
        for _ in 0..r.pick(&[0, 1, 3, 5, 9]) {
            db.push(if ties {
                -60.0
            } else {
                r.real(-64.0, -58.0) as f32
            });
            pitch.push(0.0);
        }
        let (size, top) = (r.between(5, 40), r.pick(&[-20.0, -20.0, -24.0, -14.0]));
        let (from, till) = (r.between(0, 3), size - r.between(0, 3));
        let creak = r.between(0, 2 * size);
        let silent = r.one_in(6);
        hz *= r.pick(&[1.0, 1.0, 1.1, 1.2, 0.9, 0.8, 1.185, 1.19]);
        hz = hz.clamp(lo.into(), hi.into());
        for k in 0..size {
            let dip = if r.one_in(12) { 3.0 } else { 0.0 };
            let uneven = if ties { 0.0 } else { r.real(-1.0, 1.0) as f32 };
            db.push(top - dip + uneven);
            let voiced = (from..till).contains(&k) && !(creak..creak + 4).contains(&k);
            let off = if r.one_in(30) {
                r.pick(&[0.5, 2.0])
            } else {
                1.0
            };
            let shown = ((hz * off) as f32).clamp(lo, hi);
            pitch.push(if voiced && !silent { shown } else { 0.0 });
        }
    }
    db.truncate(n);
    pitch.truncate(n);
    (db, pitch)
}

/// Loudness and pitch of stretches that last up to 60 frames, with values that are often equal: hills,
/// terraces and slopes over a quiet level, runs of every length with gaps of every length in them.
pub fn phrases(r: &mut Random, n: usize, range: (f32, f32)) -> (Vec<f32>, Vec<f32>) {
    let (mut db, mut pitch): (Vec<f32>, Vec<f32>) = (Vec::new(), Vec::new());
    let quiet = r.pick(&[-60.0, -60.0, -60.0, -70.0, -30.0, -150.0]);
    let top = quiet + r.pick(&[40.0, 40.0, 25.0, 15.0, 8.0]);
    let mut hz = r.real(90.0, 300.0);
    while db.len() < n {
        for _ in 0..r.pick(&[0, 0, 0, 1, 2, 3, 4, 6, 10]) {
            db.push(quiet);
            pitch.push(0.0);
        }
        let size = match r.below(4) {
            0 => r.between(3, 9),
            1 => r.between(8, 20),
            2 => r.between(18, 34),
            _ => r.between(34, 60),
        };
        db.extend(hills(r, size, top));
        pitch.extend(voicing(r, size, &mut hz, range));
    }
    db.truncate(n);
    pitch.truncate(n);
    if r.one_in(5) && n > 0 {
        for _ in 0..r.between(1, 4) {
            db[r.below(n)] = r.pick(&[f32::NAN, f32::INFINITY, f32::NEG_INFINITY]);
        }
    }
    if r.one_in(8) {
        // A pitch lost for some time.
        let (x, y) = (r.between(0, n), r.between(0, n));
        pitch[x.min(y)..x.max(y)].fill(0.0);
    }
    (db, pitch)
}

/// The loudness of one stretch: flat, in terraces, up and down, or uneven.
fn hills(r: &mut Random, size: usize, top: f32) -> Vec<f32> {
    let below = [0.0, 0.0, 0.5, 1.0, 1.5, 2.0, 2.5, 3.0, 4.0, 6.0, 9.0];
    let steep = [0.0, 0.0, 3.0, 6.0, 12.0, 20.0, 40.0];
    let style = r.below(6);
    let mut value = top;
    let mut step = -1.0;
    let mut left = 0;
    let next = |_| {
        match style {
            0 => {}
            1 | 2 => {
                if left == 0 {
                    left = r.between(1, if style == 1 { 9 } else { 3 });
                    value = top - r.pick(&below);
                }
                left -= 1;
            }
            3 => {
                if r.one_in(5) {
                    step = r.pick(&[1.0, -1.0, 2.0, -2.0, 0.5, 0.0]);
                }
                value = (value + step).clamp(top - 12.0, top);
            }
            4 => {
                if left == 0 {
                    left = r.between(1, 5);
                    value = top - r.pick(&steep);
                }
                left -= 1;
            }
            _ => value = top - r.real(0.0, 4.0) as f32,
        }
        value
    };
    (0..size).map(next).collect()
}

/// The pitches of one stretch. Across a gap the pitch stays, or moves about 3 semitones or far; a
/// frame is an octave off at times.
fn voicing(r: &mut Random, size: usize, hz: &mut f64, (lo, hi): (f32, f32)) -> Vec<f32> {
    if r.one_in(5) {
        return vec![0.0; size];
    }
    let mut out = vec![0.0; r.between(0, 4)];
    if r.one_in(5) {
        // A voice that creaks: gaps across which the pitch stays.
        while out.len() < size {
            out.extend(vec![*hz as f32; r.between(5, 20)]);
            out.extend(vec![0.0; r.between(3, 6)]);
        }
        out.truncate(size);
        return out;
    }
    let loose = r.one_in(6);
    while out.len() < size {
        for _ in 0..r.pick(&[1, 3, 4, 5, 5, 6, 8, 13, 16, 24, 48]) {
            let off = if r.one_in(24) {
                r.pick(&[0.5, 2.0, 1.7])
            } else {
                1.0
            };
            out.push(((*hz * off) as f32).clamp(lo, hi));
            if r.one_in(if loose { 3 } else { 24 }) {
                out.extend(vec![0.0; r.between(1, 2)]);
            }
        }
        out.extend(vec![0.0; r.pick(&[1, 2, 3, 3, 4, 5, 7, 10])]);
        let moves = [
            1.0, 1.0, 1.0, 1.05, 0.95, 1.18, 1.185, 1.19, 1.2, 0.845, 0.84, 0.83, 1.5, 0.6,
        ];
        *hz = (*hz * r.pick(&moves)).clamp(lo.into(), hi.into());
    }
    out.truncate(size);
    out
}

/// Sonority: stretches of one value with sudden and gradual changes, often about 0.2 or up to 0.5.
pub fn steps(r: &mut Random, n: usize) -> Vec<f32> {
    let mut share = 0.75;
    let every = r.pick(&[1, 2, 8, 20]);
    let tenths = r.one_in(2);
    let step = |_| {
        if r.one_in(every) {
            share = match r.below(4) {
                0 if !tenths => r.unit() as f32,
                1 => r.pick(&[0.0, -0.0, 0.5, 1.0, 0.2, 0.4, 0.6]),
                _ if tenths => r.between(2, 8) as f32 / 10.0,
                _ => r.pick(&[0.75, 0.5, 0.25]),
            };
        }
        share
    };
    (0..n).map(step).collect()
}

/// Samples: periodic with some noise, a square, noise, a constant, silence, or extremes.
pub fn sound(r: &mut Random, size: usize) -> Vec<i16> {
    // The shortest and the longest that are looked for, often.
    let period = match r.below(4) {
        0 => r.pick(&[30, 31, 32, 33, 228, 229, 230, 231]),
        _ => r.between(20, 260),
    };
    let loud = r.pick(&[1, 3, 100, 8000, 32_767]);
    let wave: Vec<i64> = (0..period)
        .map(|_| r.below(2 * loud + 1) as i64 - loud as i64)
        .collect();
    let style = r.below(8);
    let noise = r.pick(&[0, 1, loud / 4, loud]);
    (0..size)
        .map(|j| {
            let stray = r.below(2 * noise + 1) as i64 - noise as i64;
            let v = match style {
                0 => 0,
                1 => loud as i64,
                2 => stray,
                3 => [loud as i64, -(loud as i64)][2 * (j % period) / period],
                4 => [i64::from(i16::MIN), i64::from(i16::MAX)][j % 2],
                _ => wave[j % period] + stray,
            };
            v.clamp(i16::MIN.into(), i16::MAX.into()) as i16
        })
        .collect()
}

/// A voice: tones of some frames each, with silence and noise between at times. The next tone is the
/// same, about 1.5 semitones away, or an octave.
pub fn voice(r: &mut Random, size: usize) -> Vec<i16> {
    let mut out = Vec::with_capacity(size);
    // In sixteenths of a sample.
    let mut period = r.between(16 * 33, 16 * 226);
    let loud = r.pick(&[2, 50, 3000, 3000, 16_000]);
    let wave: Vec<i64> = (0..r.pick(&[4, 8, 16, 64]))
        .map(|_| r.below(2 * loud + 1) as i64 - loud as i64)
        .collect();
    let noise = r.pick(&[0, 0, 0, loud / 8, loud / 2]);
    let mut phase = 0;
    while out.len() < size {
        let silent = r.one_in(8);
        for _ in 0..80 * r.between(3, 16) {
            let stray = r.below(2 * noise + 1) as i64 - noise as i64;
            phase = (phase + 16) % period;
            let tone = wave[phase * wave.len() / period];
            let v = if silent { 0 } else { tone + stray };
            out.push(v.clamp(i16::MIN.into(), i16::MAX.into()) as i16);
        }
        // Thousandths: up or down.
        let moved = r.pick(&[
            1000, 1000, 1030, 1080, 1088, 1090, 1092, 1100, 1150, 2000, 2000, 3000,
        ]);
        let next = if r.one_in(2) {
            period * moved / 1000
        } else {
            period * 1000 / moved
        };
        if (16 * 30..=16 * 232).contains(&next) {
            period = next;
        }
        phase %= period;
    }
    out.truncate(size);
    out
}

/// A tone that leaps an octave up and back, each time after some frames: `half` samples over and over,
/// higher and lower by turns by `odd`, so that they repeat after twice `half`; without that, after `half`.
/// The parts last as many samples as `parts` says, the first with the turns.
pub fn leaping(half: &[i16], odd: i16, parts: impl IntoIterator<Item = usize>) -> Vec<i16> {
    let mut out: Vec<i16> = Vec::new();
    for (k, size) in parts.into_iter().enumerate() {
        let part = out.len()..out.len() + size;
        out.extend(part.map(|j| {
            let turn = if j / half.len() % 2 == 0 { odd } else { -odd };
            half[j % half.len()] + if k % 2 == 0 { turn } else { 0 }
        }));
    }
    out
}

/// Such a tone of about `size` samples, with parts of about the frames that the repair of stretches beside
/// each other hangs on.
pub fn leaps(r: &mut Random, size: usize) -> Vec<i16> {
    let loud = r.pick(&[4, 300, 3000, 16_000]);
    let half: Vec<i16> = (0..r.between(33, 112))
        .map(|_| (r.below(2 * loud + 1) as i64 - loud as i64) as i16)
        .collect();
    let odd = r.pick(&[loud / 2, 3 * loud / 4, loud - 1]) as i16;
    let mut parts = Vec::new();
    while parts.iter().sum::<usize>() < size {
        parts.push(80 * r.pick(&[2, 5, 6, 7, 8, 9, 10, 12, 16, 40]));
    }
    leaping(&half, odd, parts)
}

/// Few samples of few values, which repeat by simple fractions: uneven tones, or pulses.
pub fn few_samples(r: &mut Random) -> Vec<i16> {
    let size = r.between(32, 120);
    let values: &[i16] = match r.below(4) {
        0 => &[0, 0, 1],
        1 => &[0, 1, 2],
        2 => &[-1, 0, 1],
        _ => &[0, 0, 0, 1, 3],
    };
    let period = r.between(30, 60);
    let filled = r.pick(&[3, 6, period, period]);
    let tone: Vec<i16> = (0..period)
        .map(|j| if j < filled { r.pick(values) } else { 0 })
        .collect();
    let stray = r.pick(&[2, 6, 20, 1000]);
    let sample = |j: usize| {
        if j % period < filled && r.one_in(stray) {
            r.pick(values)
        } else {
            tone[j % period]
        }
    };
    (0..size).map(sample).collect()
}

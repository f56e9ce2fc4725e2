//! Calls of the entries, as inputs of the kinds from 32 on: fixed ones with what the specification
//! names and with every fault that is refused, and random ones.

use crate::bytes::Writer;
use crate::cases;
use crate::entry::{self, Settings, CLASSIC, DEFAULTS, MAX_FRAMES, MAX_SAMPLES};
use crate::generate::{dip_beside, length, loudness, pitches, setting};
use crate::limits;
use crate::random::Random;
use crate::speech::{few_samples, leaps, phrases, sound, spoken, steps, voice};
use crate::stages::{write, write_i16, WINDOW};
use crate::take::Take;
use tonekit_segment::probe;

/// Everything that a call can bring.
pub struct Call {
    pub settings: Settings,
    pub region: (u32, u32),
    pub db: Vec<f32>,
    pub pitch: Vec<f32>,
    pub voiced_p: Vec<f32>,
    pub sonority: Vec<f32>,
    pub speech: Vec<u8>,
    pub vowel: Vec<u8>,
    pub nuclei: Vec<u32>,
    pub stored: Vec<i16>,
    pub samples: usize,
    /// Of nuclei, extras, edges and boundaries.
    pub rooms: [usize; 4],
}

impl Call {
    /// A take with a region and nuclei, every mark set, lists as long as they must be, a steady
    /// tone of 200 Hz.
    pub fn of(take: &Take, region: (u32, u32), nuclei: &[u32]) -> Call {
        let n = take.db.len();
        let wave = |j: usize| [1000, 3000, 1000, -2000, -3000][j / 16] + j as i16;
        Call {
            settings: take.settings,
            region,
            db: take.db.clone(),
            pitch: take.pitch.clone(),
            voiced_p: take.voiced_p.clone(),
            sonority: take.sonority.clone(),
            speech: vec![1; n],
            vowel: vec![1; n],
            nuclei: nuclei.to_vec(),
            stored: (0..80).map(wave).collect(),
            samples: 160 * n,
            rooms: [n, n, n, n + 1],
        }
    }

    /// A loud take with no pitch, all of it to be recovered.
    fn unpitched() -> Call {
        let mut take = cases::k1();
        take.pitch.fill(0.0);
        Call::of(&take, (4, 12), &[])
    }

    /// Makes the fault of one refusal number.
    fn spoil(&mut self, kind: u8, number: u8) {
        let n = self.db.len();
        let long = MAX_FRAMES + 1;
        match (number, kind) {
            (1, 32) => self.pitch.resize(long, 0.0),
            (1, 35) => self.speech.resize(long, 0),
            (1, 36 | 37 | 40) => self.db.resize(long, 0.0),
            (1, 41..=43) => self.nuclei.resize(long, 0),
            (1, _) => self.vowel.resize(long, 0),
            (2, _) => self.pitch.truncate(n - 1),
            (3, _) => self.settings.dip = -1.0,
            (4, _) => self.db[n - 1] = 1001.0,
            (5, _) => self.pitch[n - 2] = -0.0,
            (6, 35) => self.speech[n - 1] = 2,
            (6, 41) => self.sonority[n - 1] = 1.5,
            (6, _) => self.vowel[n - 1] = 2,
            (7, _) => self.region = (0, n as u32 + 1),
            (8, _) => self.nuclei = vec![13, 13],
            (9, _) => self.samples = MAX_SAMPLES + 1,
            _ => self.rooms = [n - 1, n - 1, n - 1, n],
        }
    }
}

// Fixed inputs

/// The specification's takes and some small ones, then calls with faults.
pub fn fixed(kind: u8) -> Vec<Vec<u8>> {
    let calls = [
        Call::of(&cases::k1(), (4, 12), &[7]),
        Call::of(&cases::k2(238.0), (4, 28), &[13, 21]),
        Call::of(&cases::k2(237.0), (4, 28), &[13]),
        Call::of(&cases::k8(), (8, 32), &[15]),
        Call::of(&cases::split_outside(), (0, 5), &[1]),
        Call::of(&cases::split_outside(), (0, 0), &[2]),
        Call::of(&cases::one_edge_inside(), (11, 31), &[12, 21]),
        Call::of(&cases::below_the_chain(), (0, 7), &[]),
        Call::of(&cases::lost_mark(), (0, 1), &[0]),
        Call::unpitched(),
        Call::of(&cases::between_runs(), (0, 30), &[14]),
        Call::of(&cases::merged_twice(), (0, 30), &[24]),
        Call::of(&cases::held_from_outside(), (4, 17), &[11]),
        Call::of(&cases::slope(f32::from_bits(0x3e4c_cc6a)), (0, 17), &[9]),
        Call::of(&cases::slope(f32::from_bits(0x3e4c_cc2e)), (0, 17), &[]),
        Call::of(&cases::nearly_half(), (3, 8), &[]),
    ];
    let one_bit = cases::one_bit().map(|take| {
        let n = take.db.len();
        // In the run that one bit keeps from being split.
        let nuclei: &[u32] = if n > 2 { &[1] } else { &[] };
        Call::of(&take, (0, n as u32), nuclei)
    });
    // What tells the defaults from the classic set: nothing but the boundaries has an entry that takes
    // no settings.
    let settings: &[Settings] = match kind {
        42 => &[DEFAULTS, CLASSIC],
        43 => &[DEFAULTS],
        _ => &[],
    };
    let dipped = cases::DIPS.iter().flat_map(|&db| {
        settings.iter().map(move |&settings| {
            let mut call = Call::of(&cases::dipped(db), (0, 13), &[2, 10]);
            call.settings = settings;
            write(kind, &call)
        })
    });
    // Stretches recovered beside each other, an octave apart: the recovery leaves them so.
    let octaves = match kind {
        35 | 48 => &cases::OCTAVES[..],
        _ => &[],
    };
    let octaves = octaves.iter().map(|&(shape, _)| {
        let (take, sound) = cases::octaves(shape);
        let mut call = Call::of(&take, (0, 0), &[]);
        call.vowel = take.vowel;
        call.samples = sound.len();
        call.stored = sound;
        write(kind, &call)
    });
    let answered = calls.iter().chain(&one_bit).map(|call| write(kind, call));
    let answered = answered.chain(dipped).chain(octaves);
    let answered = answered.chain(limits::inputs(kind));
    answered.chain(refused(kind)).collect()
}

/// The refusal numbers that an entry's tests have.
fn numbers(kind: u8) -> &'static [u8] {
    match kind {
        32 => &[1, 5],
        35 => &[1, 5, 6, 9],
        36 => &[1, 3, 4, 10],
        37 => &[1, 3, 4],
        40 => &[1, 2, 3, 4, 5, 7, 10],
        41 => &[1, 2, 3, 4, 5, 6, 7, 8, 10],
        42 => &[1, 2, 3, 4, 5, 7, 8, 10],
        43 => &[1, 2, 4, 5, 7, 8, 10],
        48 => &[1, 2, 3, 4, 5, 6, 9, 10],
        _ => &[],
    }
}

/// Every fault of an entry by itself, and every two together.
pub fn refused(kind: u8) -> Vec<Vec<u8>> {
    let of = |faults: &[u8]| {
        let mut call = Call::of(&cases::k2(238.0), (4, 28), &[13, 21]);
        for &number in faults {
            call.spoil(kind, number);
        }
        write(kind, &call)
    };
    let numbers = numbers(kind);
    let mut out = Vec::new();
    for (k, &low) in numbers.iter().enumerate() {
        out.push(of(&[low]));
        // The higher first: a list that is too long is made last.
        out.extend(numbers[k + 1..].iter().map(|&high| of(&[high, low])));
    }
    out
}

// Random inputs

/// A random input for a kind of this file, with `n` frames where that is given.
pub fn input(kind: u8, r: &mut Random, n: Option<usize>) -> Vec<u8> {
    let w = Writer::new();
    if let 33 | 34 = kind {
        let size = match r.below(4) {
            0 => r.between(0, WINDOW),
            _ => WINDOW,
        };
        let samples = match r.below(3) {
            0 => sound(r, size),
            1 => voice(r, size),
            _ => few_samples(r),
        };
        return w.each(samples, write_i16).bytes;
    }
    let n = n.unwrap_or_else(|| frames(r));
    let call = drawn(kind, r, n);
    if kind == 56 {
        // A file's tracks are equally long and hold no samples.
        let file = file(r, &call);
        return damaged(r, file);
    }
    write(kind, &call)
}

/// The call of a random input of `n` frames, with what it is refused for, if anything.
fn drawn(kind: u8, r: &mut Random, n: usize) -> Call {
    let range = match kind {
        32 | 48 | 56 => entry::REPAIRABLE,
        _ => entry::PITCH,
    };
    let mut call = call(r, n, range);
    if kind == 43 && r.one_in(2) {
        stretch(r, &mut call);
    }
    if kind == 48 && r.one_in(3) {
        leap(r, &mut call);
    }
    // A file is damaged as a whole instead.
    if kind != 56 {
        for _ in 0..r.pick(&[0, 0, 0, 0, 0, 0, 1, 2]) {
            fault(r, &mut call);
        }
    }
    call
}

/// A call of the chain with silent samples, with sound, and with the sound times a whole number
/// that leaves it within 16 bits.
pub fn scaled(r: &mut Random) -> [Vec<u8>; 3] {
    let n = frames(r);
    let mut call = call(r, n, entry::REPAIRABLE);
    // Most takes lose their pitches, so that there is something to recover.
    if !r.one_in(4) {
        call.pitch.fill(0.0);
    }
    if r.one_in(3) {
        leap(r, &mut call);
    }
    if r.one_in(8) {
        fault(r, &mut call);
    }
    let most = call.stored.iter().map(|v| v.unsigned_abs()).max();
    let largest = i32::from(i16::MAX) / i32::from(most.unwrap_or(1).max(1));
    // A take at full scale is made smaller first.
    let divisor = if largest == 0 {
        2
    } else {
        r.pick(&[1, 1, 3, 10])
    };
    for v in &mut call.stored {
        *v /= divisor;
    }
    let largest = (largest * i32::from(divisor)).clamp(1, 32_767);
    let times = (1 + r.below(largest as usize) as i32) * r.pick(&[1, -1]);
    let sound = call.stored.clone();
    let mut with = |samples: Vec<i16>| {
        call.stored = samples;
        write(48, &call)
    };
    let louder = |v: &i16| (i32::from(*v) * times).clamp(-32_768, 32_767) as i16;
    let multiplied = sound.iter().map(louder).collect();
    [with(vec![0; sound.len()]), with(sound), with(multiplied)]
}

/// How many frames: as many as of anything, or so many that a span can be long.
fn frames(r: &mut Random) -> usize {
    match r.below(4) {
        0 => r.between(36, 100),
        _ => length(r),
    }
}

/// An admitted call of `n` frames: tracks that belong together in most, else each of its own.
fn call(r: &mut Random, n: usize, range: (f32, f32)) -> Call {
    let (db, mut pitch) = match r.below(6) {
        0 => (loudness(r, n), pitches(r, n, range.0, range.1)),
        1 => spoken(r, n, range),
        _ => phrases(r, n, range),
    };
    if r.one_in(4) {
        // Little of the pitch is left.
        let keep = r.pick(&[0, 0, 8, 24]);
        for p in &mut pitch {
            if keep == 0 || !r.one_in(keep) {
                *p = 0.0;
            }
        }
    }
    let lively = r.one_in(2);
    let shares = |r: &mut Random| match r.below(6) {
        0 => r.pick(&[0.0, -0.0, 1.0, 0.5, 0.25, 0.75]),
        1 => f32::from_bits(r.between(0, 0x3f80_0000) as u32),
        _ => r.below(9) as f32 / 8.0,
    };
    let voiced_p = if lively {
        (0..n).map(|_| shares(r)).collect()
    } else {
        pitch.iter().map(|&p| f32::from(p > 0.0)).collect()
    };
    let mut sonority = steps(r, n);
    match r.below(24) {
        0 => sonority.truncate(r.between(0, n)),
        1 => sonority.resize((n + r.below(3)).min(MAX_FRAMES), 0.5),
        _ => {}
    }
    let few = r.pick(&[1, 1, 2, 8]);
    let mark = |r: &mut Random| u8::from(!r.one_in(few) || few == 1);
    // Marks may be shorter or longer than the track.
    let other = |r: &mut Random| match r.below(8) {
        0 => r.between(0, n),
        1 => (n + r.below(9)).min(MAX_FRAMES),
        _ => n,
    };
    let (speeches, vowels) = (other(r), other(r));
    let speech = (0..speeches).map(|_| mark(r)).collect();
    let vowel = (0..vowels).map(|_| mark(r)).collect();
    let level = probe::level(&db);
    let settings = Settings {
        margin: margin(r, &db, &level),
        dip: dip(r, &level, &pitch),
        gap: r.pick(&[6, 6, 6, 0, 1, 3, 12, 1000]),
    };
    let region = region(r, &db, &pitch);
    let nuclei = nuclei(r, &db, &pitch, settings, region);
    let (stored, samples) = samples(r, n);
    let spare = if r.one_in(4) { r.between(1, 5) } else { 0 };
    Call {
        settings,
        region,
        db,
        pitch,
        voiced_p,
        sonority,
        speech,
        vowel,
        nuclei,
        stored,
        samples,
        rooms: [n + spare, n + spare, n + spare, n + 1 + spare],
    }
}

/// A margin: any, or one that puts the threshold on a frame's dB or level, or a step beside it.
fn margin(r: &mut Random, db: &[f32], level: &[f32]) -> f32 {
    let floor = probe::floor_db(&entry::energy(db));
    match floor {
        Some(floor) if !r.one_in(3) => {
            let there = r.pick(&[db, level])[r.below(db.len())] - floor;
            within(r, there)
        }
        _ => setting(r),
    }
}

/// A dip: any, or the depth of a valley or the height of a step of the level, at times at the end of
/// a run, or beside one.
fn dip(r: &mut Random, level: &[f32], pitch: &[f32]) -> f32 {
    if level.is_empty() || r.one_in(3) {
        return setting(r);
    }
    let ends: Vec<usize> = changes(pitch);
    let a = if ends.is_empty() || r.one_in(2) {
        r.below(level.len())
    } else {
        (r.pick(&ends) + r.below(2)).saturating_sub(1)
    };
    let last = level.len() - 1;
    if r.one_in(2) {
        let b = (a + r.between(0, 20)).min(last);
        return dip_beside(r, &level[a..=b]);
    }
    let near = (a + r.below(5)).saturating_sub(2).min(last);
    within(r, (level[near] - level[a]).abs())
}

/// Stretches the loudness until a valley between two nuclei in different syllable runs is about as deep
/// as the dip of one of the sets with a name, for the entry to which no dip can be given.
fn stretch(r: &mut Random, c: &mut Call) {
    let level = probe::level(&c.db);
    let runs = probe::syllable_runs(&entry::f0(&c.pitch, &[]));
    let run = |at: usize| probe::run_of(&runs, at);
    let pairs = c.nuclei.windows(2).map(|w| (w[0] as usize, w[1] as usize));
    let apart: Vec<_> = pairs
        .filter(|&(a, b)| run(a).is_some() && run(b).is_some() && run(a) != run(b))
        .collect();
    if apart.is_empty() {
        return;
    }
    let (a, b) = r.pick(&apart);
    let lowest = level[a..=b].iter().copied().fold(f32::INFINITY, f32::min);
    let depth = level[a].min(level[b]) - lowest;
    let wanted = match r.below(4) {
        0 => CLASSIC.dip,
        1 => r.real(1.5, 3.5) as f32,
        _ => DEFAULTS.dip,
    };
    let wanted = r.pick(&[wanted, wanted, wanted.next_up(), wanted.next_down()]);
    if depth > 0.0 {
        for d in c.db.iter_mut().filter(|d| d.is_finite()) {
            *d = (*d * (wanted / depth)).clamp(-1000.0, 1000.0);
        }
    }
}

/// Takes the pitches of a part of the take away and lets the sound leap by octaves, so that stretches are
/// recovered beside each other, an octave apart, with a frame or two between them at times.
fn leap(r: &mut Random, c: &mut Call) {
    let n = c.db.len();
    let (x, y) = match r.below(3) {
        0 => (r.between(0, n), r.between(0, n)),
        _ => (0, n),
    };
    c.pitch[x.min(y)..x.max(y)].fill(0.0);
    let few = r.pick(&[0, 0, 0, 12]);
    c.vowel = (0..n)
        .map(|_| u8::from(few == 0 || !r.one_in(few)))
        .collect();
    if r.one_in(2) {
        // Most of it speech.
        c.settings.margin = 0.0;
    }
    let size = 160 * r.between(6, 30);
    c.stored = leaps(r, size);
    c.samples = (160 * n).min(MAX_SAMPLES);
}

/// The frames where voicing starts or ends.
fn changes(pitch: &[f32]) -> Vec<usize> {
    let voiced = |i: usize| pitch[i] != 0.0;
    (1..pitch.len())
        .filter(|&i| voiced(i) != voiced(i - 1))
        .collect()
}

/// A setting of this size, or a step beside it; any where that is none.
fn within(r: &mut Random, x: f32) -> f32 {
    let x = match r.below(4) {
        0 => x.next_up(),
        1 => x.next_down(),
        _ => x,
    };
    if (0.0..=200.0).contains(&x) {
        x
    } else {
        setting(r)
    }
}

/// A region: all of the track, its loud part, from one change of voicing to another, or any.
fn region(r: &mut Random, db: &[f32], pitch: &[f32]) -> (u32, u32) {
    let n = db.len();
    let near = |r: &mut Random, at: usize| (at + r.below(5)).saturating_sub(2).min(n);
    let changes = changes(pitch);
    let (x, y) = match r.below(5) {
        0 => (0, n),
        1 | 2 => {
            let loud = |d: &f32| *d > db[0] + 6.0;
            let first = db.iter().position(loud).unwrap_or(0);
            (first, db.iter().rposition(loud).map_or(n, |last| last + 1))
        }
        3 if !changes.is_empty() => {
            let (x, y) = (r.pick(&changes), r.pick(&changes));
            (near(r, x), near(r, y))
        }
        _ => (r.between(0, n), r.between(0, n)),
    };
    (x.min(y) as u32, x.max(y) as u32)
}

/// Nuclei: those of the take, some beside the ends of runs, or any frames.
fn nuclei(
    r: &mut Random,
    db: &[f32],
    pitch: &[f32],
    settings: Settings,
    region: (u32, u32),
) -> Vec<u32> {
    let n = db.len();
    match r.below(3) {
        0 => {
            let mut list = vec![entry::BLANK; n];
            let found = entry::nuclei(db, pitch, settings, region, &mut list);
            list.truncate(found.unwrap_or(0));
            list.iter().map(|m| m.frame).collect()
        }
        1 => {
            let near = |r: &mut Random, at: usize| (at + r.below(9)).saturating_sub(4);
            let runs = probe::long_runs(&entry::f0(pitch, &[]));
            let mut frames: Vec<usize> = Vec::new();
            for (first, last) in runs {
                if !r.one_in(4) {
                    let at = r.pick(&[first, last, (first + last) / 2]);
                    frames.push(near(r, at));
                }
            }
            frames.retain(|&f| f < n);
            frames.sort_unstable();
            frames.dedup();
            frames.into_iter().map(|f| f as u32).collect()
        }
        _ => {
            let often = r.pick(&[1, 2, 6, 12, 40]);
            (0..n as u32).filter(|_| r.one_in(often)).collect()
        }
    }
}

/// Stored samples and how many there are of them over and over. Short recordings, so that a record
/// holds them: the rest of the track is past their end, or they are repeated.
fn samples(r: &mut Random, n: usize) -> (Vec<i16>, usize) {
    let stored = match r.below(8) {
        0 => vec![],
        1 => {
            let size = r.between(0, (n * 160).min(9000));
            sound(r, size)
        }
        2 | 3 => {
            let size = r.between(30, 480);
            sound(r, size)
        }
        _ => {
            let size = 80 * r.between(2, 44);
            voice(r, size)
        }
    };
    let count = match r.below(6) {
        _ if stored.is_empty() => 0,
        0 => stored.len(),
        1 => r.between(0, stored.len()),
        2 if n > 100 => MAX_SAMPLES,
        _ => (n * 160).min(MAX_SAMPLES),
    };
    (stored, count)
}

/// Breaks one thing that an entry tests.
fn fault(r: &mut Random, c: &mut Call) {
    let n = c.db.len();
    let at = |r: &mut Random, len: usize| r.below(len.max(1));
    let share = |r: &mut Random| r.pick(&[f32::NAN, 1.1, -0.1, f32::INFINITY]);
    let put = |track: &mut Vec<f32>, at: usize, v: f32| {
        if let Some(x) = track.get_mut(at) {
            *x = v;
        }
    };
    match r.below(14) {
        0 => {
            let long = MAX_FRAMES + 1;
            match r.below(5) {
                0 => c.db.resize(long, 0.0),
                1 => c.sonority.resize(long, 0.0),
                2 => c.vowel.resize(long, 0),
                3 => c.nuclei = (0..long as u32).collect(),
                _ => c.pitch.resize(long, 0.0),
            }
        }
        1 => c.pitch.truncate(n.saturating_sub(1)),
        2 => c.voiced_p.push(0.5),
        3 => c.settings.margin = r.pick(&[f32::NAN, -1.0, 200.1, f32::INFINITY]),
        4 => c.settings.dip = r.pick(&[f32::NAN, -1.0, 200.1, f32::NEG_INFINITY]),
        5 => c.settings.gap = r.pick(&[1001, u32::MAX]),
        6 => {
            let k = at(r, n);
            put(&mut c.db, k, r.pick(&[1001.0, -1000.1, f32::MAX]));
        }
        7 => {
            let k = at(r, n);
            put(
                &mut c.pitch,
                k,
                r.pick(&[-0.0, 19.9, 4000.1, f32::NAN, -200.0, 39.0, 2001.0]),
            );
        }
        8 => {
            let (k, v) = (at(r, n), share(r));
            put(&mut c.voiced_p, k, v);
        }
        9 => {
            let (k, v) = (at(r, n), share(r));
            put(&mut c.sonority, k, v);
        }
        10 => {
            let marks = if r.one_in(2) {
                &mut c.vowel
            } else {
                &mut c.speech
            };
            marks.push(r.pick(&[2, 255]));
        }
        11 => {
            c.region = r.pick(&[
                (1, 0),
                (0, n as u32 + 1),
                (u32::MAX, u32::MAX),
                (0, u32::MAX),
            ]);
        }
        12 => match r.below(3) {
            0 => c.nuclei.push(n as u32),
            1 => c.nuclei.extend([0, 0]),
            _ => c.nuclei.push(u32::MAX),
        },
        _ => {
            if r.one_in(3) {
                c.stored.truncate(1);
                c.stored.resize(1, 7);
                c.samples = MAX_SAMPLES + 1;
            } else {
                let k = r.below(4);
                c.rooms[k] = (n + usize::from(k == 3)).saturating_sub(r.between(1, 3));
            }
        }
    }
}

fn file(r: &mut Random, c: &Call) -> Vec<u8> {
    let n = c.db.len();
    let mut sonority = c.sonority.clone();
    sonority.resize(n, 0.5);
    let mut take = Take {
        settings: c.settings,
        db: c.db.clone(),
        pitch: c.pitch.clone(),
        voiced_p: c.voiced_p.clone(),
        sonority,
        vowel: vec![0; n],
    };
    if n > 0 {
        let k = r.below(n);
        match r.below(24) {
            0 => take.db[k] = 1001.0,
            1 => take.pitch[k] = -0.0,
            2 => take.vowel[k] = 2,
            3 => take.sonority[k] = 1.5,
            4 => take.settings.gap = 1001,
            _ => take.vowel[k] = 1,
        }
    }
    take.write()
}

/// A file as it is, or cut, grown, changed in its head, or of too many frames.
fn damaged(r: &mut Random, mut file: Vec<u8>) -> Vec<u8> {
    match r.below(24) {
        0 => file.truncate(r.below(file.len())),
        1 => file.truncate(r.below(20)),
        2 => file.extend([0; 17]),
        3 => file.push(1),
        4 => file[4] = r.bits() as u8,
        5 => {
            let k = r.below(7);
            file[k] ^= 1 << r.below(8);
        }
        6 => {
            let n = r.pick(&[2049u16, 2100]);
            file = Writer::new().u32(15 + 17 * u32::from(n)).u8(1).bytes;
            file.extend(n.to_be_bytes());
            file.resize(19 + 17 * usize::from(n) + r.pick(&[0, 0, 1]), 0xff);
        }
        _ => {}
    }
    file
}

#[cfg(test)]
mod tests {
    use super::*;
    use crate::kinds::Kind;

    /// Full takes are drawn for the chain, of about 2,048 frames and with as many samples as may be.
    #[test]
    fn full_takes_are_drawn() {
        let full = |index: &u64| {
            let input = input(48, &mut Random::of(1, 48, *index), None);
            let count =
                |at: usize| u32::from_be_bytes(input[at..at + 4].try_into().unwrap()) as usize;
            // The counts of dB and of samples, behind settings and rooms.
            (MAX_FRAMES - 8..=MAX_FRAMES).contains(&count(28)) && count(48) == MAX_SAMPLES
        };
        let found = (0..2000).filter(full).count();
        assert!(found >= 4, "{found}");
    }

    /// In enough of the calls that are drawn for the chain, its order of before would leave other pitches.
    #[test]
    fn both_orders_are_told_apart() {
        let apart = |index: &u64| {
            let mut r = Random::of(1, 48, *index);
            let n = frames(&mut r);
            if n > 200 {
                // A long one takes long.
                return false;
            }
            let c = drawn(48, &mut r, n);
            let mut marks = vec![0; n];
            let speech = match entry::speech_marks(&c.db, c.settings, &mut marks) {
                Ok(count) => &marks[..count],
                Err(_) => return false,
            };
            let sound: Vec<i16> = c.stored.iter().copied().cycle().take(c.samples).collect();
            let recover = |pitch: &mut Vec<f32>| entry::recover(pitch, &sound, speech, &c.vowel);
            let repair = |pitch: &mut Vec<f32>| entry::repair(pitch);
            let (mut now, mut before) = (c.pitch.clone(), c.pitch.clone());
            let admitted = recover(&mut now).and_then(|()| repair(&mut now));
            let admitted = admitted.and_then(|()| repair(&mut before));
            admitted.and_then(|()| recover(&mut before)).is_ok() && now != before
        };
        let found = (0..500).filter(apart).count();
        assert!(found >= 25, "{found}");
    }

    /// By itself, among the calls on the limits; some of these are admitted.
    #[test]
    fn every_number_is_answered() {
        for kind in [32, 35, 36, 37, 40, 41, 42, 43, 48] {
            let answer = |input: &Vec<u8>| Kind::by_number(kind).unwrap().answer(input).unwrap()[0];
            let answers: Vec<u8> = limits::inputs(kind).iter().map(answer).collect();
            assert!(answers.contains(&0), "kind {kind}");
            for number in numbers(kind) {
                assert!(answers.contains(number), "kind {kind}, number {number}");
            }
        }
    }

    #[test]
    fn the_lowest_number_is_answered() {
        for kind in [32, 35, 36, 37, 40, 41, 42, 43, 48] {
            let answer = |input: &Vec<u8>| Kind::by_number(kind).unwrap().answer(input).unwrap()[0];
            let answers: Vec<u8> = refused(kind).iter().map(answer).collect();
            let numbers = numbers(kind);
            let lowest = (0..numbers.len()).flat_map(|k| vec![numbers[k]; numbers.len() - k]);
            assert_eq!(answers, lowest.collect::<Vec<u8>>(), "kind {kind}");
        }
    }
}

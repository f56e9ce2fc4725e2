//! Speed: each stage of both sides on the same takes, alternated in one process.

use crate::entry::{self, DEFAULTS, MAX_FRAMES};
use crate::random::Random;
use crate::rattle;
use std::f64::consts::TAU;
use std::fmt::Write;
use std::hint::black_box;
use std::time::{Duration, Instant};
use tonekit_core::{EnergyTrack, F0Track, FrameRange, Nucleus, HOP, SAMPLE_RATE};
use tonekit_segment::{probe, SegmentParams};

/// Different takes of one sort, used in turn: a processor learns the branches of a single one.
const VARIANTS: u64 = 16;
/// Time given to a stage on a sort of take, and the fewest rounds whatever they take.
const BUDGET: Duration = Duration::from_millis(400);
const MIN_ROUNDS: usize = 7;

/// A full take in our form and in the reference's, with what earlier stages find in it.
pub struct Prepared {
    pub db: Vec<f32>,
    pub pitch: Vec<f32>,
    pub voiced_p: Vec<f32>,
    pub sonority: Vec<f32>,
    pub speech: Vec<u8>,
    pub vowel: Vec<u8>,
    pub samples: Vec<i16>,
    pub level: Vec<f32>,
    pub region: (u32, u32),
    pub nuclei: Vec<u32>,
    energy: EnergyTrack,
    f0: F0Track,
    masks: (Vec<bool>, Vec<bool>),
    pcm: Vec<f32>,
    range: FrameRange,
    given: Vec<Nucleus>,
    params: SegmentParams,
}

/// Where the Rattle side writes. The pitches are those of the take before each run.
pub struct Room {
    pub pitch: Vec<f32>,
    pub floats: Vec<f32>,
    pub strengths: Vec<f32>,
    pub frames: Vec<u32>,
    pub extras: Vec<u32>,
    pub edges: Vec<u32>,
    pub boundaries: Vec<u32>,
}

impl Room {
    fn new() -> Room {
        Room {
            pitch: vec![0.0; MAX_FRAMES],
            floats: vec![0.0; MAX_FRAMES],
            strengths: vec![0.0; MAX_FRAMES],
            frames: vec![0; MAX_FRAMES],
            extras: vec![0; MAX_FRAMES],
            edges: vec![0; MAX_FRAMES],
            boundaries: vec![0; MAX_FRAMES + 1],
        }
    }
}

/// The tracks and samples that a take is prepared from.
struct Tracks {
    db: Vec<f32>,
    pitch: Vec<f32>,
    voiced_p: Vec<f32>,
    sonority: Vec<f32>,
    vowel: Vec<u8>,
    samples: Vec<i16>,
}

impl Tracks {
    fn empty() -> Tracks {
        Tracks {
            db: Vec::new(),
            pitch: Vec::new(),
            voiced_p: Vec::new(),
            sonority: Vec::new(),
            vowel: Vec::new(),
            samples: Vec::new(),
        }
    }

    fn prepared(self, all_marks: bool) -> Prepared {
        let params = DEFAULTS.params();
        let energy = entry::energy(&self.db);
        let f0 = entry::f0(&self.pitch, &self.voiced_p);
        // Where a take has no speech the later stages get all of it.
        let range = tonekit_segment::speech_region(&energy, &params).unwrap_or(FrameRange {
            start: 0,
            end: self.db.len() as u32,
        });
        let given = tonekit_segment::nuclei(&energy, &f0, &range, &params);
        let speech = if all_marks {
            vec![true; self.db.len()]
        } else {
            tonekit_segment::speech_frames(&energy, &params)
        };
        Prepared {
            speech: speech.iter().map(|&s| s.into()).collect(),
            level: probe::level(&self.db),
            region: (range.start, range.end),
            nuclei: given.iter().map(|n| n.frame).collect(),
            masks: (speech, self.vowel.iter().map(|&v| v == 1).collect()),
            pcm: entry::pcm(&self.samples),
            db: self.db,
            pitch: self.pitch,
            voiced_p: self.voiced_p,
            sonority: self.sonority,
            vowel: self.vowel,
            samples: self.samples,
            energy,
            f0,
            range,
            given,
            params,
        }
    }
}

/// One frame of a take that is being made.
struct Frame {
    db: f64,
    hz: Option<f64>,
    /// What the tracker says; it loses or misjudges the pitch at times.
    tracked: f64,
    vowel: bool,
}

/// Syllables of several shapes with vibrato and level changes, pauses between some, creaks, an
/// octave error now and then, and now and then a syllable that the tracker lost.
fn speech(seed: u64) -> Tracks {
    let r = &mut Random::new(seed);
    let mut frames: Vec<Frame> = Vec::new();
    let voice = r.real(110.0, 240.0);
    while frames.len() < MAX_FRAMES {
        for _ in 0..r.pick(&[0, 0, 3, 8, 25]) {
            frames.push(Frame {
                db: -62.0 + r.real(-3.0, 3.0),
                hz: None,
                tracked: 0.0,
                vowel: false,
            });
        }
        let (size, onset) = (r.between(12, 36), r.between(0, 5));
        let (from, to) = (r.real(0.75, 1.4), r.real(0.75, 1.4));
        let (lost, creak) = (r.one_in(10), r.one_in(5).then(|| r.between(5, 9)));
        let top = r.real(-26.0, -14.0);
        for k in 0..size {
            let t = k as f64 / size as f64;
            let at = frames.len() as f64;
            let vibrato = 1.0 + 0.02 * (TAU * 5.5 * at / 100.0).sin();
            let hz = voice * (from + (to - from) * t) * vibrato;
            let edge = k.min(size - 1 - k).min(4) as f64;
            let voiced = k >= onset;
            let creaks = creak.is_some_and(|c| (c..c + 5).contains(&k));
            let tracked = if !voiced || lost || creaks {
                0.0
            } else if r.one_in(40) {
                hz * r.pick(&[0.5, 2.0])
            } else {
                hz * r.real(0.995, 1.005)
            };
            frames.push(Frame {
                db: top - 4.0 * (4.0 - edge) + r.real(-0.7, 0.7),
                hz: voiced.then_some(hz),
                tracked,
                vowel: voiced,
            });
        }
    }
    frames.truncate(MAX_FRAMES);
    recorded(r, &frames)
}

/// The tracks and the sound of some frames.
fn recorded(r: &mut Random, frames: &[Frame]) -> Tracks {
    let mut out = Tracks::empty();
    let mut phase = 0.0;
    for f in frames {
        out.db.push(f.db as f32);
        out.pitch.push(f.tracked as f32);
        let sure = if f.tracked > 0.0 { 0.8 } else { 0.1 };
        out.voiced_p.push((sure + r.real(-0.1, 0.1)) as f32);
        let share = if f.vowel { 0.7 } else { 0.2 };
        out.sonority.push((share + r.real(-0.15, 0.15)) as f32);
        out.vowel.push(f.vowel.into());
        let loud = 10f64.powf(f.db / 20.0) * 32_768.0;
        for _ in 0..HOP {
            let tone = f.hz.map_or(0.0, |hz| {
                phase += hz / f64::from(SAMPLE_RATE);
                (1..=5)
                    .map(|k| (TAU * phase * k as f64).sin() / k as f64)
                    .sum()
            });
            let noise = if f.hz.is_some() { 0.1 } else { 1.0 };
            out.samples
                .push((loud * (tone + noise * r.real(-1.0, 1.0))) as i16);
        }
    }
    out
}

/// No sound and no pitch at all.
fn silence() -> Tracks {
    Tracks {
        db: vec![-100.0; MAX_FRAMES],
        pitch: vec![0.0; MAX_FRAMES],
        voiced_p: vec![0.0; MAX_FRAMES],
        sonority: vec![0.0; MAX_FRAMES],
        vowel: vec![1; MAX_FRAMES],
        samples: vec![0; MAX_FRAMES * HOP],
    }
}

/// A steady tone between quiet ends, without which it would be the floor itself. `tracked` says
/// whether its frames have their pitch.
fn tone(seed: u64, tracked: bool) -> Tracks {
    let r = &mut Random::new(seed);
    let hz = r.real(150.0, 250.0);
    let quiet = MAX_FRAMES / 12;
    let frame = |i: usize| {
        let on = (quiet..MAX_FRAMES - quiet).contains(&i);
        Frame {
            db: if on { -20.0 } else { -60.0 },
            hz: on.then_some(hz),
            tracked: if on && tracked { hz } else { 0.0 },
            vowel: true,
        }
    };
    let frames: Vec<Frame> = (0..MAX_FRAMES).map(frame).collect();
    recorded(r, &frames)
}

/// Runs of 5 frames, 4 apart, as many as there is room for, each of them a little louder in its
/// middle than what is between them.
fn short_runs(seed: u64) -> Tracks {
    let r = &mut Random::new(seed);
    let quiet = MAX_FRAMES / 8;
    let mut frames: Vec<Frame> = Vec::new();
    for i in 0..MAX_FRAMES {
        let on = i >= quiet;
        let hz = (on && i % 9 < 5).then(|| r.real(180.0, 220.0));
        let top = if hz.is_some() { -20.0 } else { -26.0 };
        frames.push(Frame {
            db: if on { top + r.real(-3.0, 3.0) } else { -60.0 },
            hz,
            tracked: hz.unwrap_or(0.0),
            vowel: on,
        });
    }
    recorded(r, &frames)
}

/// Speech with a pause at every fourth frame.
fn pauses(seed: u64) -> Tracks {
    let r = &mut Random::new(seed);
    let mut frames: Vec<Frame> = Vec::new();
    for i in 0..MAX_FRAMES {
        let on = i % 4 != 3;
        let hz = r.real(180.0, 220.0);
        frames.push(Frame {
            db: if on { -20.0 } else { -60.0 } + r.real(-3.0, 3.0),
            hz: on.then_some(hz),
            tracked: if i % 40 < 32 { hz } else { 0.0 },
            vowel: on,
        });
    }
    recorded(r, &frames)
}

/// A stage of the reference, on a track of its own where it changes one.
type Reference = fn(&Prepared, &mut F0Track);

const STAGES: &[(&str, Reference)] = &[
    ("floor and region", |t, _| {
        black_box(tonekit_segment::speech_region(&t.energy, &t.params));
    }),
    ("level", |t, _| {
        black_box(probe::level(&t.db));
    }),
    ("extrema", |t, _| {
        black_box(probe::maxima(&t.level, 0, t.level.len()));
        black_box(probe::minima(&t.level, 0, t.level.len()));
    }),
    ("runs", |t, _| {
        black_box(probe::long_runs(&t.f0));
        black_box(probe::syllable_runs(&t.f0));
        black_box(probe::dropouts(&t.f0));
    }),
    ("repair", |_, track| tonekit_f0::repair_octaves(track)),
    (RECOVERY, |t, track| {
        tonekit_f0::recover_pitch(track, &t.pcm, &t.masks.0, &t.masks.1);
    }),
    ("nuclei", |t, _| {
        black_box(tonekit_segment::nuclei(
            &t.energy, &t.f0, &t.range, &t.params,
        ));
    }),
    ("extras", |t, _| {
        black_box(tonekit_segment::extra_candidates(
            &t.energy,
            &t.f0,
            &t.sonority,
            &t.range,
            &t.given,
            &t.params,
        ));
    }),
    ("boundaries", |t, _| {
        black_box(tonekit_segment::boundaries_with(
            &t.energy, &t.f0, &t.range, &t.given, &t.params,
        ));
    }),
    ("chain", chain),
];

const RECOVERY: &str = "recovery";
const SHORT_RUNS: &str = "short runs";
const PAUSES: &str = "pauses";

/// The sorts of take that a stage is measured on.
fn sorts(stage: &str) -> Vec<&'static str> {
    let more = match stage {
        "nuclei" | "extras" => vec![SHORT_RUNS],
        "boundaries" => vec![PAUSES],
        "chain" => vec![SHORT_RUNS, PAUSES],
        _ => vec![],
    };
    [vec!["speech", "silence", "steady tone"], more].concat()
}

fn chain(t: &Prepared, track: &mut F0Track) {
    let speech = tonekit_segment::speech_frames(&t.energy, &t.params);
    tonekit_f0::recover_pitch(track, &t.pcm, &speech, &t.masks.1);
    tonekit_f0::repair_octaves(track);
    let Some(range) = tonekit_segment::speech_region(&t.energy, &t.params) else {
        return;
    };
    let nuclei = tonekit_segment::nuclei(&t.energy, track, &range, &t.params);
    black_box(tonekit_segment::extra_candidates(
        &t.energy,
        track,
        &t.sonority,
        &range,
        &nuclei,
        &t.params,
    ));
    black_box(tonekit_segment::boundaries_with(
        &t.energy, track, &range, &nuclei, &t.params,
    ));
}

/// The takes of a sort that a stage is measured on. Recovery gets silence and the tone without
/// pitch and with every mark set, since otherwise no frame of them would be tried.
fn takes(sort: &str, stage: &str) -> Vec<Prepared> {
    let untracked = stage == RECOVERY;
    match sort {
        "speech" => (0..VARIANTS)
            .map(|seed| speech(seed).prepared(false))
            .collect(),
        "silence" => vec![silence().prepared(true)],
        SHORT_RUNS => (0..VARIANTS)
            .map(|seed| short_runs(seed).prepared(false))
            .collect(),
        PAUSES => (0..VARIANTS)
            .map(|seed| pauses(seed).prepared(false))
            .collect(),
        _ => (0..2)
            .map(|seed| tone(seed, !untracked).prepared(untracked))
            .collect(),
    }
}

/// The table, as Markdown. Only the stages and sorts that hold `only` are measured.
pub fn table(only: &str, mut show: impl FnMut(&str)) {
    show("| stage | take | Rust µs | Rattle µs | ratio |");
    show("|---|---|---:|---:|---:|");
    for &(stage, reference) in STAGES {
        for sort in sorts(stage) {
            if !format!("{stage} {sort}").contains(only) {
                continue;
            }
            let (rust, rattle) = measured(&takes(sort, stage), reference, rattle::stage(stage));
            let mut line = format!("| {stage} | {sort} | {:.1} |", micros(rust));
            match rattle {
                Some(time) => {
                    let ratio = time.as_secs_f64() / rust.as_secs_f64();
                    write!(line, " {:.1} | {ratio:.2} |", micros(time))
                }
                None => write!(line, " - | - |"),
            }
            .expect("a string takes every line");
            show(&line);
        }
    }
}

fn micros(time: Duration) -> f64 {
    time.as_secs_f64() * 1e6
}

/// The medians of both sides, run one after the other on each take in turn.
fn measured(
    takes: &[Prepared],
    reference: Reference,
    other: Option<rattle::Stage>,
) -> (Duration, Option<Duration>) {
    let mut room = Room::new();
    let (mut ours, mut theirs) = (Vec::new(), Vec::new());
    let start = Instant::now();
    for take in takes.iter().cycle() {
        if ours.len() >= MIN_ROUNDS.max(takes.len()) && start.elapsed() > BUDGET {
            break;
        }
        let mut track = take.f0.clone();
        ours.push(timed(|| reference(black_box(take), black_box(&mut track))));
        if let Some(other) = other {
            room.pitch.copy_from_slice(&take.pitch);
            theirs.push(timed(|| other(black_box(take), black_box(&mut room))));
        }
    }
    (median(ours), (!theirs.is_empty()).then(|| median(theirs)))
}

fn timed(run: impl FnOnce()) -> Duration {
    let start = processor_time();
    run();
    processor_time() - start
}

/// What this thread has spent on a processor, so that other work on the machine counts little.
fn processor_time() -> Duration {
    #[repr(C)]
    struct Timespec {
        seconds: i64,
        nanos: i64,
    }
    extern "C" {
        fn clock_gettime(clock: i32, time: *mut Timespec) -> i32;
    }
    /// Linux's number for it.
    const THREAD: i32 = 3;
    let mut time = Timespec {
        seconds: 0,
        nanos: 0,
    };
    // SAFETY: the struct has the layout that the C library fills on 64-bit Linux.
    let failed = unsafe { clock_gettime(THREAD, &mut time) };
    assert_eq!(failed, 0, "the thread's clock cannot be read");
    Duration::new(time.seconds as u64, time.nanos as u32)
}

fn median(mut times: Vec<Duration>) -> Duration {
    times.sort_unstable();
    times[times.len() / 2]
}

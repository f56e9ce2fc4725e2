//! The public entries as the specification reads them: refusals first, then the reference, then
//! the results at the front of the lent lists. Nothing lent is written before the last test.

use tonekit_core::{EnergyTrack, F0Frame, F0Track, FrameRange, Nucleus};
use tonekit_segment::SegmentParams;

pub const MAX_FRAMES: usize = 2048;
pub const MAX_SAMPLES: usize = 327_680;
/// Pitches that an entry admits, but for the two below.
pub const PITCH: (f32, f32) = (20.0, 4000.0);
/// Pitches that the repair and the chain admit, so that a repaired one lies in [`PITCH`].
pub const REPAIRABLE: (f32, f32) = (40.0, 2000.0);

#[derive(Clone, Copy, Debug, PartialEq)]
pub struct Settings {
    pub margin: f32,
    pub dip: f32,
    pub gap: u32,
}

/// The settings where a call sets none.
pub const DEFAULTS: Settings = Settings {
    margin: 10.0,
    dip: 3.0,
    gap: 6,
};
/// The settings of old lessons, which are the reference's own defaults.
pub const CLASSIC: Settings = Settings {
    margin: 10.0,
    dip: 2.0,
    gap: 6,
};

impl Settings {
    pub fn params(&self) -> SegmentParams {
        SegmentParams {
            speech_margin_db: self.margin,
            dip_db: self.dip,
            min_nucleus_gap: self.gap,
        }
    }
}

/// One entry of a nucleus or extras list.
#[derive(Clone, Copy, Debug, PartialEq)]
pub struct Mark {
    pub frame: u32,
    pub strength: f32,
}

/// What a list may hold before a call.
pub const BLANK: Mark = Mark {
    frame: 0,
    strength: 0.0,
};

impl From<&Nucleus> for Mark {
    fn from(n: &Nucleus) -> Self {
        Mark {
            frame: n.frame,
            strength: n.strength_db,
        }
    }
}

/// What a call brings. An entry tests what it is given and nothing else: `None` is not given.
#[derive(Clone, Copy, Default)]
pub struct Given<'a> {
    pub db: Option<&'a [f32]>,
    /// With the range that this entry admits.
    pub pitch: Option<(&'a [f32], (f32, f32))>,
    pub voiced_p: Option<&'a [f32]>,
    pub sonority: Option<&'a [f32]>,
    pub speech: Option<&'a [u8]>,
    pub vowel: Option<&'a [u8]>,
    pub settings: Option<Settings>,
    pub region: Option<(u32, u32)>,
    /// Frames of the nuclei.
    pub nuclei: Option<&'a [u32]>,
    pub samples: Option<usize>,
    /// The lent result lists: how long each is, and how much longer than the track it must be.
    pub rooms: &'a [(usize, usize)],
}

impl Given<'_> {
    /// The frame count: of dB, or of the pitches where no dB is given.
    fn frames(&self) -> usize {
        let pitch = self.pitch.map(|(p, _)| p);
        self.db.or(pitch).map_or(0, <[f32]>::len)
    }

    /// The refusal number, the lowest of those that apply; 0 if none does.
    pub fn refusal(&self) -> u8 {
        let tests: [fn(&Self) -> bool; 10] = [
            Self::too_long,
            Self::unequal,
            Self::bad_settings,
            Self::bad_db,
            Self::bad_pitch,
            Self::bad_sonority_or_mark,
            Self::bad_region,
            Self::bad_nuclei,
            Self::too_many_samples,
            Self::no_room,
        ];
        let first = tests.iter().position(|fails| fails(self));
        first.map_or(0, |k| k as u8 + 1)
    }

    fn too_long(&self) -> bool {
        let floats = [
            self.db,
            self.pitch.map(|(p, _)| p),
            self.voiced_p,
            self.sonority,
        ];
        let marks = [self.speech, self.vowel];
        floats.into_iter().flatten().any(|x| x.len() > MAX_FRAMES)
            || marks.into_iter().flatten().any(|x| x.len() > MAX_FRAMES)
            || self.nuclei.is_some_and(|x| x.len() > MAX_FRAMES)
    }

    fn unequal(&self) -> bool {
        let n = self.frames();
        let tracks = [self.db, self.pitch.map(|(p, _)| p), self.voiced_p];
        tracks.into_iter().flatten().any(|x| x.len() != n)
    }

    fn bad_settings(&self) -> bool {
        // A range test is false for NaN and both infinities.
        let good = |v: f32| (0.0..=200.0).contains(&v);
        self.settings
            .is_some_and(|s| !good(s.margin) || !good(s.dip) || s.gap > 1000)
    }

    fn bad_db(&self) -> bool {
        let bad = |d: &f32| d.is_finite() && d.abs() > 1000.0;
        self.db.is_some_and(|db| db.iter().any(bad))
    }

    fn bad_pitch(&self) -> bool {
        let pitches = self.pitch.is_some_and(|(pitch, (lo, hi))| {
            let none = |p: f32| p.to_bits() == 0;
            pitch.iter().any(|&p| !none(p) && !(lo..=hi).contains(&p))
        });
        pitches || self.voiced_p.is_some_and(|v| !all_shares(v))
    }

    fn bad_sonority_or_mark(&self) -> bool {
        let marks = [self.speech, self.vowel];
        self.sonority.is_some_and(|s| !all_shares(s))
            || marks.into_iter().flatten().flatten().any(|&m| m > 1)
    }

    fn bad_region(&self) -> bool {
        self.region
            .is_some_and(|(start, end)| start > end || end as usize > self.frames())
    }

    fn bad_nuclei(&self) -> bool {
        self.nuclei.is_some_and(|frames| {
            frames.windows(2).any(|w| w[0] >= w[1])
                || frames.iter().any(|&f| f as usize >= self.frames())
        })
    }

    fn too_many_samples(&self) -> bool {
        self.samples.is_some_and(|count| count > MAX_SAMPLES)
    }

    fn no_room(&self) -> bool {
        let n = self.frames();
        self.rooms.iter().any(|&(room, more)| room < n + more)
    }
}

fn all_shares(xs: &[f32]) -> bool {
    xs.iter().all(|x| (0.0..=1.0).contains(x))
}

/// An entry's answer: what it returns, or its refusal number.
pub type Answer<T> = Result<T, u8>;

fn admitted(given: &Given) -> Answer<()> {
    match given.refusal() {
        0 => Ok(()),
        number => Err(number),
    }
}

/// Which frames are speech, 1 or 0, into the front of `marks`; how many.
pub fn speech_marks(db: &[f32], settings: Settings, marks: &mut [u8]) -> Answer<usize> {
    admitted(&Given {
        db: Some(db),
        settings: Some(settings),
        rooms: &[(marks.len(), 0)],
        ..Given::default()
    })?;
    Ok(put(marks, marked(db, settings)))
}

/// The region, half-open, or none.
pub fn region(db: &[f32], settings: Settings) -> Answer<Option<(u32, u32)>> {
    admitted(&Given {
        db: Some(db),
        settings: Some(settings),
        ..Given::default()
    })?;
    Ok(found_region(db, settings))
}

/// Octave errors put right in place.
pub fn repair(pitch: &mut [f32]) -> Answer<()> {
    admitted(&Given {
        pitch: Some((pitch, REPAIRABLE)),
        ..Given::default()
    })?;
    repaired(pitch);
    Ok(())
}

/// Pitches given to periodic stretches without one, in place.
pub fn recover(pitch: &mut [f32], samples: &[i16], speech: &[u8], vowel: &[u8]) -> Answer<()> {
    admitted(&Given {
        pitch: Some((pitch, PITCH)),
        speech: Some(speech),
        vowel: Some(vowel),
        samples: Some(samples.len()),
        ..Given::default()
    })?;
    recovered(pitch, samples, speech, vowel);
    Ok(())
}

/// The nuclei of a region into the front of `list`; how many.
pub fn nuclei(
    db: &[f32],
    pitch: &[f32],
    settings: Settings,
    region: (u32, u32),
    list: &mut [Mark],
) -> Answer<usize> {
    admitted(&Given {
        db: Some(db),
        pitch: Some((pitch, PITCH)),
        settings: Some(settings),
        region: Some(region),
        rooms: &[(list.len(), 0)],
        ..Given::default()
    })?;
    Ok(put(list, found_nuclei(db, pitch, settings, region)))
}

/// The extra candidates and their edges into the fronts of two lists; how many of each.
#[allow(clippy::too_many_arguments)]
pub fn extras(
    db: &[f32],
    pitch: &[f32],
    sonority: &[f32],
    settings: Settings,
    region: (u32, u32),
    nuclei: &[u32],
    list: &mut [Mark],
    edges: &mut [u32],
) -> Answer<(usize, usize)> {
    admitted(&Given {
        db: Some(db),
        pitch: Some((pitch, PITCH)),
        sonority: Some(sonority),
        settings: Some(settings),
        region: Some(region),
        nuclei: Some(nuclei),
        rooms: &[(list.len(), 0), (edges.len(), 0)],
        ..Given::default()
    })?;
    let found = found_extras(db, pitch, sonority, settings, region, nuclei);
    Ok((put(list, found.0), put(edges, found.1)))
}

/// The boundaries into the front of `list`; how many.
#[allow(clippy::too_many_arguments)]
pub fn boundaries_with(
    db: &[f32],
    pitch: &[f32],
    voiced_p: &[f32],
    settings: Settings,
    region: (u32, u32),
    nuclei: &[u32],
    list: &mut [u32],
) -> Answer<usize> {
    admitted(&Given {
        settings: Some(settings),
        ..for_boundaries(db, pitch, voiced_p, region, nuclei, &[(list.len(), 1)])
    })?;
    let found = found_boundaries(db, pitch, voiced_p, settings, region, nuclei);
    Ok(put(list, found))
}

/// [`boundaries_with`] under [`DEFAULTS`], which are not the reference's own; no setting is given or
/// tested.
pub fn boundaries(
    db: &[f32],
    pitch: &[f32],
    voiced_p: &[f32],
    region: (u32, u32),
    nuclei: &[u32],
    list: &mut [u32],
) -> Answer<usize> {
    admitted(&for_boundaries(
        db,
        pitch,
        voiced_p,
        region,
        nuclei,
        &[(list.len(), 1)],
    ))?;
    let found = found_boundaries(db, pitch, voiced_p, DEFAULTS, region, nuclei);
    Ok(put(list, found))
}

fn for_boundaries<'a>(
    db: &'a [f32],
    pitch: &'a [f32],
    voiced_p: &'a [f32],
    region: (u32, u32),
    nuclei: &'a [u32],
    rooms: &'a [(usize, usize)],
) -> Given<'a> {
    Given {
        db: Some(db),
        pitch: Some((pitch, PITCH)),
        voiced_p: Some(voiced_p),
        region: Some(region),
        nuclei: Some(nuclei),
        rooms,
        ..Given::default()
    }
}

/// What the chain reads of a take.
#[derive(Clone, Copy)]
pub struct Frames<'a> {
    pub db: &'a [f32],
    pub voiced_p: &'a [f32],
    pub sonority: &'a [f32],
    pub vowel: &'a [u8],
}

/// The chain's result lists.
pub struct Lists<'a> {
    pub nuclei: &'a mut [Mark],
    pub extras: &'a mut [Mark],
    pub edges: &'a mut [u32],
    pub boundaries: &'a mut [u32],
}

/// What the chain returns: the region and how many entries each list got.
#[derive(Clone, Copy, Debug, Default, PartialEq)]
pub struct Found {
    pub region: Option<(u32, u32)>,
    pub nuclei: usize,
    pub extras: usize,
    pub edges: usize,
    pub boundaries: usize,
}

/// Every stage in turn, each on the tracks so far: recovery on the pitches as given, by speech marks that
/// are made here, then the repair of the joined track, then the marks.
pub fn chain(
    frames: Frames,
    pitch: &mut [f32],
    settings: Settings,
    samples: &[i16],
    lists: Lists,
) -> Answer<Found> {
    admitted(&Given {
        db: Some(frames.db),
        pitch: Some((pitch, REPAIRABLE)),
        voiced_p: Some(frames.voiced_p),
        sonority: Some(frames.sonority),
        vowel: Some(frames.vowel),
        settings: Some(settings),
        samples: Some(samples.len()),
        rooms: &[
            (lists.nuclei.len(), 0),
            (lists.extras.len(), 0),
            (lists.edges.len(), 0),
            (lists.boundaries.len(), 1),
        ],
        ..Given::default()
    })?;
    recovered(pitch, samples, &marked(frames.db, settings), frames.vowel);
    repaired(pitch);
    let Some(region) = found_region(frames.db, settings) else {
        return Ok(Found::default());
    };
    let marks = found_nuclei(frames.db, pitch, settings, region);
    let nuclei: Vec<u32> = marks.iter().map(|m| m.frame).collect();
    let (extras, edges) =
        found_extras(frames.db, pitch, frames.sonority, settings, region, &nuclei);
    let boundaries = found_boundaries(frames.db, pitch, frames.voiced_p, settings, region, &nuclei);
    Ok(Found {
        region: Some(region),
        nuclei: put(lists.nuclei, marks),
        extras: put(lists.extras, extras),
        edges: put(lists.edges, edges),
        boundaries: put(lists.boundaries, boundaries),
    })
}

// The stages on admitted input: our tracks into the reference's and its results back.

pub fn energy(db: &[f32]) -> EnergyTrack {
    EnergyTrack { db: db.to_vec() }
}

/// The reference's track; +0.0 is no pitch. A missing `voiced_p` reads as 0.
pub fn f0(pitch: &[f32], voiced_p: &[f32]) -> F0Track {
    let frame = |(i, &hz): (usize, &f32)| F0Frame {
        hz: (hz != 0.0).then_some(hz),
        voiced_p: voiced_p.get(i).copied().unwrap_or(0.0),
    };
    F0Track {
        frames: pitch.iter().enumerate().map(frame).collect(),
        provider: String::new(),
    }
}

/// 16-bit samples as the reference takes them.
pub fn pcm(samples: &[i16]) -> Vec<f32> {
    samples.iter().map(|&v| f32::from(v) / 32_768.0).collect()
}

pub fn range((start, end): (u32, u32)) -> FrameRange {
    FrameRange { start, end }
}

/// The reference reads no strength of a given nucleus; NaN would show it if it did.
pub fn given_nuclei(frames: &[u32]) -> Vec<Nucleus> {
    let given = |&frame: &u32| Nucleus {
        frame,
        strength_db: f32::NAN,
    };
    frames.iter().map(given).collect()
}

fn write_back(track: &F0Track, pitch: &mut [f32]) {
    for (to, from) in pitch.iter_mut().zip(&track.frames) {
        *to = from.hz.unwrap_or(0.0);
    }
}

/// Speech marks, one for each frame.
fn marked(db: &[f32], settings: Settings) -> Vec<u8> {
    let speech = tonekit_segment::speech_frames(&energy(db), &settings.params());
    speech.into_iter().map(u8::from).collect()
}

fn repaired(pitch: &mut [f32]) {
    let mut track = f0(pitch, &[]);
    tonekit_f0::repair_octaves(&mut track);
    write_back(&track, pitch);
}

fn recovered(pitch: &mut [f32], samples: &[i16], speech: &[u8], vowel: &[u8]) {
    let masks = |marks: &[u8]| marks.iter().map(|&m| m == 1).collect::<Vec<bool>>();
    let mut track = f0(pitch, &[]);
    tonekit_f0::recover_pitch(&mut track, &pcm(samples), &masks(speech), &masks(vowel));
    write_back(&track, pitch);
}

fn found_region(db: &[f32], settings: Settings) -> Option<(u32, u32)> {
    let found = tonekit_segment::speech_region(&energy(db), &settings.params());
    found.map(|r| (r.start, r.end))
}

fn found_nuclei(db: &[f32], pitch: &[f32], settings: Settings, region: (u32, u32)) -> Vec<Mark> {
    let found = tonekit_segment::nuclei(
        &energy(db),
        &f0(pitch, &[]),
        &range(region),
        &settings.params(),
    );
    found.iter().map(Mark::from).collect()
}

fn found_extras(
    db: &[f32],
    pitch: &[f32],
    sonority: &[f32],
    settings: Settings,
    region: (u32, u32),
    nuclei: &[u32],
) -> (Vec<Mark>, Vec<u32>) {
    let found = tonekit_segment::extra_candidates(
        &energy(db),
        &f0(pitch, &[]),
        sonority,
        &range(region),
        &given_nuclei(nuclei),
        &settings.params(),
    );
    let marks = found.nuclei.iter().map(Mark::from).collect();
    (marks, found.boundaries)
}

fn found_boundaries(
    db: &[f32],
    pitch: &[f32],
    voiced_p: &[f32],
    settings: Settings,
    region: (u32, u32),
    nuclei: &[u32],
) -> Vec<u32> {
    tonekit_segment::boundaries_with(
        &energy(db),
        &f0(pitch, voiced_p),
        &range(region),
        &given_nuclei(nuclei),
        &settings.params(),
    )
}

/// Puts `found` at the front of a lent list; entries past it stay.
fn put<T>(list: &mut [T], found: impl IntoIterator<Item = T>) -> usize {
    let mut count = 0;
    for entry in found {
        list[count] = entry;
        count += 1;
    }
    count
}

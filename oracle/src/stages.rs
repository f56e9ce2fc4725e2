//! The kinds of whole stages, from 32 on: byte forms, and the reference's answers behind our reading
//! of the refusals. All forms are here, so that one can be changed in one place; README.md repeats
//! them in words.
//!
//! Lent lists start out filled with 0xee bytes and are answered whole. A take too long for a
//! record is made from a short one: samples are stored once and repeated up to their count.
//! Which entry answers is the caller's to say: the reference's, or one of the bindings.

use crate::bytes::{Reader, Writer};
use crate::calls::Call;
use crate::entry::{self, Answer, Found, Frames, Lists, Mark, Settings};
use crate::kinds::UNTOUCHED;
use crate::take::listing;
use tonekit_f0::probe;

/// The longest window of samples, and the lags measured in it: an estimate reads those from 31 on.
pub const WINDOW: usize = 512;
const LAGS: std::ops::RangeInclusive<usize> = 1..=230;

// Fields

fn settings(r: &mut Reader) -> Option<Settings> {
    Some(Settings {
        margin: r.f32()?,
        dip: r.f32()?,
        gap: r.u32()?,
    })
}

fn region(r: &mut Reader) -> Option<(u32, u32)> {
    Some((r.u32()?, r.u32()?))
}

fn i16(r: &mut Reader) -> Option<i16> {
    r.u16().map(|v| v as i16)
}

fn write_settings(w: Writer, s: Settings) -> Writer {
    w.f32(s.margin).f32(s.dip).u32(s.gap)
}

pub fn write_i16(w: Writer, v: i16) -> Writer {
    let [high, low] = v.to_be_bytes();
    w.u8(high).u8(low)
}

/// A lent list of frames and strengths before a call.
fn marks(room: usize) -> Vec<Mark> {
    let untouched = Mark {
        frame: UNTOUCHED,
        strength: f32::from_bits(UNTOUCHED),
    };
    vec![untouched; room]
}

fn frames(room: usize) -> Vec<u32> {
    vec![UNTOUCHED; room]
}

fn write_marks(w: Writer, list: &[Mark]) -> Writer {
    w.each(list, |w, m| w.u32(m.frame).answer(m.strength))
}

fn write_frames(w: Writer, list: &[u32]) -> Writer {
    w.each(list, |w, &f| w.u32(f))
}

/// What was counted, or no count beside a refusal.
fn outcome<T: Default>(answer: Answer<T>) -> (u8, T) {
    match answer {
        Ok(found) => (0, found),
        Err(number) => (number, T::default()),
    }
}

/// The samples of a call: `stored` ones, over and over, up to `count`.
fn repeated(stored: &[i16], count: usize) -> Option<Vec<i16>> {
    if stored.is_empty() && count > 0 {
        return None;
    }
    Some(stored.iter().copied().cycle().take(count).collect())
}

// Answers

pub fn repair(r: &mut Reader, entry: impl Fn(&mut [f32]) -> Answer<()>) -> Option<Writer> {
    let mut pitch = r.rest(Reader::f32)?;
    let (refusal, ()) = outcome(entry(&mut pitch));
    Some(Writer::new().u8(refusal).each(pitch, Writer::answer))
}

pub fn nsdf(r: &mut Reader) -> Option<Writer> {
    let pcm = entry::pcm(&window(r)?);
    Some(Writer::new().each(LAGS, |w, lag| {
        w.answer64(probe::nsdf(&pcm, WINDOW / 2, lag))
    }))
}

pub fn estimate(r: &mut Reader) -> Option<Writer> {
    let found = probe::estimate(&entry::pcm(&window(r)?), WINDOW / 2);
    let w = Writer::new().u8(found.is_some().into());
    Some(w.answer64(found.unwrap_or(0.0)))
}

/// At most a window of samples: around its middle they are all that is read.
fn window(r: &mut Reader) -> Option<Vec<i16>> {
    r.rest(i16).filter(|samples| samples.len() <= WINDOW)
}

pub fn recovery(
    r: &mut Reader,
    entry: impl Fn(&mut [f32], &[i16], &[u8], &[u8]) -> Answer<()>,
) -> Option<Writer> {
    let [pitches, speech, vowel, samples, stored] = counts(r)?;
    let mut pitch = r.many(pitches, Reader::f32)?;
    let (speech, vowel) = (r.bytes(speech)?, r.bytes(vowel)?);
    let samples = repeated(&r.many(stored, i16)?, samples)?;
    let (refusal, ()) = outcome(entry(&mut pitch, &samples, speech, vowel));
    Some(Writer::new().u8(refusal).each(pitch, Writer::answer))
}

fn counts<const N: usize>(r: &mut Reader) -> Option<[usize; N]> {
    r.many(N, Reader::size)?.try_into().ok()
}

pub fn speech_marks(
    r: &mut Reader,
    entry: impl Fn(&[f32], Settings, &mut [u8]) -> Answer<usize>,
) -> Option<Writer> {
    let (settings, room) = (settings(r)?, r.size()?);
    let db = r.rest(Reader::f32)?;
    let mut marks = vec![UNTOUCHED as u8; room];
    let (refusal, count) = outcome(entry(&db, settings, &mut marks));
    Some(
        Writer::new()
            .u8(refusal)
            .size(count)
            .each(marks, Writer::u8),
    )
}

pub fn region_entry(
    r: &mut Reader,
    entry: impl Fn(&[f32], Settings) -> Answer<Option<(u32, u32)>>,
) -> Option<Writer> {
    let settings = settings(r)?;
    let (refusal, found) = outcome(entry(&r.rest(Reader::f32)?, settings));
    Some(write_region(Writer::new().u8(refusal), found))
}

fn write_region(w: Writer, found: Option<(u32, u32)>) -> Writer {
    let (start, end) = found.unwrap_or((0, 0));
    w.u8(found.is_some().into()).u32(start).u32(end)
}

pub fn nuclei(
    r: &mut Reader,
    entry: impl Fn(&[f32], &[f32], Settings, (u32, u32), &mut [Mark]) -> Answer<usize>,
) -> Option<Writer> {
    let (settings, region) = (settings(r)?, region(r)?);
    let [room, dbs, pitches] = counts(r)?;
    let db = r.many(dbs, Reader::f32)?;
    let pitch = r.many(pitches, Reader::f32)?;
    let mut list = marks(room);
    let (refusal, count) = outcome(entry(&db, &pitch, settings, region, &mut list));
    Some(write_marks(Writer::new().u8(refusal).size(count), &list))
}

pub fn extras(
    r: &mut Reader,
    entry: impl Fn(
        &[f32],
        &[f32],
        &[f32],
        Settings,
        (u32, u32),
        &[u32],
        &mut [Mark],
        &mut [u32],
    ) -> Answer<(usize, usize)>,
) -> Option<Writer> {
    let (settings, region) = (settings(r)?, region(r)?);
    let [room, edge_room, dbs, pitches, sonorities, given] = counts(r)?;
    let db = r.many(dbs, Reader::f32)?;
    let pitch = r.many(pitches, Reader::f32)?;
    let sonority = r.many(sonorities, Reader::f32)?;
    let given = r.many(given, Reader::u32)?;
    let (mut list, mut edges) = (marks(room), frames(edge_room));
    let (refusal, (found, edged)) = outcome(entry(
        &db, &pitch, &sonority, settings, region, &given, &mut list, &mut edges,
    ));
    let w = Writer::new().u8(refusal).size(found).size(edged);
    Some(write_frames(write_marks(w, &list), &edges))
}

pub fn boundaries_with(
    r: &mut Reader,
    entry: impl Fn(&[f32], &[f32], &[f32], Settings, (u32, u32), &[u32], &mut [u32]) -> Answer<usize>,
) -> Option<Writer> {
    let s = settings(r)?;
    boundaries(r, |db, pitch, voiced_p, region, given, list| {
        entry(db, pitch, voiced_p, s, region, given, list)
    })
}

pub fn boundaries(
    r: &mut Reader,
    entry: impl Fn(&[f32], &[f32], &[f32], (u32, u32), &[u32], &mut [u32]) -> Answer<usize>,
) -> Option<Writer> {
    let region = region(r)?;
    let [room, dbs, pitches, voiced, given] = counts(r)?;
    let db = r.many(dbs, Reader::f32)?;
    let pitch = r.many(pitches, Reader::f32)?;
    let voiced_p = r.many(voiced, Reader::f32)?;
    let given = r.many(given, Reader::u32)?;
    let mut list = frames(room);
    let answer = entry(&db, &pitch, &voiced_p, region, &given, &mut list);
    let (refusal, count) = outcome(answer);
    Some(write_frames(Writer::new().u8(refusal).size(count), &list))
}

pub fn chain(
    r: &mut Reader,
    entry: impl Fn(Frames, &mut [f32], Settings, &[i16], Lists) -> Answer<Found>,
) -> Option<Writer> {
    let settings = settings(r)?;
    let rooms: [usize; 4] = counts(r)?;
    let [dbs, pitches, voiced, sonorities, vowels, samples, stored] = counts(r)?;
    let db = r.many(dbs, Reader::f32)?;
    let mut pitch = r.many(pitches, Reader::f32)?;
    let voiced_p = r.many(voiced, Reader::f32)?;
    let sonority = r.many(sonorities, Reader::f32)?;
    let vowel = r.bytes(vowels)?;
    let samples = repeated(&r.many(stored, i16)?, samples)?;
    let (mut nuclei, mut extras) = (marks(rooms[0]), marks(rooms[1]));
    let (mut edges, mut boundaries) = (frames(rooms[2]), frames(rooms[3]));
    let (refusal, found) = outcome(entry(
        Frames {
            db: &db,
            voiced_p: &voiced_p,
            sonority: &sonority,
            vowel,
        },
        &mut pitch,
        settings,
        &samples,
        Lists {
            nuclei: &mut nuclei,
            extras: &mut extras,
            edges: &mut edges,
            boundaries: &mut boundaries,
        },
    ));
    let w = write_region(Writer::new().u8(refusal), found.region)
        .size(found.nuclei)
        .size(found.extras)
        .size(found.edges)
        .size(found.boundaries)
        .each(pitch, Writer::answer);
    let w = write_marks(write_marks(w, &nuclei), &extras);
    Some(write_frames(write_frames(w, &edges), &boundaries))
}

pub fn take_file(r: &mut Reader) -> Option<Writer> {
    let file = r.bytes(r.left())?;
    let mut w = Writer::new();
    w.bytes.extend(listing(file).as_bytes());
    Some(w)
}

// Inputs

/// The input of a kind that makes this call.
pub fn write(kind: u8, c: &Call) -> Vec<u8> {
    let w = Writer::new();
    let floats = |w: Writer, xs: &[f32]| w.each(xs.iter().copied(), Writer::f32);
    let bytes = |w: Writer, xs: &[u8]| w.each(xs.iter().copied(), Writer::u8);
    let placed = |w: Writer| w.u32(c.region.0).u32(c.region.1);
    let (db, pitch, nuclei) = (c.db.len(), c.pitch.len(), c.nuclei.len());
    let w = match kind {
        32 => floats(w, &c.pitch),
        35 => {
            let w = w.size(pitch).size(c.speech.len()).size(c.vowel.len());
            let w = floats(w.size(c.samples).size(c.stored.len()), &c.pitch);
            let w = bytes(bytes(w, &c.speech), &c.vowel);
            w.each(c.stored.iter().copied(), write_i16)
        }
        36 => floats(write_settings(w, c.settings).size(c.rooms[0]), &c.db),
        37 => floats(write_settings(w, c.settings), &c.db),
        40 => {
            let w = placed(write_settings(w, c.settings));
            let w = w.size(c.rooms[0]).size(db).size(pitch);
            floats(floats(w, &c.db), &c.pitch)
        }
        41 => {
            let w = placed(write_settings(w, c.settings));
            let w = w.size(c.rooms[1]).size(c.rooms[2]).size(db).size(pitch);
            let w = floats(w.size(c.sonority.len()).size(nuclei), &c.db);
            let w = floats(floats(w, &c.pitch), &c.sonority);
            w.each(c.nuclei.iter().copied(), Writer::u32)
        }
        42 | 43 => {
            let w = if kind == 42 {
                write_settings(w, c.settings)
            } else {
                w
            };
            let w = placed(w).size(c.rooms[3]).size(db).size(pitch);
            let w = floats(w.size(c.voiced_p.len()).size(nuclei), &c.db);
            let w = floats(floats(w, &c.pitch), &c.voiced_p);
            w.each(c.nuclei.iter().copied(), Writer::u32)
        }
        _ => {
            let w = write_settings(w, c.settings).each(c.rooms, Writer::size);
            let w = w.size(db).size(pitch).size(c.voiced_p.len());
            let w = w.size(c.sonority.len()).size(c.vowel.len());
            let w = floats(w.size(c.samples).size(c.stored.len()), &c.db);
            let w = floats(floats(w, &c.pitch), &c.voiced_p);
            let w = bytes(floats(w, &c.sonority), &c.vowel);
            w.each(c.stored.iter().copied(), write_i16)
        }
    };
    w.bytes
}

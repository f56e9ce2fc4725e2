//! The public entries through the library's Rust bindings, with the parameters of [`crate::entry`]'s.

use crate::bytes::Reader;
use crate::entry::{Answer, Found, Frames, Lists, Mark, Settings};
use crate::stages;
use kiddwyr::{Nucleus, Refusal, Tracks};
use std::ops::Range;

/// The answer's bytes to an input of an entry's kind; nothing answers the other kinds.
pub fn answer(kind: u8, input: &[u8]) -> Option<Vec<u8>> {
    answer_in(kind, input, range)
}

/// The same with another region than the input's, where the entry takes one: a record's ends are of
/// 32 bits, the bindings' of 64.
pub fn answer_in(
    kind: u8,
    input: &[u8],
    region_of: impl Fn((u32, u32)) -> Range<usize>,
) -> Option<Vec<u8>> {
    let r = &mut Reader::new(input);
    let written = match kind {
        32 => stages::repair(r, repair),
        35 => stages::recovery(r, recover),
        36 => stages::speech_marks(r, speech_marks),
        37 => stages::region_entry(r, region),
        40 => stages::nuclei(r, |db, pitch, s, region, list| {
            nuclei(db, pitch, s, region_of(region), list)
        }),
        41 => stages::extras(r, |db, pitch, sonority, s, region, at, list, edges| {
            let region = region_of(region);
            extras(db, pitch, sonority, s, region, at, list, edges)
        }),
        42 => stages::boundaries_with(r, |db, pitch, voiced_p, s, region, at, list| {
            boundaries_with(db, pitch, voiced_p, s, region_of(region), at, list)
        }),
        43 => stages::boundaries(r, |db, pitch, voiced_p, region, at, list| {
            boundaries(db, pitch, voiced_p, region_of(region), at, list)
        }),
        48 => stages::chain(r, chain),
        _ => None,
    };
    written.map(|w| w.bytes)
}

fn number(refusal: Refusal) -> u8 {
    refusal.0.try_into().expect("refusals are small numbers")
}

fn given(s: Settings) -> kiddwyr::Settings {
    kiddwyr::Settings {
        margin: s.margin,
        dip: s.dip,
        gap: s.gap,
    }
}

fn range((start, end): (u32, u32)) -> Range<usize> {
    start as usize..end as usize
}

fn pair(region: Range<usize>) -> (u32, u32) {
    (region.start as u32, region.end as u32)
}

/// No strength of a given nucleus is to be read; NaN would show it if one were.
fn at(frames: &[u32]) -> Vec<Nucleus> {
    let strength = f32::NAN;
    let at = |&frame: &u32| Nucleus { frame, strength };
    frames.iter().map(at).collect()
}

/// Lends a list to the bindings as one of their own.
fn lend<T>(list: &mut [Mark], call: impl FnOnce(&mut [Nucleus]) -> T) -> T {
    let nucleus = |m: &Mark| Nucleus {
        frame: m.frame,
        strength: m.strength,
    };
    let mut lent: Vec<Nucleus> = list.iter().map(nucleus).collect();
    let answer = call(&mut lent);
    for (to, from) in list.iter_mut().zip(lent) {
        *to = Mark {
            frame: from.frame,
            strength: from.strength,
        };
    }
    answer
}

fn speech_marks(db: &[f32], s: Settings, marks: &mut [u8]) -> Answer<usize> {
    kiddwyr::speech_marks(db, given(s), marks).map_err(number)
}

fn region(db: &[f32], s: Settings) -> Answer<Option<(u32, u32)>> {
    let found = kiddwyr::region(db, given(s)).map_err(number)?;
    Ok(found.map(pair))
}

fn repair(pitch: &mut [f32]) -> Answer<()> {
    kiddwyr::repair(pitch).map_err(number)
}

fn recover(pitch: &mut [f32], samples: &[i16], speech: &[u8], vowel: &[u8]) -> Answer<()> {
    kiddwyr::recover(pitch, samples, speech, vowel).map_err(number)
}

fn nuclei(
    db: &[f32],
    pitch: &[f32],
    s: Settings,
    region: Range<usize>,
    list: &mut [Mark],
) -> Answer<usize> {
    lend(list, |list| {
        kiddwyr::nuclei(db, pitch, region, given(s), list).map_err(number)
    })
}

#[allow(clippy::too_many_arguments)]
fn extras(
    db: &[f32],
    pitch: &[f32],
    sonority: &[f32],
    s: Settings,
    region: Range<usize>,
    nuclei: &[u32],
    list: &mut [Mark],
    edges: &mut [u32],
) -> Answer<(usize, usize)> {
    let (nuclei, s) = (at(nuclei), given(s));
    let counted = lend(list, |list| {
        kiddwyr::extras(db, pitch, sonority, region, &nuclei, s, list, edges)
    });
    counted.map(|c| (c.extras, c.edges)).map_err(number)
}

fn boundaries_with(
    db: &[f32],
    pitch: &[f32],
    voiced_p: &[f32],
    s: Settings,
    region: Range<usize>,
    nuclei: &[u32],
    list: &mut [u32],
) -> Answer<usize> {
    let (nuclei, s) = (at(nuclei), given(s));
    kiddwyr::boundaries_with(db, pitch, voiced_p, region, &nuclei, s, list).map_err(number)
}

fn boundaries(
    db: &[f32],
    pitch: &[f32],
    voiced_p: &[f32],
    region: Range<usize>,
    nuclei: &[u32],
    list: &mut [u32],
) -> Answer<usize> {
    let nuclei = at(nuclei);
    kiddwyr::boundaries(db, pitch, voiced_p, region, &nuclei, list).map_err(number)
}

fn chain(
    frames: Frames,
    pitch: &mut [f32],
    s: Settings,
    samples: &[i16],
    lists: Lists,
) -> Answer<Found> {
    let tracks = Tracks {
        db: frames.db,
        voiced_p: frames.voiced_p,
        sonority: frames.sonority,
        vowel: frames.vowel,
        samples,
    };
    let (edges, boundaries) = (lists.edges, lists.boundaries);
    let found = lend(lists.nuclei, |nuclei| {
        lend(lists.extras, |extras| {
            let lists = kiddwyr::Lists {
                nuclei,
                extras,
                edges,
                boundaries,
            };
            kiddwyr::chain(tracks, pitch, given(s), lists)
        })
    });
    let found = found.map_err(number)?;
    Ok(Found {
        region: found.region.map(pair),
        nuclei: found.nuclei,
        extras: found.extras,
        edges: found.edges,
        boundaries: found.boundaries,
    })
}

//! The take file and the listing.

use crate::bytes::{Reader, Writer};
use crate::entry::{self, Frames, Lists, Settings, BLANK, MAX_FRAMES};
use std::fmt::Write;

/// Bytes that the length field counts: those of the head after it, and of a record.
const HEAD: usize = 15;
const RECORD: usize = 17;
const VERSION: u8 = 1;

/// A take as a file brings it; the tracks are equally long.
#[derive(Clone, Debug, PartialEq)]
pub struct Take {
    pub settings: Settings,
    pub db: Vec<f32>,
    pub pitch: Vec<f32>,
    pub voiced_p: Vec<f32>,
    pub sonority: Vec<f32>,
    pub vowel: Vec<u8>,
}

impl Take {
    pub fn empty(settings: Settings) -> Self {
        Take {
            settings,
            db: Vec::new(),
            pitch: Vec::new(),
            voiced_p: Vec::new(),
            sonority: Vec::new(),
            vowel: Vec::new(),
        }
    }

    pub fn frames(&self) -> Frames<'_> {
        Frames {
            db: &self.db,
            voiced_p: &self.voiced_p,
            sonority: &self.sonority,
            vowel: &self.vowel,
        }
    }

    /// Reads a file. Refused with 11 where its bytes do not agree with themselves, then with 1
    /// where they agree on too many frames, whose records are not looked at.
    pub fn read(file: &[u8]) -> Result<Take, u8> {
        let mut r = Reader::new(file);
        let head = (|| Some((r.size()?, r.u8()?, usize::from(r.u16()?))))();
        let (length, version, n) = head.ok_or(11)?;
        if version != VERSION || length != HEAD + RECORD * n || file.len() != 4 + length {
            return Err(11);
        }
        if n > MAX_FRAMES {
            return Err(1);
        }
        Self::records(&mut r, n).ok_or(11)
    }

    fn records(r: &mut Reader, n: usize) -> Option<Take> {
        let mut take = Take::empty(Settings {
            margin: r.f32()?,
            dip: r.f32()?,
            gap: r.u32()?,
        });
        for _ in 0..n {
            take.db.push(r.f32()?);
            take.pitch.push(r.f32()?);
            take.voiced_p.push(r.f32()?);
            take.sonority.push(r.f32()?);
            take.vowel.push(r.u8()?);
        }
        Some(take)
    }

    /// The file of a take of at most 65,535 frames.
    pub fn write(&self) -> Vec<u8> {
        let n = self.db.len();
        let [_, _, high, low] = (n as u32).to_be_bytes();
        let head = Writer::new()
            .size(HEAD + RECORD * n)
            .u8(VERSION)
            .u8(high)
            .u8(low)
            .f32(self.settings.margin)
            .f32(self.settings.dip)
            .u32(self.settings.gap);
        let file = head.each(0..n, |w, i| {
            w.f32(self.db[i])
                .f32(self.pitch[i])
                .f32(self.voiced_p[i])
                .f32(self.sonority[i])
                .u8(self.vowel[i])
        });
        file.bytes
    }
}

/// The samples of a WAV file of the examples: 16 bits each, behind a head of 44 bytes.
pub fn samples(wav: &[u8]) -> Vec<i16> {
    let data = wav.get(44..).unwrap_or_default();
    let sample = |pair: &[u8]| i16::from_le_bytes([pair[0], pair[1]]);
    data.chunks_exact(2).map(sample).collect()
}

/// What the program `marks` prints for a file; each line ends in a newline.
pub fn listing(file: &[u8]) -> String {
    listing_with(file, &[])
}

/// The same of a take with its sound.
pub fn listing_with(file: &[u8], samples: &[i16]) -> String {
    match Take::read(file).and_then(|take| marks(&take, samples)) {
        Ok(lines) => lines,
        Err(number) => format!("refused {number}\n"),
    }
}

/// The chain, as lines.
fn marks(take: &Take, samples: &[i16]) -> Result<String, u8> {
    let n = take.db.len();
    let mut pitch = take.pitch.clone();
    let (mut nuclei, mut extras) = (vec![BLANK; n], vec![BLANK; n]);
    let (mut edges, mut boundaries) = (vec![0; n], vec![0; n + 1]);
    let lists = Lists {
        nuclei: &mut nuclei,
        extras: &mut extras,
        edges: &mut edges,
        boundaries: &mut boundaries,
    };
    let found = entry::chain(take.frames(), &mut pitch, take.settings, samples, lists)?;

    let mut out = String::new();
    for (i, (new, old)) in pitch.iter().zip(&take.pitch).enumerate() {
        if new.to_bits() != old.to_bits() {
            line(&mut out, format_args!("pitch {i} {:08x}", new.to_bits()));
        }
    }
    match found.region {
        Some((start, end)) => line(&mut out, format_args!("region {start} {end}")),
        None => line(&mut out, format_args!("region none")),
    }
    for (word, list) in [
        ("nucleus", &nuclei[..found.nuclei]),
        ("extra", &extras[..found.extras]),
    ] {
        for mark in list {
            let bits = mark.strength.to_bits();
            line(&mut out, format_args!("{word} {} {bits:08x}", mark.frame));
        }
    }
    for (word, list) in [
        ("extra-edge", &edges[..found.edges]),
        ("boundary", &boundaries[..found.boundaries]),
    ] {
        for frame in list {
            line(&mut out, format_args!("{word} {frame}"));
        }
    }
    Ok(out)
}

fn line(out: &mut String, text: std::fmt::Arguments) {
    writeln!(out, "{text}").expect("a string takes every line");
}

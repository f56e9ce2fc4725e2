//! Kiddwyr marks the syllables of a spoken take and their pitch. This is its library for Rust.
//!
//! A take is measured in n frames of 10 ms, at most [`MAX_FRAMES`]. A track is a slice with one
//! value for each frame:
//!
//! | | |
//! |---|---|
//! | `db` | loudness in dB; not finite for a frame without sound |
//! | `pitch` | in Hz; +0.0 for none |
//! | `voiced_p` | how surely the frame is voiced, 0 to 1 |
//! | `sonority` | 0 to 1; where its length is not n there are no extras |
//! | `speech`, `vowel` | marks, 0 or 1; frames past the end of such a list have mark 0 |
//! | `samples` | the sound at 16,000 Hz: frame i is around sample 160 i |
//!
//! Results go to the front of lent lists and the answer says how many there are; other entries
//! stay. A list must have room for n entries, one of boundaries for n + 1, whatever is found.
//! Pitches are changed in place. Floating point must be in the mode that Rust assumes: it rounds to
//! nearest, and numbers near 0 are not flushed to it. No function asks more of its caller: what it
//! cannot take it refuses, and then nothing lent has changed. None allocates, keeps state or calls
//! the system; on the stack the chain takes about 105 KB, the others less.
//!
//! What a call returns and leaves is proved to every bit, but for one thing: the logic knows a
//! single NaN, so which of them an entry that stays still holds is left open. Tests see that its
//! bits stay too.
//!
//! ```
//! use kiddwyr::{chain, Lists, Nucleus, Settings, Tracks};
//!
//! // Sixteen frames; 4 to 11 are loud, 5 to 10 are voiced at 200 Hz.
//! let db: Vec<f32> = (0..16).map(|i| if (4..12).contains(&i) { -20.0 } else { -60.0 }).collect();
//! let voiced_p: Vec<f32> = (0..16).map(|i| f32::from((5..11).contains(&i))).collect();
//! let mut pitch: Vec<f32> = voiced_p.iter().map(|v| 200.0 * v).collect();
//! let tracks = Tracks {
//!     db: &db,
//!     voiced_p: &voiced_p,
//!     sonority: &[0.75; 16],
//!     vowel: &[],
//!     samples: &[],
//! };
//! let (mut nuclei, mut boundaries) = ([Nucleus::default(); 16], [0; 17]);
//! let lists = Lists {
//!     nuclei: &mut nuclei,
//!     extras: &mut [Nucleus::default(); 16],
//!     edges: &mut [0; 16],
//!     boundaries: &mut boundaries,
//! };
//! let found = chain(tracks, &mut pitch, Settings::default(), lists)?;
//! assert_eq!(found.region, Some(4..12));
//! assert_eq!(nuclei[..found.nuclei], [Nucleus { frame: 7, strength: 40.0 }]);
//! assert_eq!(boundaries[..found.boundaries], [4, 12]);
//! # Ok::<(), kiddwyr::Refusal>(())
//! ```

use std::error::Error;
use std::fmt;
use std::ops::Range;

mod raw;

/// The version of this crate.
pub const VERSION: &str = env!("CARGO_PKG_VERSION");

/// The version of the library that is linked: 10,000 times its first part, 100 times the second, and the
/// third.
pub fn version() -> u32 {
    // SAFETY: the function takes nothing and answers a number.
    unsafe { raw::kiddwyr_version() }
}

/// The longest take, in frames.
pub const MAX_FRAMES: usize = 2048;
/// The longest sound, in samples.
pub const MAX_SAMPLES: usize = 327_680;

/// Why a call is refused: the lowest number that applies. A function tests only what it is given.
#[derive(Clone, Copy, Debug, PartialEq, Eq, Hash)]
pub struct Refusal(pub u32);

impl Refusal {
    /// The number in words.
    pub fn reason(self) -> &'static str {
        match self.0 {
            1 => "a track, mark list or nucleus list of more than 2,048 entries",
            2 => "dB, pitch and voiced_p of different lengths",
            3 => "a setting that is not finite or outside its range",
            4 => "a finite dB outside -1,000 to 1,000",
            5 => "a pitch or a voiced_p outside its range",
            6 => "a sonority outside 0 to 1, or a mark above 1",
            7 => "a region whose start is after its end, or whose end is past the take",
            8 => "given nuclei that do not rise strictly, or lie past the take",
            9 => "more than 327,680 samples",
            10 => "a result list that is too short",
            11 => "a take file whose bytes do not agree with each other",
            _ => "an unknown reason",
        }
    }
}

impl fmt::Display for Refusal {
    fn fmt(&self, f: &mut fmt::Formatter) -> fmt::Result {
        write!(f, "refused with {}: {}", self.0, self.reason())
    }
}

impl Error for Refusal {}

/// How speech and nuclei are told apart.
///
/// The default is 10 dB, 3 dB and 6 frames. Before version 5 its dip was 2 dB, as in [`Settings::classic`].
///
/// ```
/// use kiddwyr::Settings;
///
/// let settings = Settings { margin: 10.0, dip: 3.0, gap: 6 };
/// assert_eq!(Settings::default(), settings);
/// assert_eq!(Settings::classic(), Settings { dip: 2.0, ..settings });
/// ```
#[repr(C)]
#[derive(Clone, Copy, Debug, PartialEq)]
pub struct Settings {
    /// How far over the floor speech lies: 0 to 200 dB.
    pub margin: f32,
    /// How far the level falls between two nuclei: 0 to 200 dB.
    pub dip: f32,
    /// How far apart two nuclei are at least: at most 1,000 frames.
    pub gap: u32,
}

impl Default for Settings {
    fn default() -> Self {
        // SAFETY: the function takes nothing and answers three numbers.
        unsafe { raw::kiddwyr_defaults() }
    }
}

impl Settings {
    /// The settings of lessons that were marked before version 5: 10 dB, 2 dB and 6 frames.
    pub fn classic() -> Self {
        // SAFETY: as above.
        unsafe { raw::kiddwyr_classic() }
    }
}

/// The nucleus of a syllable, or an extra candidate for one.
#[repr(C)]
#[derive(Clone, Copy, Debug, Default, PartialEq)]
pub struct Nucleus {
    pub frame: u32,
    /// In dB over the floor; not read where nuclei are given.
    pub strength: f32,
}

/// How many entries [`extras`] wrote.
#[derive(Clone, Copy, Debug, PartialEq, Eq)]
pub struct Counted {
    pub extras: usize,
    pub edges: usize,
}

/// What the chain reads of a take, but for the pitches.
#[derive(Clone, Copy, Debug)]
pub struct Tracks<'a> {
    pub db: &'a [f32],
    pub voiced_p: &'a [f32],
    pub sonority: &'a [f32],
    pub vowel: &'a [u8],
    /// None are needed; without them no pitch is recovered.
    pub samples: &'a [i16],
}

/// The chain's result lists.
#[derive(Debug)]
pub struct Lists<'a> {
    pub nuclei: &'a mut [Nucleus],
    pub extras: &'a mut [Nucleus],
    pub edges: &'a mut [u32],
    pub boundaries: &'a mut [u32],
}

/// What the chain found: the region, and how many entries each list got.
#[derive(Clone, Debug, PartialEq, Eq)]
pub struct Marks {
    pub region: Option<Range<usize>>,
    pub nuclei: usize,
    pub extras: usize,
    pub edges: usize,
    pub boundaries: usize,
}

fn admitted(refusal: u32) -> Result<(), Refusal> {
    match refusal {
        0 => Ok(()),
        number => Err(Refusal(number)),
    }
}

fn span(found: bool, start: u32, end: u32) -> Option<Range<usize>> {
    found.then_some(start as usize..end as usize)
}

impl raw::Answer {
    fn result(self) -> Result<usize, Refusal> {
        admitted(self.refusal).map(|()| self.count)
    }
}

// SAFETY, of every call below: each pointer comes with the length of a live slice, lists that are
// written are borrowed alone, and the functions are proved to stay within what they are given and to
// have no other demand than the floating-point mode.

/// Marks the frames of speech with 1 and all others with 0; how many frames.
pub fn speech_marks(db: &[f32], settings: Settings, marks: &mut [u8]) -> Result<usize, Refusal> {
    // SAFETY: see above.
    let answer = unsafe {
        raw::kiddwyr_speech_marks(
            db.as_ptr(),
            db.len(),
            settings,
            marks.as_mut_ptr(),
            marks.len(),
        )
    };
    answer.result()
}

/// The region of speech, where there is one.
pub fn region(db: &[f32], settings: Settings) -> Result<Option<Range<usize>>, Refusal> {
    // SAFETY: see above.
    let answer = unsafe { raw::kiddwyr_region(db.as_ptr(), db.len(), settings) };
    admitted(answer.refusal)?;
    Ok(span(answer.found, answer.start, answer.end))
}

/// Puts pitches right that are an octave off. A repaired one may leave 40 to 2,000 Hz, outside of
/// which this refuses.
pub fn repair(pitch: &mut [f32]) -> Result<(), Refusal> {
    // SAFETY: see above.
    admitted(unsafe { raw::kiddwyr_repair(pitch.as_mut_ptr(), pitch.len()) })
}

/// Gives pitches to stretches of speech that have none and repeat themselves. Tried are the frames
/// with both marks.
pub fn recover(
    pitch: &mut [f32],
    samples: &[i16],
    speech: &[u8],
    vowel: &[u8],
) -> Result<(), Refusal> {
    // SAFETY: see above.
    admitted(unsafe {
        raw::kiddwyr_recover(
            pitch.as_mut_ptr(),
            pitch.len(),
            samples.as_ptr(),
            samples.len(),
            speech.as_ptr(),
            speech.len(),
            vowel.as_ptr(),
            vowel.len(),
        )
    })
}

/// The nuclei of a region, frames rising, into `list`; how many.
pub fn nuclei(
    db: &[f32],
    pitch: &[f32],
    region: Range<usize>,
    settings: Settings,
    list: &mut [Nucleus],
) -> Result<usize, Refusal> {
    // SAFETY: see above.
    let answer = unsafe {
        raw::kiddwyr_nuclei(
            db.as_ptr(),
            db.len(),
            pitch.as_ptr(),
            pitch.len(),
            region.start,
            region.end,
            settings,
            list.as_mut_ptr(),
            list.len(),
        )
    };
    answer.result()
}

/// The extra candidates of a region beside given nuclei into `list`, and the edges that they bring
/// into `edges`; how many.
#[allow(clippy::too_many_arguments)]
pub fn extras(
    db: &[f32],
    pitch: &[f32],
    sonority: &[f32],
    region: Range<usize>,
    nuclei: &[Nucleus],
    settings: Settings,
    list: &mut [Nucleus],
    edges: &mut [u32],
) -> Result<Counted, Refusal> {
    // SAFETY: see above.
    let counted = unsafe {
        raw::kiddwyr_extras(
            db.as_ptr(),
            db.len(),
            pitch.as_ptr(),
            pitch.len(),
            sonority.as_ptr(),
            sonority.len(),
            region.start,
            region.end,
            nuclei.as_ptr(),
            nuclei.len(),
            settings,
            list.as_mut_ptr(),
            list.len(),
            edges.as_mut_ptr(),
            edges.len(),
        )
    };
    admitted(counted.refusal)?;
    Ok(Counted {
        extras: counted.extras,
        edges: counted.edges,
    })
}

/// The boundaries of a region around given nuclei, as frames, into `out`; how many. Its start and
/// its end are among them. A region without frames has one, its start: on a take of no frames that
/// is 0.
pub fn boundaries_with(
    db: &[f32],
    pitch: &[f32],
    voiced_p: &[f32],
    region: Range<usize>,
    nuclei: &[Nucleus],
    settings: Settings,
    out: &mut [u32],
) -> Result<usize, Refusal> {
    // SAFETY: see above.
    let answer = unsafe {
        raw::kiddwyr_boundaries_with(
            db.as_ptr(),
            db.len(),
            pitch.as_ptr(),
            pitch.len(),
            voiced_p.as_ptr(),
            voiced_p.len(),
            region.start,
            region.end,
            nuclei.as_ptr(),
            nuclei.len(),
            settings,
            out.as_mut_ptr(),
            out.len(),
        )
    };
    answer.result()
}

/// [`boundaries_with`] under the default settings: a dip of 3 dB, where versions before 5 had 2.
pub fn boundaries(
    db: &[f32],
    pitch: &[f32],
    voiced_p: &[f32],
    region: Range<usize>,
    nuclei: &[Nucleus],
    out: &mut [u32],
) -> Result<usize, Refusal> {
    // SAFETY: see above.
    let answer = unsafe {
        raw::kiddwyr_boundaries(
            db.as_ptr(),
            db.len(),
            pitch.as_ptr(),
            pitch.len(),
            voiced_p.as_ptr(),
            voiced_p.len(),
            region.start,
            region.end,
            nuclei.as_ptr(),
            nuclei.len(),
            out.as_mut_ptr(),
            out.len(),
        )
    };
    answer.result()
}

/// Every stage on the tracks as those before it left them: recovery, by the speech marks; the repair
/// of given and recovered pitches together; then the region, its nuclei, extras and boundaries.
/// Without a region the pitches are written all the same. A given pitch is changed by the repair
/// alone, as [`repair`] would change it, whatever is recovered.
///
/// It can write a pitch that it would itself refuse: keep the pitches as given if it is to run
/// again. Of two calls that differ in their samples alone, those of one being those of the other
/// times a whole number other than 0, both return and leave the same.
pub fn chain(
    tracks: Tracks,
    pitch: &mut [f32],
    settings: Settings,
    lists: Lists,
) -> Result<Marks, Refusal> {
    // SAFETY: see above.
    let marks = unsafe {
        raw::kiddwyr_chain(
            tracks.db.as_ptr(),
            tracks.db.len(),
            pitch.as_mut_ptr(),
            pitch.len(),
            tracks.voiced_p.as_ptr(),
            tracks.voiced_p.len(),
            tracks.sonority.as_ptr(),
            tracks.sonority.len(),
            tracks.vowel.as_ptr(),
            tracks.vowel.len(),
            tracks.samples.as_ptr(),
            tracks.samples.len(),
            settings,
            lists.nuclei.as_mut_ptr(),
            lists.nuclei.len(),
            lists.extras.as_mut_ptr(),
            lists.extras.len(),
            lists.edges.as_mut_ptr(),
            lists.edges.len(),
            lists.boundaries.as_mut_ptr(),
            lists.boundaries.len(),
        )
    };
    admitted(marks.refusal)?;
    Ok(Marks {
        region: span(marks.found, marks.start, marks.end),
        nuclei: marks.nuclei,
        extras: marks.extras,
        edges: marks.edges,
        boundaries: marks.boundaries,
    })
}

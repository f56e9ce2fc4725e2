//! The kinds of comparison: each has a number, a byte form of its input and of its answer, and the
//! reference's answer. README.md has the forms in a table.
//!
//! Numbers are big-endian, floats are bit patterns. An input that does not have its kind's form
//! has no answer.

use crate::bytes::{Reader, Writer};
use crate::entry::{self, Settings, DEFAULTS, MAX_FRAMES};
use crate::stages;
use exact::Octave;
use tonekit_core::{voiced_runs, F0Track};
use tonekit_segment::probe as segment;
use tonekit_segment::SegmentParams;

/// What an untouched entry of a lent list reads as.
pub const UNTOUCHED: u32 = 0xeeee_eeee;
/// Neither an input nor an answer is longer.
pub const MAX_BYTES: usize = 65_536;

/// How an input is laid out.
pub enum Form {
    /// A head of some bytes, then items of equal size, at most as many as a track has frames.
    Items { head: usize, item: usize },
    /// Counts in its head say what follows.
    Counted,
}

pub struct Kind {
    pub number: u8,
    pub name: &'static str,
    pub form: Form,
    /// Items are answered one by one, each a comparison of its own.
    each: bool,
    answer: fn(&mut Reader) -> Option<Writer>,
}

impl Kind {
    /// The reference's answer, or `None` for an input of another form.
    pub fn answer(&self, input: &[u8]) -> Option<Vec<u8>> {
        if let Form::Items { head, item } = self.form {
            let items = input.len().checked_sub(head)?;
            if items % item != 0 || items / item > MAX_FRAMES {
                return None;
            }
        }
        let mut reader = Reader::new(input);
        let answer = (self.answer)(&mut reader)?;
        (reader.left() == 0).then_some(answer.bytes)
    }

    /// How many single comparisons an input stands for.
    pub fn comparisons(&self, input: &[u8]) -> usize {
        match self.form {
            Form::Items { head, item } if self.each => (input.len() - head) / item,
            _ => 1,
        }
    }

    pub fn by_number(number: u8) -> Option<&'static Kind> {
        KINDS.iter().find(|k| k.number == number)
    }

    /// The kinds of a list such as `1-8,floor,25`, or `all`.
    pub fn by_words(words: &str) -> Option<Vec<&'static Kind>> {
        if words == "all" {
            return Some(KINDS.iter().collect());
        }
        let mut out = Vec::new();
        for word in words.split(',') {
            let found = out.len();
            match word.split_once('-').map(|(a, b)| (a.parse(), b.parse())) {
                Some((Ok(first), Ok(last))) => {
                    let range: std::ops::RangeInclusive<u8> = first..=last;
                    out.extend(KINDS.iter().filter(|k| range.contains(&k.number)));
                }
                _ => {
                    let number = word.parse().ok();
                    let named = |k: &&Kind| k.name == word || Some(k.number) == number;
                    out.extend(KINDS.iter().filter(named));
                }
            }
            (out.len() > found).then_some(())?;
        }
        Some(out)
    }
}

/// Items are answered one by one, or the input as a whole.
const EACH: bool = true;
const WHOLE: bool = false;

const fn items(
    number: u8,
    name: &'static str,
    (head, item): (usize, usize),
    each: bool,
    answer: fn(&mut Reader) -> Option<Writer>,
) -> Kind {
    Kind {
        number,
        name,
        form: Form::Items { head, item },
        each,
        answer,
    }
}

const fn counted(
    number: u8,
    name: &'static str,
    answer: fn(&mut Reader) -> Option<Writer>,
) -> Kind {
    Kind {
        number,
        name,
        form: Form::Counted,
        each: false,
        answer,
    }
}

pub const KINDS: &[Kind] = &[
    items(1, "round", (0, 8), EACH, round),
    items(2, "finite", (0, 4), EACH, finite),
    items(3, "total-order", (0, 4), WHOLE, total_order),
    items(4, "sort", (0, 8), WHOLE, sort),
    items(5, "candidates", (0, 8), WHOLE, candidates),
    items(6, "break", (0, 8), EACH, pitch_break),
    items(7, "step", (0, 16), EACH, step),
    items(8, "octave", (0, 12), EACH, octave),
    items(16, "level", (0, 4), EACH, level),
    items(17, "maxima", (8, 4), WHOLE, |r| extrema(r, segment::maxima)),
    items(18, "minima", (8, 4), WHOLE, |r| extrema(r, segment::minima)),
    items(19, "argmin-middle", (8, 4), WHOLE, |r| {
        middle(r, segment::argmin_middle)
    }),
    items(20, "argmax-middle", (8, 4), WHOLE, |r| {
        middle(r, segment::argmax_middle)
    }),
    items(21, "shallow-valley", (12, 4), WHOLE, shallow_valley),
    items(22, "floor", (0, 4), WHOLE, floor),
    items(23, "threshold", (4, 4), WHOLE, threshold),
    items(24, "speech", (4, 4), WHOLE, speech),
    items(25, "region", (4, 4), WHOLE, region),
    items(26, "voiced-runs", (0, 4), WHOLE, voiced),
    items(27, "long-runs", (0, 4), WHOLE, |r| {
        pairs(r, segment::long_runs)
    }),
    items(28, "syllable-runs", (0, 4), WHOLE, |r| {
        pairs(r, segment::syllable_runs)
    }),
    items(29, "dropouts", (0, 4), WHOLE, |r| {
        pairs(r, segment::dropouts)
    }),
    items(30, "run-of", (4, 8), WHOLE, run_of),
    counted(32, "repair", |r| stages::repair(r, entry::repair)),
    counted(33, "nsdf", stages::nsdf),
    counted(34, "estimate", stages::estimate),
    counted(35, "recovery", |r| stages::recovery(r, entry::recover)),
    counted(36, "speech-entry", |r| {
        stages::speech_marks(r, entry::speech_marks)
    }),
    counted(37, "region-entry", |r| {
        stages::region_entry(r, entry::region)
    }),
    counted(40, "nuclei", |r| stages::nuclei(r, entry::nuclei)),
    counted(41, "extras", |r| stages::extras(r, entry::extras)),
    counted(42, "boundaries-with", |r| {
        stages::boundaries_with(r, entry::boundaries_with)
    }),
    counted(43, "boundaries", |r| {
        stages::boundaries(r, entry::boundaries)
    }),
    counted(48, "chain", |r| stages::chain(r, entry::chain)),
    counted(56, "take-file", stages::take_file),
];

/// Every entry of a lent list of `room` entries whose front is `found`.
fn list(w: Writer, found: impl IntoIterator<Item = usize>, room: usize) -> Writer {
    let mut entries = vec![UNTOUCHED; room];
    for (to, from) in entries.iter_mut().zip(found) {
        *to = from as u32;
    }
    w.each(entries, Writer::u32)
}

fn round(r: &mut Reader) -> Option<Writer> {
    let xs = r.rest(Reader::f64)?;
    Some(Writer::new().each(xs, |w, x| w.answer(x as f32)))
}

fn finite(r: &mut Reader) -> Option<Writer> {
    let xs = r.rest(Reader::f32)?;
    Some(Writer::new().each(xs, |w, x| w.u8(x.is_finite().into())))
}

fn total_order(r: &mut Reader) -> Option<Writer> {
    let mut xs = r.rest(Reader::f32)?;
    xs.sort_by(f32::total_cmp);
    Some(Writer::new().each(xs, Writer::answer))
}

fn sort(r: &mut Reader) -> Option<Writer> {
    let mut xs = r.rest(Reader::u64)?;
    xs.sort_unstable();
    Some(Writer::new().each(xs, Writer::u64))
}

fn candidates(r: &mut Reader) -> Option<Writer> {
    let mut xs = r.rest(|r| Some((r.u32()?, r.f32()?)))?;
    xs.sort_by(|a, b| b.1.total_cmp(&a.1).then(a.0.cmp(&b.0)));
    Some(Writer::new().each(xs, |w, (frame, _)| w.u32(frame)))
}

fn in_range<T: PartialOrd>(xs: &[T], lo: T, hi: T) -> Option<()> {
    xs.iter().all(|x| lo <= *x && *x <= hi).then_some(())
}

fn pitch_break(r: &mut Reader) -> Option<Writer> {
    let xs = r.rest(|r| Some([r.f32()?, r.f32()?]))?;
    in_range(xs.as_flattened(), 20.0, 4000.0)?;
    Some(Writer::new().each(xs, |w, [p, q]| {
        w.u8(exact::breaks_3st(p.into(), q.into()).into())
    }))
}

fn step(r: &mut Reader) -> Option<Writer> {
    let xs = r.rest(|r| Some([r.f64()?, r.f64()?]))?;
    in_range(xs.as_flattened(), 60.0, 600.0)?;
    Some(Writer::new().each(xs, |w, [p, q]| w.u8(exact::within_1_5st(p, q).into())))
}

fn octave(r: &mut Reader) -> Option<Writer> {
    let xs = r.rest(|r| Some([r.f32()?, r.f32()?, r.f32()?]))?;
    in_range(xs.as_flattened(), 20.0, 4000.0)?;
    Some(Writer::new().each(xs, |w, [f, a, b]| {
        w.u8(match exact::octave(f, a, b) {
            Octave::Keep => 0,
            Octave::Halve => 1,
            Octave::Double => 2,
        })
    }))
}

fn level(r: &mut Reader) -> Option<Writer> {
    let db = r.rest(Reader::f32)?;
    Some(Writer::new().each(segment::level(&db), Writer::answer))
}

fn extrema(r: &mut Reader, find: fn(&[f32], usize, usize) -> Vec<usize>) -> Option<Writer> {
    let (lo, hi) = (r.size()?, r.size()?);
    let s = r.rest(Reader::f32)?;
    (lo <= hi && hi <= s.len()).then_some(())?;
    let found = find(&s, lo, hi);
    let w = Writer::new().size(found.len());
    Some(list(w, found, s.len()))
}

fn middle(r: &mut Reader, find: fn(&[f32], usize, usize) -> usize) -> Option<Writer> {
    let (a, b) = (r.size()?, r.size()?);
    let s = r.rest(Reader::f32)?;
    (a <= b && b < s.len()).then(|| Writer::new().size(find(&s, a, b)))
}

fn shallow_valley(r: &mut Reader) -> Option<Writer> {
    let (a, b, dip) = (r.size()?, r.size()?, r.f32()?);
    let s = r.rest(Reader::f32)?;
    (a <= b && b < s.len()).then(|| Writer::new().u8(segment::shallow_valley(&s, a, b, dip).into()))
}

fn floor(r: &mut Reader) -> Option<Writer> {
    let floor = segment::floor_db(&entry::energy(&r.rest(Reader::f32)?));
    let w = Writer::new().u8(floor.is_some().into());
    Some(w.answer(floor.unwrap_or(0.0)))
}

/// The reference's parameters with this margin; nothing read here reads the others.
fn margin(r: &mut Reader) -> Option<SegmentParams> {
    let margin = r.f32()?;
    let settings = Settings { margin, ..DEFAULTS };
    Some(settings.params())
}

fn threshold(r: &mut Reader) -> Option<Writer> {
    let p = margin(r)?;
    let e = entry::energy(&r.rest(Reader::f32)?);
    Some(Writer::new().answer(tonekit_segment::speech_threshold(&e, &p)))
}

fn speech(r: &mut Reader) -> Option<Writer> {
    let p = margin(r)?;
    let e = entry::energy(&r.rest(Reader::f32)?);
    let marks = tonekit_segment::speech_frames(&e, &p);
    Some(Writer::new().each(marks, |w, m| w.u8(m.into())))
}

fn region(r: &mut Reader) -> Option<Writer> {
    let p = margin(r)?;
    let e = entry::energy(&r.rest(Reader::f32)?);
    let found = tonekit_segment::speech_region(&e, &p);
    let w = Writer::new().u8(found.is_some().into());
    let (start, end) = found.map_or((0, 0), |x| (x.start, x.end));
    Some(w.u32(start).u32(end))
}

fn voiced(r: &mut Reader) -> Option<Writer> {
    let pitch = r.rest(Reader::f32)?;
    let frames: Vec<usize> = (0..pitch.len()).filter(|&i| pitch[i] != 0.0).collect();
    let runs = voiced_runs(&frames);
    let w = Writer::new().size(runs.len());
    let w = list(w, runs.iter().map(|x| frames[x.start]), pitch.len());
    let w = list(w, runs.iter().map(|x| frames[x.end - 1]), pitch.len());
    Some(list(w, runs.iter().map(|x| x.len()), pitch.len()))
}

fn pairs(r: &mut Reader, find: fn(&F0Track) -> Vec<(usize, usize)>) -> Option<Writer> {
    let pitch = r.rest(Reader::f32)?;
    let found = find(&entry::f0(&pitch, &[]));
    let w = Writer::new().size(found.len());
    let w = list(w, found.iter().map(|x| x.0), pitch.len());
    Some(list(w, found.iter().map(|x| x.1), pitch.len()))
}

fn run_of(r: &mut Reader) -> Option<Writer> {
    let at = r.size()?;
    let runs = r.rest(|r| Some((r.size()?, r.size()?)))?;
    let found = segment::run_of(&runs, at);
    let w = Writer::new().u8(found.is_some().into());
    Some(w.size(found.unwrap_or(0)))
}

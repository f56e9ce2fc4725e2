//! The specification's own cases, and the smallest inputs of places where a natural reading goes
//! wrong, run on the reference. Each says what comes out and what should.

use crate::entry::{self, Answer, Given, Lists, Mark, Settings, BLANK, CLASSIC, DEFAULTS, PITCH};
use crate::speech::leaping;
use crate::take::{listing, Take};
use std::fmt::Debug;
use tonekit_f0::probe as f0;
use tonekit_segment::{probe as segment, SegmentParams};

/// One case: its name, what it shows, and whether that came out.
pub struct Case {
    pub name: &'static str,
    pub what: &'static str,
    pub outcome: Result<(), String>,
}

/// Compares what came out with what the specification says.
fn same<T: PartialEq + Debug>(got: T, wanted: T) -> Result<(), String> {
    if got == wanted {
        Ok(())
    } else {
        Err(format!("came out {got:?}, should be {wanted:?}"))
    }
}

/// K1's whole output.
pub const K1_LISTING: &str = "region 4 12\nnucleus 7 42200000\nboundary 4\nboundary 12\n";

/// A take of `n` frames from one function for each track.
fn take(
    settings: Settings,
    n: usize,
    db: impl Fn(usize) -> f32,
    pitch: impl Fn(usize) -> f32,
    sonority: impl Fn(usize) -> f32,
) -> Take {
    let pitch: Vec<f32> = (0..n).map(pitch).collect();
    Take {
        settings,
        db: (0..n).map(db).collect(),
        voiced_p: pitch.iter().map(|&p| f32::from(p != 0.0)).collect(),
        pitch,
        sonority: (0..n).map(sonority).collect(),
        vowel: vec![0; n],
    }
}

/// -20 dB where `loud`, else -60.
fn loudness(loud: bool) -> f32 {
    if loud {
        -20.0
    } else {
        -60.0
    }
}

fn either(test: bool, yes: f32, no: f32) -> f32 {
    if test {
        yes
    } else {
        no
    }
}

pub fn k1() -> Take {
    take(
        CLASSIC,
        16,
        |i| loudness((4..=11).contains(&i)),
        |i| either((5..=10).contains(&i), 200.0, 0.0),
        |_| 0.75,
    )
}

/// K2 with `second` Hz in its second run; K3 is the same with 237.
pub fn k2(second: f32) -> Take {
    take(
        CLASSIC,
        32,
        |i| loudness((4..=27).contains(&i)),
        |i| match i {
            6..=13 => 200.0,
            17..=25 => second,
            _ => 0.0,
        },
        |_| 0.75,
    )
}

/// The take of K8 around its run: pitch at 10 to 29, loudest at the nucleus 15.
pub fn k8() -> Take {
    take(
        DEFAULTS,
        40,
        |i| loudness((8..=31).contains(&i)),
        |i| either((10..=29).contains(&i), 200.0, 0.0),
        |i| match i {
            0..=20 => 0.75,
            21 => 0.5,
            _ => 0.25,
        },
    )
}

/// A split beyond the region.
pub fn split_outside() -> Take {
    take(
        DEFAULTS,
        12,
        |i| loudness(i < 5),
        |_| 200.0,
        |i| either(i < 6, 0.75, 0.25),
    )
}

/// Two break edges, of which one is the region's start.
pub fn one_edge_inside() -> Take {
    let settings = Settings {
        margin: 20.0,
        dip: 30.0,
        gap: 6,
    };
    take(
        settings,
        40,
        |i| loudness((11..=13).contains(&i) || (21..=30).contains(&i)),
        |i| match i {
            4..=10 => 200.0,
            14..=21 => 300.0,
            _ => 0.0,
        },
        |_| 0.75,
    )
}

/// A repaired pitch that the chain does not admit.
pub fn below_the_chain() -> Take {
    take(
        DEFAULTS,
        7,
        |_| -60.0,
        |i| either(i == 3, 76.0, 44.0),
        |_| 0.75,
    )
}

/// A peak without a pitch; a nucleus given there counts as a candidate.
pub fn lost_mark() -> Take {
    let settings = Settings {
        margin: 0.0,
        ..DEFAULTS
    };
    take(settings, 1, |_| -20.0, |_| 0.0, |_| 0.5)
}

/// A nucleus at 14 within two frames of both runs, each of which splits.
pub fn between_runs() -> Take {
    take(
        DEFAULTS,
        30,
        |_| -20.0,
        |i| either(i < 13 || (16..29).contains(&i), 200.0, 0.0),
        |i| either(i < 6 || (16..22).contains(&i), 0.75, 0.25),
    )
}

/// Peaks without a pitch at 6 and 20; a quiet nucleus at 24 takes the second and then the first.
pub fn merged_twice() -> Take {
    take(
        Settings {
            margin: 0.0,
            ..DEFAULTS
        },
        30,
        |i| match i {
            4..=8 | 18..=21 => -20.0,
            9..=17 => -26.0,
            _ => -40.0,
        },
        |_| 0.0,
        |_| 0.75,
    )
}

/// A peak at 11, two frames after the run that it holds and whose end is below the threshold; the part
/// of the run that lies in a region from 4 on is loud enough by itself.
pub fn held_from_outside() -> Take {
    let settings = Settings {
        margin: 90.0,
        dip: 12.0,
        gap: 6,
    };
    take(
        settings,
        17,
        |i| match i {
            0..=5 | 11..=13 => -20.0,
            6..=10 => -80.0,
            _ => -140.0,
        },
        |i| either(i < 10, 200.0, 0.0),
        |_| 0.75,
    )
}

/// A run on a slope, two frames before one that is louder by about 0.2 dB; the last bits of `dip`
/// decide.
pub fn slope(dip: f32) -> Take {
    let settings = Settings {
        margin: 0.0,
        dip,
        gap: 6,
    };
    take(
        settings,
        24,
        |i| match i {
            0..=9 => -32.25,
            10..=16 => -31.75,
            _ => -60.0,
        },
        |i| either((4..=9).contains(&i), 200.0, 0.0),
        |_| 0.75,
    )
}

/// A peak without a pitch whose mean sonority is a half but for the rounding of its sum.
pub fn nearly_half() -> Take {
    take(
        DEFAULTS,
        12,
        |i| loudness((3..=7).contains(&i)),
        |_| 0.0,
        |i| [0.2, 0.7, 0.7, 0.6, 0.3][(i + 2) % 5],
    )
}

/// Takes in which one bit decides: a level just below the threshold, with a pitch and without; a frame
/// just above it; a sonority just below a half; a change of sonority just below 0.2.
pub fn one_bit() -> [Take; 5] {
    let margin = |margin: f32| Settings { margin, ..DEFAULTS };
    let above = (-20.0f32).next_up();
    let (half, fifth) = (0.5f32.next_down(), 0.2f32.next_down());
    let just_below = margin(above + 20.0);
    [
        take(just_below, 1, |_| -20.0, |_| 200.0, |_| 0.75),
        take(just_below, 1, |_| -20.0, |_| 0.0, |_| 0.75),
        take(
            margin(0.0),
            2,
            |i| either(i == 0, -20.0, above),
            |_| 200.0,
            |_| 0.75,
        ),
        take(margin(0.0), 1, |_| -20.0, |_| 0.0, |_| half),
        take(
            DEFAULTS,
            14,
            |_| -20.0,
            |_| 200.0,
            |i| either(i < 7, 0.0, fifth),
        ),
    ]
}

/// Two runs, as short and as near as they can be, with a break of pitch between them and one frame of
/// another loudness in the middle: five levels dip by a fifth of what it lies below -20 dB.
pub fn dipped(db: f32) -> Take {
    take(
        DEFAULTS,
        13,
        |i| either(i == 6, db, -20.0),
        |i| match i {
            0..=4 => 200.0,
            8..=12 => 238.0,
            _ => 0.0,
        },
        |_| 0.75,
    )
}

/// What the frame of [`dipped`] is for levels that dip by nearly 2 dB, by 2, by 2.5, by nearly 3 and by 3.
pub const DIPS: [f32; 5] = [-29.99999, -30.0, -32.5, -34.99999, -35.0];

/// A loud take that brings no pitch but the last `given` frames of its loud part, 3 frames after the rest,
/// and a sound of which the first `low` frames have about 125 Hz and, `gap` frames that are no vowel
/// later, `high` frames have 250.
pub fn octaves([low, gap, high, given]: [usize; 4]) -> (Take, Vec<i16>) {
    let found = low + gap + high;
    let loud = found + if given > 0 { 3 + given } else { 0 };
    let mut take = take(
        DEFAULTS,
        loud + 4,
        |i| loudness(i < loud),
        |i| either((loud - given..loud).contains(&i), 125.0, 0.0),
        |_| 0.75,
    );
    for (i, mark) in take.vowel.iter_mut().enumerate() {
        *mark = u8::from(i < low || (low + gap..found).contains(&i));
    }
    let triangle: Vec<i16> = (0..64).map(|j| 100 * (16 - (j - 32i16).abs())).collect();
    // A frame goes by the lower octave until its window, which begins 256 samples before it, has hardly
    // anything of that left.
    let first = 160 * (low + gap) - 310;
    let sound = leaping(&triangle, 1000, [first, 160 * found + 256 - first]);
    (take, sound)
}

/// Frames that are recovered at the lower octave, frames between, frames at the higher one, and given
/// pitches after that; and the octaves that the chain leaves, `l` or `h` a frame, `-` for no pitch. The
/// repair is for single frames: it puts a tail or a head of 3 frames right, and no longer one.
pub const OCTAVES: [([usize; 4], &str); 13] = [
    ([4, 0, 3, 0], "lllllll----"),
    ([3, 0, 4, 0], "hhhhhhh----"),
    ([3, 0, 3, 0], "hhhlll----"),
    ([4, 0, 4, 0], "llhhllhh----"),
    ([5, 0, 5, 0], "llllhlhhhh----"),
    ([4, 0, 5, 0], "llhhhhhhh----"),
    ([6, 0, 4, 0], "llllllllhh----"),
    ([6, 0, 6, 0], "llllllhhhhhh----"),
    ([20, 0, 4, 0], "llllllllllllllllllllllhh----"),
    ([4, 1, 3, 0], "llll-lll----"),
    ([4, 2, 3, 0], "llll--lll----"),
    ([4, 3, 3, 0], "llll---hhh----"),
    ([4, 0, 3, 5], "lllllll---lllll----"),
];

/// The octaves of a pitch track, as [`OCTAVES`] has them.
fn heights(pitch: &[f32]) -> String {
    let height = |&hz: &f32| match hz {
        0.0 => '-',
        _ if hz < 180.0 => 'l',
        _ => 'h',
    };
    pitch.iter().map(height).collect()
}

/// The octaves that the chain leaves of [`octaves`], and those that the repair and then the recovery
/// leave, in the order that the chain had before version 6.
fn in_both_orders(shape: [usize; 4]) -> [String; 2] {
    let (take, sound) = octaves(shape);
    let n = take.db.len();
    let (mut now, mut before) = (take.pitch.clone(), take.pitch.clone());
    let lists = Lists {
        nuclei: &mut vec![BLANK; n],
        extras: &mut vec![BLANK; n],
        edges: &mut vec![0; n],
        boundaries: &mut vec![0; n + 1],
    };
    let mut speech = vec![0; n];
    entry::chain(take.frames(), &mut now, take.settings, &sound, lists)
        .and_then(|_| entry::speech_marks(&take.db, take.settings, &mut speech))
        .and_then(|_| entry::repair(&mut before))
        .and_then(|_| entry::recover(&mut before, &sound, &speech, &take.vowel))
        .expect("the take is admitted, and what each stage leaves");
    [heights(&now), heights(&before)]
}

/// What [`in_both_orders`] should give: in the old order the octaves as they are recovered.
fn octaves_known((shape, now): ([usize; 4], &str)) -> [String; 2] {
    let [low, gap, high, given] = shape;
    let parts = [
        ("l", low),
        ("-", gap),
        ("h", high),
        ("-", 3 * given.min(1)),
        ("l", given),
    ];
    let before: String = parts.map(|(height, frames)| height.repeat(frames)).concat();
    [now.to_string(), before + "----"]
}

/// `speech` loud frames among 20.
fn speech_frames(speech: usize) -> Vec<f32> {
    (0..20)
        .map(|i| loudness((5..5 + speech).contains(&i)))
        .collect()
}

fn shown(take: &Take, wanted: &str) -> Result<(), String> {
    same(listing(&take.write()).as_str(), wanted)
}

/// The lines of a listing that start with `word`, without it.
fn numbers(take: &Take, word: &str) -> Vec<u32> {
    let of = |line: &str| line.strip_prefix(word)?.split(' ').nth(1)?.parse().ok();
    listing(&take.write()).lines().filter_map(of).collect()
}

/// The repaired value of 200 Hz between five `left` and five `right`.
fn repaired(left: f32, right: f32) -> f32 {
    let mut pitch = [left; 11];
    pitch[5] = 200.0;
    pitch[6..].fill(right);
    entry::repair(&mut pitch).expect("these pitches are admitted");
    pitch[5]
}

/// Whether a step from 200 Hz to `hz` stays in one stretch.
fn joins(hz: f64) -> bool {
    let estimates = [Some(200.0), Some(hz), Some(hz)];
    f0::stretches(&estimates) == [(0, 3)]
}

fn k7() -> Vec<f64> {
    let pcm = entry::pcm(&[1, 2, 1, 2]);
    (1..=4).map(|lag| f0::nsdf(&pcm, 0, lag)).collect()
}

/// The extras entry on a take: frames, strengths and edges.
fn extras(take: &Take, region: (u32, u32), nuclei: &[u32]) -> Answer<(Vec<Mark>, Vec<u32>)> {
    let n = take.db.len();
    let (mut list, mut edges) = (vec![BLANK; n], vec![0; n]);
    let (found, edged) = entry::extras(
        &take.db,
        &take.pitch,
        &take.sonority,
        take.settings,
        region,
        nuclei,
        &mut list,
        &mut edges,
    )?;
    Ok((list[..found].to_vec(), edges[..edged].to_vec()))
}

fn mark(frame: u32, strength: f32) -> Mark {
    Mark { frame, strength }
}

/// Frames of the nuclei that the entry finds in a region of a take.
fn nuclei(take: &Take, region: (u32, u32)) -> Answer<Vec<u32>> {
    let mut list = vec![BLANK; take.db.len()];
    let found = entry::nuclei(&take.db, &take.pitch, take.settings, region, &mut list)?;
    Ok(list[..found].iter().map(|m| m.frame).collect())
}

/// Where the two nuclei of [`dipped`] are parted: by the entry that takes no settings, by the one that
/// takes them under the classic set, and by the reference's own function that takes none.
fn parted(db: f32) -> [Answer<Vec<u32>>; 3] {
    let take = dipped(db);
    let n = take.db.len();
    let (db, pitch, voiced_p) = (&take.db, &take.pitch, &take.voiced_p);
    let (all, nuclei) = ((0, n as u32), [2, 10]);
    let (mut own, mut classic) = (vec![0; n + 1], vec![0; n + 1]);
    let cut = |list: &[u32], found: Answer<usize>| found.map(|count| list[..count].to_vec());
    let found = entry::boundaries(db, pitch, voiced_p, all, &nuclei, &mut own);
    let with = entry::boundaries_with(db, pitch, voiced_p, CLASSIC, all, &nuclei, &mut classic);
    let reference = tonekit_segment::boundaries(
        &entry::energy(db),
        &entry::f0(pitch, voiced_p),
        &entry::range(all),
        &entry::given_nuclei(&nuclei),
    );
    [cut(&own, found), cut(&classic, with), Ok(reference)]
}

/// What comes of the takes in which one bit decides: nuclei, extras, speech marks, extras, splits.
fn bits() -> (Vec<u32>, usize, [u8; 2], usize, usize) {
    let [voiced, unvoiced, louder, dull, steady] = one_bit();
    let count = |take: &Take, nuclei: &[u32]| {
        let all = (0, take.db.len() as u32);
        extras(take, all, nuclei).map_or(99, |found| found.0.len())
    };
    let mut marks = [9; 2];
    let marked = entry::speech_marks(&louder.db, louder.settings, &mut marks);
    (
        nuclei(&voiced, (0, 1)).unwrap_or(vec![99]),
        count(&unvoiced, &[]),
        if marked == Ok(2) { marks } else { [9; 2] },
        count(&dull, &[]),
        count(&steady, &[1]),
    )
}

/// Nuclei and boundaries of a listing.
fn marked(take: &Take) -> (Vec<u32>, Vec<u32>) {
    (numbers(take, "nucleus"), numbers(take, "boundary"))
}

pub fn all() -> Vec<Case> {
    let case = |name, what, outcome| Case {
        name,
        what,
        outcome,
    };
    let again = {
        let mut take = below_the_chain();
        take.pitch[3] = 38.0;
        take
    };
    vec![
        case("K1", "whole listing", shown(&k1(), K1_LISTING)),
        case(
            "K2",
            "nuclei 13, 21; boundaries 4, 14, 17, 28",
            same(marked(&k2(238.0)), (vec![13, 21], vec![4, 14, 17, 28])),
        ),
        case(
            "K3",
            "nucleus 13; boundaries 4, 28",
            same(marked(&k2(237.0)), (vec![13], vec![4, 28])),
        ),
        case(
            "K4",
            "200 Hz against 118 halved, against 119 kept",
            same(
                [repaired(118.0, 118.0), repaired(119.0, 119.0)],
                [100.0, 200.0],
            ),
        ),
        case(
            "K5",
            "200 Hz against 110, 128 halved, against 110, 130 kept",
            same(
                [repaired(110.0, 128.0), repaired(110.0, 130.0)],
                [100.0, 200.0],
            ),
        ),
        case(
            "K6",
            "200 to 218 joins, 200 to 219 does not",
            same([joins(218.0), joins(219.0)], [true, false]),
        ),
        case(
            "K7",
            "lags 1 to 4 give 0.8, 1, 0.8, 0",
            same(k7(), vec![0.8, 1.0, 0.8, 0.0]),
        ),
        case(
            "K8",
            "split 22",
            same(segment::split(&k8().sonority, 10, 29, 15), Some(22)),
        ),
        case(
            "K8",
            "extra 25, edge 22",
            same(
                extras(&k8(), (8, 32), &[15]),
                Ok((vec![mark(25, 40.0)], vec![22])),
            ),
        ),
        case(
            "speech",
            "4 speech frames: no region",
            same(entry::region(&speech_frames(4), DEFAULTS), Ok(None)),
        ),
        case(
            "speech",
            "5 speech frames: a region",
            same(
                entry::region(&speech_frames(5), DEFAULTS),
                Ok(Some((5, 10))),
            ),
        ),
        case(
            "dB",
            "1,000 admitted, 1,001 refused with 4",
            same(
                [1000.0, 1001.0].map(|db| entry::region(&[db], DEFAULTS)),
                [Ok(None), Err(4)],
            ),
        ),
        case(
            "split",
            "a split beyond the region, of strength 0",
            shown(
                &split_outside(),
                "region 0 5\nnucleus 1 42200000\nextra 8 00000000\nextra-edge 6\n\
                 boundary 0\nboundary 5\n",
            ),
        ),
        case(
            "split",
            "an empty region still splits",
            same(
                extras(&split_outside(), (0, 0), &[2]),
                Ok((vec![mark(8, 0.0)], vec![6])),
            ),
        ),
        case(
            "break",
            "one of two break edges inside",
            same(
                (
                    numbers(&one_edge_inside(), "region"),
                    marked(&one_edge_inside()),
                ),
                (vec![11], (vec![12, 21], vec![11, 14, 21, 31])),
            ),
        ),
        case(
            "dip",
            "the break parts two nuclei below 3 dB by the defaults, below 2 by the classic set and the Rust",
            same(DIPS.map(parted), {
                let (edges, lowest) = (Ok(vec![0, 5, 8, 13]), Ok(vec![0, 6, 13]));
                let apart = [edges.clone(), lowest.clone(), lowest.clone()];
                [
                    [(); 3].map(|()| edges.clone()),
                    apart.clone(),
                    apart.clone(),
                    apart,
                    [(); 3].map(|()| lowest.clone()),
                ]
            }),
        ),
        case(
            "dip",
            "the Rust's own defaults are the classic set",
            same(SegmentParams::default(), CLASSIC.params()),
        ),
        case(
            "repair",
            "the chain writes 38 Hz",
            shown(&below_the_chain(), "pitch 3 42180000\nregion none\n"),
        ),
        case(
            "octave",
            "stretches that adjoin, of a frame or two between, of a gap, and beside a given run",
            same(
                OCTAVES.map(|(shape, _)| in_both_orders(shape)),
                OCTAVES.map(octaves_known),
            ),
        ),
        case("repair", "and refuses it", shown(&again, "refused 5\n")),
        case(
            "repair",
            "which the other entries admit",
            same(
                {
                    let given = Given {
                        pitch: Some((&again.pitch, PITCH)),
                        ..Given::default()
                    };
                    given.refusal()
                },
                0,
            ),
        ),
        case(
            "mark",
            "an extra on a nucleus's frame",
            same(
                extras(&lost_mark(), (0, 1), &[0]),
                Ok((vec![mark(0, 0.0)], vec![])),
            ),
        ),
        case(
            "split",
            "one nucleus for two runs",
            same(
                extras(&between_runs(), (0, 30), &[14]),
                Ok((vec![mark(2, 0.0), mark(25, 0.0)], vec![6, 22])),
            ),
        ),
        case(
            "merge",
            "two peaks into one nucleus",
            same(
                extras(&merged_twice(), (0, 30), &[24]),
                Ok((vec![], vec![])),
            ),
        ),
        case(
            "run",
            "held by a peak two frames after it",
            same(nuclei(&held_from_outside(), (4, 17)), Ok(vec![11])),
        ),
        case(
            "run",
            "beside a frame louder by the dip as rounded, and by more",
            same(
                [0x3e4c_cc6a, 0x3e4c_cc2e].map(|dip| nuclei(&slope(f32::from_bits(dip)), (0, 17))),
                [Ok(vec![9]), Ok(vec![])],
            ),
        ),
        case(
            "bit",
            "a mean that rounding takes below a half",
            same(extras(&nearly_half(), (3, 8), &[]), Ok((vec![], vec![]))),
        ),
        case(
            "bit",
            "one bit decides",
            same(bits(), (vec![], 0, [0, 1], 0, 0)),
        ),
    ]
}

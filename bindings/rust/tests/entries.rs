//! Every function through the library, on small takes.

use kiddwyr::{Counted, Lists, Marks, Nucleus, Refusal, Settings, Tracks, MAX_FRAMES, MAX_SAMPLES};
use std::ops::Range;

/// What a list holds before a call.
const BLANK: Nucleus = Nucleus {
    frame: 77,
    strength: -7.0,
};
/// Entries that each list has beyond what it must.
const SPARE: usize = 3;

/// Everything that a call brings, with room for its results.
#[derive(Debug)]
struct Call {
    settings: Settings,
    region: Range<usize>,
    db: Vec<f32>,
    pitch: Vec<f32>,
    voiced_p: Vec<f32>,
    sonority: Vec<f32>,
    speech: Vec<u8>,
    vowel: Vec<u8>,
    samples: Vec<i16>,
    given: Vec<Nucleus>,
    marks: Vec<u8>,
    nuclei: Vec<Nucleus>,
    extras: Vec<Nucleus>,
    edges: Vec<u32>,
    boundaries: Vec<u32>,
}

/// The specification's first take: of sixteen frames 4 to 11 are loud and 5 to 10 are at 200 Hz.
fn k1() -> Call {
    let n = 16;
    let voiced = |i: usize| (5..=10).contains(&i);
    let loud = |i: usize| (4..=11).contains(&i);
    Call {
        settings: Settings::classic(),
        region: 4..12,
        db: (0..n)
            .map(|i| if loud(i) { -20.0 } else { -60.0 })
            .collect(),
        pitch: (0..n)
            .map(|i| if voiced(i) { 200.0 } else { 0.0 })
            .collect(),
        voiced_p: (0..n).map(|i| f32::from(voiced(i))).collect(),
        sonority: vec![0.75; n],
        speech: vec![0; n],
        vowel: vec![0; n],
        samples: Vec::new(),
        given: vec![nucleus(7, f32::NAN)],
        marks: vec![9; n + SPARE],
        nuclei: vec![BLANK; n + SPARE],
        extras: vec![BLANK; n + SPARE],
        edges: vec![77; n + SPARE],
        boundaries: vec![77; n + 1 + SPARE],
    }
}

/// The same without a pitch, all vowel, over a wave that repeats every 80 samples.
fn unpitched() -> Call {
    let mut call = k1();
    let n = call.db.len();
    call.pitch.fill(0.0);
    call.speech.fill(1);
    call.vowel.fill(1);
    let wave = |i: usize| [20, 90, 40, -60, -80][i % 80 / 16] + (i % 80) as i16;
    call.samples = (0..160 * n).map(wave).collect();
    call
}

fn nucleus(frame: u32, strength: f32) -> Nucleus {
    Nucleus { frame, strength }
}

impl Call {
    fn speech_marks(&mut self) -> Result<usize, Refusal> {
        kiddwyr::speech_marks(&self.db, self.settings, &mut self.marks)
    }

    fn region(&mut self) -> Result<Option<Range<usize>>, Refusal> {
        kiddwyr::region(&self.db, self.settings)
    }

    fn repair(&mut self) -> Result<(), Refusal> {
        kiddwyr::repair(&mut self.pitch)
    }

    fn recover(&mut self) -> Result<(), Refusal> {
        kiddwyr::recover(&mut self.pitch, &self.samples, &self.speech, &self.vowel)
    }

    fn nuclei(&mut self) -> Result<usize, Refusal> {
        kiddwyr::nuclei(
            &self.db,
            &self.pitch,
            self.region.clone(),
            self.settings,
            &mut self.nuclei,
        )
    }

    fn extras(&mut self) -> Result<Counted, Refusal> {
        kiddwyr::extras(
            &self.db,
            &self.pitch,
            &self.sonority,
            self.region.clone(),
            &self.given,
            self.settings,
            &mut self.extras,
            &mut self.edges,
        )
    }

    fn boundaries_with(&mut self) -> Result<usize, Refusal> {
        kiddwyr::boundaries_with(
            &self.db,
            &self.pitch,
            &self.voiced_p,
            self.region.clone(),
            &self.given,
            self.settings,
            &mut self.boundaries,
        )
    }

    fn boundaries(&mut self) -> Result<usize, Refusal> {
        kiddwyr::boundaries(
            &self.db,
            &self.pitch,
            &self.voiced_p,
            self.region.clone(),
            &self.given,
            &mut self.boundaries,
        )
    }

    fn chain(&mut self) -> Result<Marks, Refusal> {
        let tracks = Tracks {
            db: &self.db,
            voiced_p: &self.voiced_p,
            sonority: &self.sonority,
            vowel: &self.vowel,
            samples: &self.samples,
        };
        let lists = Lists {
            nuclei: &mut self.nuclei,
            extras: &mut self.extras,
            edges: &mut self.edges,
            boundaries: &mut self.boundaries,
        };
        kiddwyr::chain(tracks, &mut self.pitch, self.settings, lists)
    }

    /// Everything in writing, to be compared: a given strength is NaN, which equals nothing.
    fn shown(&self) -> String {
        format!("{self:?}")
    }
}

/// An entry, of which only the refusal is looked at.
type Entry = fn(&mut Call) -> Result<(), Refusal>;

/// The entries, and the numbers that each refuses with.
const ENTRIES: [(&str, Entry, &[u32]); 9] = [
    (
        "speech_marks",
        |c| c.speech_marks().map(drop),
        &[1, 3, 4, 10],
    ),
    ("region", |c| c.region().map(drop), &[1, 3, 4]),
    ("repair", |c| c.repair(), &[1, 5]),
    ("recover", |c| c.recover(), &[1, 5, 6, 9]),
    ("nuclei", |c| c.nuclei().map(drop), &[1, 2, 3, 4, 5, 7, 10]),
    (
        "extras",
        |c| c.extras().map(drop),
        &[1, 2, 3, 4, 5, 6, 7, 8, 10],
    ),
    (
        "boundaries_with",
        |c| c.boundaries_with().map(drop),
        &[1, 2, 3, 4, 5, 7, 8, 10],
    ),
    (
        "boundaries",
        |c| c.boundaries().map(drop),
        &[1, 2, 4, 5, 7, 8, 10],
    ),
    ("chain", |c| c.chain().map(drop), &[1, 2, 3, 4, 5, 6, 9, 10]),
];

/// A call with the fault of one number, for whichever entry tests it.
fn spoiled(number: u32) -> Call {
    let mut call = k1();
    let (n, long) = (call.db.len(), MAX_FRAMES + 1);
    match number {
        1 => {
            call.db.resize(long, -60.0);
            call.pitch.resize(long, 0.0);
            call.voiced_p.resize(long, 0.0);
        }
        2 => call.pitch.truncate(n - 1),
        3 => call.settings.margin = f32::INFINITY,
        4 => call.db[n - 1] = 1001.0,
        5 => call.pitch[n - 1] = -0.0,
        6 => {
            call.sonority[n - 1] = 1.5;
            call.vowel[n - 1] = 2;
        }
        7 => call.region = 4..n + 1,
        8 => call.given = vec![nucleus(7, 0.0), nucleus(7, 0.0)],
        9 => call.samples = vec![0; MAX_SAMPLES + 1],
        _ => {
            call.marks.truncate(n - 1);
            call.nuclei.truncate(n - 1);
            call.extras.truncate(n - 1);
            call.edges.truncate(n - 1);
            call.boundaries.truncate(n);
        }
    }
    call
}

#[test]
fn the_crate_has_the_version_of_its_library() {
    let parts = kiddwyr::VERSION.split('.').map(|part| part.parse::<u32>().unwrap());
    assert_eq!(kiddwyr::version(), parts.fold(0, |number, part| 100 * number + part));
}

#[test]
fn k1_through_the_chain() {
    let mut call = k1();
    let marks = Marks {
        region: Some(4..12),
        nuclei: 1,
        extras: 0,
        edges: 0,
        boundaries: 2,
    };
    assert_eq!(call.chain(), Ok(marks));
    assert_eq!(call.nuclei[0], nucleus(7, 40.0));
    assert_eq!(call.boundaries[..2], [4, 12]);
    assert_eq!(call.pitch, k1().pitch);
}

#[test]
fn k1_stage_by_stage() {
    let mut call = k1();
    assert_eq!(call.speech_marks(), Ok(16));
    let speech: Vec<u8> = (0..16).map(|i| (4..=11).contains(&i).into()).collect();
    assert_eq!(call.marks[..16], speech);
    assert_eq!(call.region(), Ok(Some(4..12)));
    assert_eq!(call.repair(), Ok(()));
    assert_eq!(call.recover(), Ok(()));
    assert_eq!(call.pitch, k1().pitch);
    assert_eq!(call.nuclei(), Ok(1));
    assert_eq!(call.nuclei[0], nucleus(7, 40.0));
    let counted = Counted {
        extras: 0,
        edges: 0,
    };
    assert_eq!(call.extras(), Ok(counted));
    for boundaries in [Call::boundaries_with, Call::boundaries] {
        call.boundaries.fill(77);
        assert_eq!(boundaries(&mut call), Ok(2));
        assert_eq!(call.boundaries[..2], [4, 12]);
    }
}

/// Two nuclei with a dip of 2 dB and a break of pitch between them: parted at the break's edges by the
/// defaults, and at the lowest frame by the classic set.
#[test]
fn the_default_dip_parts_nuclei() {
    let mut call = k1();
    call.region = 0..13;
    call.db = vec![-20.0; 13];
    call.db[6] = -30.0;
    call.pitch = [[200.0; 5].as_slice(), &[0.0; 3], &[238.0; 5]].concat();
    call.voiced_p = call.pitch.iter().map(|&p| f32::from(p > 0.0)).collect();
    call.given = vec![nucleus(2, f32::NAN), nucleus(10, f32::NAN)];
    assert_eq!(call.boundaries(), Ok(4));
    assert_eq!(call.boundaries[..4], [0, 5, 8, 13]);
    for (settings, parted) in [
        (Settings::default(), vec![0, 5, 8, 13]),
        (Settings::classic(), vec![0, 6, 13]),
    ] {
        call.settings = settings;
        assert_eq!(call.boundaries_with(), Ok(parted.len()));
        assert_eq!(call.boundaries[..parted.len()], parted);
    }
}

#[test]
fn without_speech_there_is_no_region() {
    let mut call = k1();
    call.db.fill(-60.0);
    assert_eq!(call.region(), Ok(None));
    assert_eq!(call.chain().map(|marks| marks.region), Ok(None));
}

#[test]
fn empty_lists_are_taken() {
    let settings = Settings::default();
    assert_eq!(kiddwyr::speech_marks(&[], settings, &mut []), Ok(0));
    assert_eq!(kiddwyr::region(&[], settings), Ok(None));
    assert_eq!(kiddwyr::repair(&mut []), Ok(()));
    assert_eq!(kiddwyr::recover(&mut [], &[], &[], &[]), Ok(()));
    assert_eq!(kiddwyr::nuclei(&[], &[], 0..0, settings, &mut []), Ok(0));
    let mut out = [77];
    assert_eq!(
        kiddwyr::boundaries(&[], &[], &[], 0..0, &[], &mut out),
        Ok(1)
    );
    assert_eq!(out, [0]);
}

/// Each number by each entry that tests it; the others do not look at that fault, and no refused
/// call changes anything.
#[test]
fn each_refusal() {
    for (name, entry, numbers) in ENTRIES {
        for number in 1..=10 {
            let mut call = spoiled(number);
            let before = call.shown();
            let answer = entry(&mut call);
            if numbers.contains(&number) {
                assert_eq!(answer, Err(Refusal(number)), "{name}");
                assert!(call.shown() == before, "{name} refuses {number} and writes");
            } else {
                assert_ne!(answer, Err(Refusal(number)), "{name}");
            }
        }
    }
}

#[test]
fn the_lowest_number_is_answered() {
    let mut call = spoiled(10);
    call.settings.gap = 1001;
    assert_eq!(call.chain(), Err(Refusal(3)));
}

#[test]
fn entries_past_the_count_stay() {
    let mut call = k1();
    let found = call.chain().expect("K1 is admitted");
    assert!(call.nuclei[found.nuclei..].iter().all(|m| *m == BLANK));
    assert!(call.extras[found.extras..].iter().all(|m| *m == BLANK));
    assert!(call.edges[found.edges..].iter().all(|f| *f == 77));
    assert!(call.boundaries[found.boundaries..].iter().all(|f| *f == 77));

    let mut call = k1();
    let count = call.speech_marks().expect("K1 is admitted");
    assert_eq!(call.marks[count..], [9; SPARE]);
    let count = call.nuclei().expect("K1 is admitted");
    assert!(call.nuclei[count..].iter().all(|m| *m == BLANK));
    let found = call.extras().expect("K1 is admitted");
    assert!(call.extras[found.extras..].iter().all(|m| *m == BLANK));
    assert!(call.edges[found.edges..].iter().all(|f| *f == 77));
    let count = call.boundaries().expect("K1 is admitted");
    assert!(call.boundaries[count..].iter().all(|f| *f == 77));
}

/// Pitches are recovered from the sound, and from a louder one the same.
#[test]
fn scaled_samples_agree() {
    let mut quiet = unpitched();
    let found = quiet.chain();
    assert!(quiet.pitch.iter().any(|p| (199.0..201.0).contains(p)));
    for times in [2, 7, -200] {
        let mut loud = unpitched();
        loud.samples.iter_mut().for_each(|s| *s *= times);
        assert_eq!(loud.chain(), found);
        loud.samples.clone_from(&quiet.samples);
        assert!(loud.shown() == quiet.shown(), "times {times}");
    }

    let mut stage = unpitched();
    assert_eq!(stage.recover(), Ok(()));
    assert!(stage.pitch.iter().all(|p| (199.0..201.0).contains(p)));
}

/// What is said of the stack; a longer one would end the test by a signal.
#[test]
fn the_chain_runs_on_a_small_stack() {
    let long = || {
        let mut call = unpitched();
        for track in [
            &mut call.db,
            &mut call.pitch,
            &mut call.voiced_p,
            &mut call.sonority,
        ] {
            *track = track.iter().copied().cycle().take(MAX_FRAMES).collect();
        }
        call.vowel = vec![1; MAX_FRAMES];
        call.nuclei = vec![BLANK; MAX_FRAMES];
        call.extras = call.nuclei.clone();
        call.edges = vec![77; MAX_FRAMES];
        call.boundaries = vec![77; MAX_FRAMES + 1];
        call.chain().map(|marks| marks.region)
    };
    let thread = std::thread::Builder::new().stack_size(160 * 1024);
    let found = thread.spawn(long).expect("a thread").join();
    assert_eq!(found.expect("an end"), Ok(Some(4..MAX_FRAMES - 4)));
}

#[test]
fn refusals_have_words() {
    let told = Refusal(9).to_string();
    assert_eq!(told, "refused with 9: more than 327,680 samples");
    for number in 1..=11 {
        assert_ne!(Refusal(number).reason(), Refusal(0).reason());
    }
}

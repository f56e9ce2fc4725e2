//! NaN by its bits, through the library. The logic of the contracts has one NaN, so that they leave its
//! pattern open wherever they say that an entry stays: in a list past the count, and after a refusal.
//! Here every pattern is seen to stay. f32 are moved as they are on x86-64, signalling ones too.

use kiddwyr::{Counted, Lists, Marks, Nucleus, Refusal, Settings, Tracks};

const FRAMES: usize = 40;

/// Both signs; quiet and signalling; the least, the largest and some other payload.
const PATTERNS: [u32; 12] = [
    0x7fc0_0000,
    0xffc0_0000,
    0x7f80_0001,
    0xff80_0001,
    0x7fbf_ffff,
    0xffbf_ffff,
    0x7fff_ffff,
    0xffff_ffff,
    0x7fc0_0001,
    0xffc1_2345,
    0x7f85_a5a5,
    0xffa0_0000,
];

/// A track of NaN, each frame with the next pattern.
fn nans(len: usize) -> Vec<f32> {
    let patterns = PATTERNS.iter().cycle().take(len);
    patterns.map(|p| f32::from_bits(*p)).collect()
}

/// Records whose strengths are NaN.
fn blank(len: usize) -> Vec<Nucleus> {
    let records = nans(len).into_iter().zip(700..);
    records
        .map(|(strength, frame)| Nucleus { frame, strength })
        .collect()
}

fn bits(track: &[f32]) -> Vec<u32> {
    track.iter().map(|x| x.to_bits()).collect()
}

fn record_bits(list: &[Nucleus]) -> Vec<(u32, u32)> {
    list.iter()
        .map(|m| (m.frame, m.strength.to_bits()))
        .collect()
}

/// Entries from `count` on are those of a list that no call has seen, and those before it are none of them.
fn only_the_front(list: &[Nucleus], count: usize) {
    assert_eq!(
        record_bits(&list[count..]),
        record_bits(&blank(list.len()))[count..]
    );
    assert!(list[..count].iter().all(|m| m.strength.is_finite()));
}

/// A take with a nucleus and an extra: loud at 8 to 31, 200 Hz at 10 to 29, and a vowel that changes at 21.
struct Take {
    db: Vec<f32>,
    pitch: Vec<f32>,
    voiced_p: Vec<f32>,
    sonority: Vec<f32>,
    marks: Vec<u8>,
    samples: Vec<i16>,
    settings: Settings,
}

fn take() -> Take {
    let voiced = |i| f32::from((10..30).contains(&i));
    Take {
        db: (0..FRAMES)
            .map(|i| if (8..32).contains(&i) { -20.0 } else { -60.0 })
            .collect(),
        pitch: (0..FRAMES).map(|i| 200.0 * voiced(i)).collect(),
        voiced_p: (0..FRAMES).map(voiced).collect(),
        sonority: (0..FRAMES)
            .map(|i| if i < 21 { 0.75 } else { 0.25 })
            .collect(),
        marks: vec![1; FRAMES],
        samples: (0..160 * FRAMES).map(|j| (j % 80 * 50) as i16).collect(),
        settings: Settings::default(),
    }
}

const REGION: std::ops::Range<usize> = 8..32;

impl Take {
    fn nuclei(&self, list: &mut [Nucleus]) -> Result<usize, Refusal> {
        kiddwyr::nuclei(&self.db, &self.pitch, REGION, self.settings, list)
    }

    fn extras(&self, list: &mut [Nucleus], edges: &mut [u32]) -> Result<Counted, Refusal> {
        let given = [Nucleus {
            frame: 15,
            strength: f32::NAN,
        }];
        kiddwyr::extras(
            &self.db,
            &self.pitch,
            &self.sonority,
            REGION,
            &given,
            self.settings,
            list,
            edges,
        )
    }

    fn recover(&mut self) -> Result<(), Refusal> {
        kiddwyr::recover(&mut self.pitch, &self.samples, &self.marks, &self.marks)
    }

    fn chain(&mut self, nuclei: &mut [Nucleus], extras: &mut [Nucleus]) -> Result<Marks, Refusal> {
        let tracks = Tracks {
            db: &self.db,
            voiced_p: &self.voiced_p,
            sonority: &self.sonority,
            vowel: &self.marks,
            samples: &self.samples,
        };
        let (mut edges, mut boundaries) = ([0; FRAMES], [0; FRAMES + 1]);
        let lists = Lists {
            nuclei,
            extras,
            edges: &mut edges,
            boundaries: &mut boundaries,
        };
        kiddwyr::chain(tracks, &mut self.pitch, self.settings, lists)
    }
}

/// What the other tests rest on: the patterns are still there once they are f32.
#[test]
fn patterns_are_lent_as_they_are() {
    assert_eq!(bits(&nans(PATTERNS.len())), PATTERNS);
    assert!(nans(PATTERNS.len()).iter().all(|x| x.is_nan()));
}

#[test]
fn patterns_past_the_count_stay() {
    for room in [FRAMES, FRAMES + 1, 3 * FRAMES] {
        let mut list = blank(room);
        assert_eq!(take().nuclei(&mut list), Ok(1));
        only_the_front(&list, 1);

        let (mut list, mut edges) = (blank(room), vec![0; room]);
        assert_eq!(
            take().extras(&mut list, &mut edges),
            Ok(Counted {
                extras: 1,
                edges: 1
            })
        );
        only_the_front(&list, 1);

        let (mut nuclei, mut extras) = (blank(room), blank(room));
        let found = take()
            .chain(&mut nuclei, &mut extras)
            .expect("the take is admitted");
        assert_eq!((found.nuclei, found.extras), (1, 1));
        only_the_front(&nuclei, 1);
        only_the_front(&extras, 1);
    }
}

/// A take without a region: both lists stay whole.
#[test]
fn patterns_stay_where_nothing_is_found() {
    let mut quiet = take();
    quiet.db.fill(-60.0);
    let (mut nuclei, mut extras) = (blank(FRAMES), blank(FRAMES));
    let found = quiet
        .chain(&mut nuclei, &mut extras)
        .expect("the take is admitted");
    assert_eq!((found.region, found.nuclei, found.extras), (None, 0, 0));
    only_the_front(&nuclei, 0);
    only_the_front(&extras, 0);
}

#[test]
fn patterns_in_result_lists_stay_after_a_refusal() {
    // A setting that is a NaN, in every pattern; lists that are too short.
    let setting = PATTERNS.map(|p| (f32::from_bits(p), FRAMES, 3));
    for (margin, room, number) in setting
        .into_iter()
        .chain([(10.0, FRAMES - 1, 10), (10.0, 1, 10)])
    {
        let mut call = take();
        call.settings.margin = margin;
        let mut list = blank(room);
        assert_eq!(call.nuclei(&mut list), Err(Refusal(number)));
        only_the_front(&list, 0);
        assert_eq!(
            call.extras(&mut list, &mut vec![0; room]),
            Err(Refusal(number))
        );
        only_the_front(&list, 0);
        let mut extras = blank(room);
        assert_eq!(call.chain(&mut list, &mut extras), Err(Refusal(number)));
        only_the_front(&list, 0);
        only_the_front(&extras, 0);
    }
}

/// A NaN is no pitch: it is refused, and stays as it is.
#[test]
fn patterns_in_pitches_stay_after_a_refusal() {
    let tracks = PATTERNS.iter().enumerate().map(|(i, p)| {
        let mut pitch = take().pitch;
        pitch[3 * i] = f32::from_bits(*p);
        pitch
    });
    for pitch in tracks.chain([nans(FRAMES)]) {
        let mut call = take();
        call.pitch.clone_from(&pitch);
        assert_eq!(kiddwyr::repair(&mut call.pitch), Err(Refusal(5)));
        assert_eq!(bits(&call.pitch), bits(&pitch), "repair");
        assert_eq!(call.recover(), Err(Refusal(5)));
        assert_eq!(bits(&call.pitch), bits(&pitch), "recover");
        let (mut nuclei, mut extras) = (blank(FRAMES), blank(FRAMES));
        assert_eq!(call.chain(&mut nuclei, &mut extras), Err(Refusal(5)));
        assert_eq!(bits(&call.pitch), bits(&pitch), "chain");
        only_the_front(&nuclei, 0);
        only_the_front(&extras, 0);
    }
}

/// A refusal for the length comes before any look at the pitches.
#[test]
fn patterns_in_too_long_a_track_stay() {
    let mut pitch = nans(kiddwyr::MAX_FRAMES + 1);
    let before = bits(&pitch);
    assert_eq!(kiddwyr::repair(&mut pitch), Err(Refusal(1)));
    assert_eq!(kiddwyr::recover(&mut pitch, &[], &[], &[]), Err(Refusal(1)));
    assert_eq!(bits(&pitch), before);
}

/// A frame without sound is one whatever its dB are, as long as they are not finite.
#[test]
fn the_pattern_of_a_silent_frame_is_not_seen() {
    let answer = |db: f32| {
        let mut call = take();
        call.db[..5].fill(db);
        call.db[20] = db;
        let (mut nuclei, mut extras) = (blank(FRAMES), blank(FRAMES));
        let found = call.chain(&mut nuclei, &mut extras);
        assert!(found.is_ok());
        (
            found,
            bits(&call.pitch),
            record_bits(&nuclei),
            record_bits(&extras),
        )
    };
    let infinite = answer(f32::INFINITY);
    for pattern in PATTERNS {
        assert_eq!(answer(f32::from_bits(pattern)), infinite);
    }
}

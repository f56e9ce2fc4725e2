//! Quick tests of the judge itself.

use judge::bytes::{Reader, Writer};
use judge::cases;
use judge::entry::{self, Given, Lists, Mark, Settings, CLASSIC, DEFAULTS, PITCH, REPAIRABLE};
use judge::fuzz::{self, Outcome};
use judge::kinds::{Kind, KINDS, UNTOUCHED};
use judge::random::Random;
use judge::take::{listing, listing_with, samples, Take};
use judge::{generate, replay, second, stages};

fn kind(word: &str) -> &'static Kind {
    Kind::by_words(word).expect("a kind")[0]
}

#[test]
fn every_case_comes_out() {
    for case in cases::all() {
        assert_eq!(case.outcome, Ok(()), "{}: {}", case.name, case.what);
    }
}

#[test]
fn k1_is_listed_as_printed() {
    assert_eq!(listing(&cases::k1().write()), cases::K1_LISTING);
}

/// The example with a sound: what the chain lists, and what it listed when it repaired before it recovered,
/// which differs in three pitches.
#[test]
fn the_octave_is_listed_in_both_orders() {
    let read = |end: &str| {
        let name = concat!(env!("CARGO_MANIFEST_DIR"), "/../examples/octave");
        std::fs::read(format!("{name}.{end}")).expect("a file of the example")
    };
    let text = |end: &str| String::from_utf8(read(end)).expect("a listing");
    let (file, sound) = (read("take"), samples(&read("wav")));
    assert_eq!(listing_with(&file, &sound), text("listing"));

    let take = Take::read(&file).expect("a take");
    let mut speech = vec![0; take.db.len()];
    let mut pitch = take.pitch.clone();
    entry::speech_marks(&take.db, take.settings, &mut speech)
        .and_then(|_| entry::repair(&mut pitch))
        .and_then(|()| entry::recover(&mut pitch, &sound, &speech, &take.vowel))
        .expect("an admitted take");
    let (now, before) = (text("listing"), text("before"));
    for (line, old) in now.lines().zip(before.lines()) {
        match line.split(' ').collect::<Vec<_>>()[..] {
            ["pitch", frame, _] => {
                let bits = pitch[frame.parse::<usize>().expect("a frame")].to_bits();
                assert_eq!(old, format!("pitch {frame} {bits:08x}"));
            }
            _ => assert_eq!(old, line),
        }
    }
    assert_eq!(before.lines().count(), now.lines().count());
    let other = now.lines().zip(before.lines()).filter(|(a, b)| a != b);
    assert_eq!(other.count(), 3);
}

/// What the repair leaves of a run of two stretches, an octave apart, by how many frames each has: the
/// table of the specification's section 10.
#[test]
fn stretches_an_octave_apart_are_repaired_as_told() {
    let run = |parts: &[(usize, f32)]| -> Vec<f32> {
        let part = |&(frames, hz)| vec![hz; frames];
        parts.iter().flat_map(part).collect()
    };
    for low in 3..=14 {
        for high in 3..=14 {
            let mut pitch = run(&[(low, 120.0), (high, 240.0)]);
            entry::repair(&mut pitch).expect("these pitches are admitted");
            let n = low + high;
            let wanted = match (low, high) {
                (3, 3) => run(&[(3, 240.0), (3, 120.0)]),
                (3, _) => run(&[(n, 240.0)]),
                (_, 3) => run(&[(n, 120.0)]),
                (4, 4) => run(&[(2, 120.0), (2, 240.0), (2, 120.0), (2, 240.0)]),
                (5, 5) => run(&[(4, 120.0), (1, 240.0), (1, 120.0), (4, 240.0)]),
                (4, _) => run(&[(2, 120.0), (n - 2, 240.0)]),
                (_, 4) => run(&[(n - 2, 120.0), (2, 240.0)]),
                (5, _) => run(&[(4, 120.0), (n - 4, 240.0)]),
                (_, 5) => run(&[(n - 4, 120.0), (4, 240.0)]),
                _ => run(&[(low, 120.0), (high, 240.0)]),
            };
            assert_eq!(pitch, wanted, "{low} and {high}");
        }
    }
}

/// `exact` against whole numbers of any length, mostly beside the limits.
#[test]
fn powers_are_exact() {
    for word in ["break", "step", "octave"] {
        let kind = kind(word);
        for index in 0..400 {
            let input = generate::input(kind.number, &mut Random::of(7, kind.number, index));
            assert_eq!(kind.answer(&input), second::answer(kind.number, &input));
        }
    }
}

/// The draws fall on both sides of each limit.
#[test]
fn both_answers_are_drawn() {
    for (word, answers) in [
        ("break", 2),
        ("step", 2),
        ("octave", 3),
        ("shallow-valley", 2),
    ] {
        let kind = kind(word);
        let mut seen = [0; 3];
        for index in 0..400 {
            let input = generate::input(kind.number, &mut Random::of(7, kind.number, index));
            for b in kind.answer(&input).expect("a well-formed input") {
                seen[usize::from(b)] += 1;
            }
        }
        let total: usize = seen.iter().sum();
        assert!(
            seen[..answers].iter().all(|&k| 10 * k > total),
            "{word}: {seen:?}"
        );
    }
}

/// What is drawn has its kind's form and fits the record.
#[test]
fn drawn_inputs_are_answered() {
    for kind in KINDS {
        for index in 0..100 {
            let input = generate::input(kind.number, &mut Random::of(3, kind.number, index));
            assert!(kind.answer(&input).is_some(), "{}", kind.name);
        }
    }
}

/// Of the boundaries that are drawn, some are others under the classic set.
#[test]
fn the_draws_tell_the_default_dip() {
    let kind = kind("boundaries");
    let classic = |input: &[u8]| {
        stages::boundaries(
            &mut Reader::new(input),
            |db, pitch, voiced_p, region, nuclei, list| {
                entry::boundaries_with(db, pitch, voiced_p, CLASSIC, region, nuclei, list)
            },
        )
    };
    let told = (0..2000).filter(|&index| {
        let input = generate::input(kind.number, &mut Random::of(7, kind.number, index));
        kind.answer(&input) != classic(&input).map(|w| w.bytes)
    });
    let told = told.count();
    assert!(told > 10, "{told}");
}

#[cfg(not(feature = "rattle"))]
#[test]
fn two_readings_agree() {
    for kind in KINDS {
        if let Outcome::Differ(difference) = fuzz::compare(kind, 200, 5, 0) {
            panic!("{}", difference.describe(kind, 5));
        }
    }
}

#[test]
fn replay_list_reads_back() {
    let kinds: Vec<&Kind> = KINDS.iter().collect();
    let list = replay::list(1, &kinds);
    let mut r = Reader::new(&list);
    let mut seen = [0; 256];
    while r.left() > 0 {
        let number = r.u8().expect("a kind");
        let input = r.size().and_then(|n| r.bytes(n)).expect("an input");
        let answer = r.size().and_then(|n| r.bytes(n)).expect("an answer");
        let kind = Kind::by_number(number).expect("a known kind");
        assert_eq!(kind.answer(input).as_deref(), Some(answer));
        seen[usize::from(number)] += 1;
    }
    assert!(KINDS.iter().all(|k| seen[usize::from(k.number)] > 8));
    assert_eq!(list, replay::list(1, &kinds));
}

/// What the gate replays is what is made here.
#[test]
fn replay_list_is_the_stored_one() {
    let kinds: Vec<&Kind> = KINDS.iter().collect();
    let stored = include_bytes!("../../crates/compare_replay/stdin");
    assert!(replay::list(1, &kinds) == stored[..]);
}

/// A list answer holds the entries past the count as they were.
#[test]
fn entries_past_the_count_stay() {
    let kind = kind("maxima");
    let input = Writer::new().u32(0).u32(3).f32(0.0).f32(1.0).f32(0.0).bytes;
    let wanted = Writer::new().u32(1).u32(1).u32(UNTOUCHED).u32(UNTOUCHED);
    assert_eq!(kind.answer(&input), Some(wanted.bytes));
}

// Refusals

const NAN: f32 = f32::NAN;

fn settings(margin: f32, dip: f32, gap: u32) -> Settings {
    Settings { margin, dip, gap }
}

#[test]
fn lengths_are_refused() {
    let long = vec![0.0; 2049];
    let marks = vec![0; 2049];
    let rising: Vec<u32> = (0..2049).collect();
    let of = |given: Given| given.refusal();
    let none = Given::default();
    assert_eq!(of(none), 0);
    assert_eq!(
        of(Given {
            db: Some(&long),
            ..none
        }),
        1
    );
    assert_eq!(
        of(Given {
            db: Some(&long[..2048]),
            ..none
        }),
        0
    );
    assert_eq!(
        of(Given {
            pitch: Some((&long, PITCH)),
            ..none
        }),
        1
    );
    assert_eq!(
        of(Given {
            voiced_p: Some(&long),
            ..none
        }),
        1
    );
    assert_eq!(
        of(Given {
            sonority: Some(&long),
            ..none
        }),
        1
    );
    assert_eq!(
        of(Given {
            speech: Some(&marks),
            ..none
        }),
        1
    );
    assert_eq!(
        of(Given {
            vowel: Some(&marks),
            ..none
        }),
        1
    );
    assert_eq!(
        of(Given {
            nuclei: Some(&rising),
            ..none
        }),
        1
    );
    let unequal = Given {
        db: Some(&long[..3]),
        pitch: Some((&long[..2], PITCH)),
        ..none
    };
    assert_eq!(of(unequal), 2);
    // Sonority and marks of another length are not a refusal.
    let other = Given {
        db: Some(&long[..3]),
        sonority: Some(&long[..2]),
        vowel: Some(&marks[..9]),
        ..none
    };
    assert_eq!(of(other), 0);
}

#[test]
fn settings_are_refused() {
    let of = |s| entry::region(&[], s).err();
    for bad in [NAN, f32::INFINITY, -0.5, 200.1] {
        assert_eq!(of(settings(bad, 2.0, 6)), Some(3));
        assert_eq!(of(settings(10.0, bad, 6)), Some(3));
    }
    assert_eq!(of(settings(10.0, 2.0, 1001)), Some(3));
    assert_eq!(of(settings(-0.0, 200.0, 1000)), None);
}

#[test]
fn values_are_refused() {
    let db = |d: f32| entry::region(&[d], DEFAULTS).err();
    assert_eq!(db(1000.0_f32.next_up()), Some(4));
    assert_eq!(db(-1001.0), Some(4));
    assert_eq!(db(f32::NEG_INFINITY), None);
    assert_eq!(db(NAN), None);

    let pitch = |p: f32, range| {
        let given = Given {
            pitch: Some((&[p], range)),
            ..Given::default()
        };
        given.refusal()
    };
    for bad in [-0.0, NAN, f32::INFINITY, -200.0, 19.9, 4000.1] {
        assert_eq!(pitch(bad, PITCH), 5);
    }
    for good in [0.0, 20.0, 4000.0] {
        assert_eq!(pitch(good, PITCH), 0);
    }
    assert_eq!(pitch(39.9, REPAIRABLE), 5);
    assert_eq!(pitch(2000.1, REPAIRABLE), 5);
    assert_eq!(pitch(40.0, REPAIRABLE), 0);

    let share = |v: f32| {
        let mut list = [0; 2];
        let voiced = entry::boundaries(&[0.0], &[0.0], &[v], (0, 0), &[], &mut list);
        let sonority = Given {
            sonority: Some(&[v]),
            ..Given::default()
        };
        (voiced.err().unwrap_or(0), sonority.refusal())
    };
    assert_eq!(share(NAN), (5, 6));
    assert_eq!(share(1.1), (5, 6));
    assert_eq!(share(-0.0), (0, 0));
    assert_eq!(share(1.0), (0, 0));

    // A mark above 1 is refused even past the track's end.
    let marks = |speech: &[u8], vowel: &[u8]| entry::recover(&mut [0.0], &[], speech, vowel).err();
    assert_eq!(marks(&[0, 2], &[]), Some(6));
    assert_eq!(marks(&[], &[0, 0, 255]), Some(6));
    assert_eq!(marks(&[1], &[1, 1]), None);
}

#[test]
fn places_are_refused() {
    let at = |region, nuclei: &[u32]| {
        let mut list = [0; 5];
        entry::boundaries(&[0.0; 4], &[0.0; 4], &[0.0; 4], region, nuclei, &mut list).err()
    };
    assert_eq!(at((3, 2), &[]), Some(7));
    assert_eq!(at((0, 5), &[]), Some(7));
    assert_eq!(at((4, 4), &[]), None);
    assert_eq!(at((0, 4), &[1, 1]), Some(8));
    assert_eq!(at((0, 4), &[2, 1]), Some(8));
    assert_eq!(at((0, 4), &[4]), Some(8));
    assert_eq!(at((0, 4), &[0, 3]), None);
    let samples = vec![0; 327_681];
    assert_eq!(entry::recover(&mut [], &samples, &[], &[]), Err(9));
    assert_eq!(entry::recover(&mut [], &samples[1..], &[], &[]), Ok(()));
}

#[test]
fn room_is_tested_in_every_entry() {
    let (db, zero) = ([0.0; 2], [0.0; 2]);
    let mark = Mark {
        frame: 0,
        strength: 0.0,
    };
    let all = (0, 2);
    assert_eq!(entry::speech_marks(&db, DEFAULTS, &mut [0]), Err(10));
    assert_eq!(
        entry::nuclei(&db, &zero, DEFAULTS, all, &mut [mark]),
        Err(10)
    );
    let extras = |list: usize, edges: usize| {
        let (mut list, mut edges) = (vec![mark; list], vec![0; edges]);
        entry::extras(&db, &zero, &zero, DEFAULTS, all, &[], &mut list, &mut edges).err()
    };
    assert_eq!(extras(1, 2), Some(10));
    assert_eq!(extras(2, 1), Some(10));
    assert_eq!(extras(2, 2), None);
    let boundaries = |room: usize| {
        let mut list = vec![0; room];
        let own = entry::boundaries(&db, &zero, &zero, all, &[], &mut list).err();
        let with = entry::boundaries_with(&db, &zero, &zero, DEFAULTS, all, &[], &mut list).err();
        (own, with)
    };
    assert_eq!(boundaries(2), (Some(10), Some(10)));
    assert_eq!(boundaries(3), (None, None));
}

/// The chain on K1 with lists of these lengths, all lent things filled before; what it answered
/// and whether something lent changed.
fn chain(take: &Take, rooms: [usize; 4]) -> (Option<u8>, bool) {
    let mark = Mark {
        frame: UNTOUCHED,
        strength: -7.0,
    };
    let mut pitch = take.pitch.clone();
    let (mut nuclei, mut extras) = (vec![mark; rooms[0]], vec![mark; rooms[1]]);
    let (mut edges, mut boundaries) = (vec![UNTOUCHED; rooms[2]], vec![UNTOUCHED; rooms[3]]);
    let lists = Lists {
        nuclei: &mut nuclei,
        extras: &mut extras,
        edges: &mut edges,
        boundaries: &mut boundaries,
    };
    let answer = entry::chain(take.frames(), &mut pitch, take.settings, &[], lists);
    let same = nuclei.iter().chain(&extras).all(|&m| m == mark)
        && edges.iter().chain(&boundaries).all(|&f| f == UNTOUCHED)
        && pitch
            .iter()
            .zip(&take.pitch)
            .all(|(x, y)| x.to_bits() == y.to_bits());
    (answer.err(), !same)
}

#[test]
fn the_lowest_number_wins_and_nothing_is_written() {
    let enough = [16, 16, 16, 17];
    assert_eq!(chain(&cases::k1(), enough), (None, true));
    for (k, _) in enough.iter().enumerate() {
        let mut rooms = enough;
        rooms[k] -= 1;
        assert_eq!(chain(&cases::k1(), rooms), (Some(10), false));
    }
    // From the last test to the first: each new fault has the lower number.
    let mut take = cases::k1();
    let mut faulty = |number: u8, fault: &dyn Fn(&mut Take)| {
        fault(&mut take);
        assert_eq!(chain(&take, [0; 4]), (Some(number), false));
    };
    faulty(10, &|_| ());
    faulty(6, &|t| t.vowel[0] = 2);
    faulty(5, &|t| t.pitch[1] = 3.0);
    faulty(4, &|t| t.db[15] = 1001.0);
    faulty(3, &|t| t.settings.gap = 1001);
    faulty(2, &|t| t.voiced_p.truncate(9));
    faulty(1, &|t| t.sonority.resize(2049, 0.0));
}

// The take file

#[test]
fn take_files_read_back() {
    let take = cases::one_edge_inside();
    assert_eq!(Take::read(&take.write()), Ok(take));
}

#[test]
fn take_files_are_refused() {
    let file = cases::k1().write();
    assert_eq!(file.len(), 19 + 17 * 16);
    let refused = |file: &[u8]| Take::read(file).err();
    for cut in 0..file.len() {
        assert_eq!(refused(&file[..cut]), Some(11));
    }
    assert_eq!(refused(&[&file[..], &[0]].concat()), Some(11));
    let changed = |at: usize, to: u8| {
        let mut file = file.clone();
        file[at] = to;
        file
    };
    assert_eq!(refused(&changed(3, file[3] + 1)), Some(11));
    assert_eq!(refused(&changed(4, 2)), Some(11));
    assert_eq!(refused(&changed(6, 15)), Some(11));
    // 7 bytes that a take could start with.
    assert_eq!(refused(&file[..7]), Some(11));

    // Agreeing bytes of too many frames: 1, whatever they hold.
    let head = |n: u16| Writer::new().u32(15 + 17 * u32::from(n)).u8(1);
    for n in [2049, 65_535] {
        let mut file = head(n).bytes;
        file.extend(n.to_be_bytes());
        file.resize(19 + 17 * usize::from(n), 0xff);
        assert_eq!(listing(&file), "refused 1\n");
        file.push(0);
        assert_eq!(listing(&file), "refused 11\n");
    }
    let mut file = head(2048).bytes;
    file.extend(2048u16.to_be_bytes());
    file.resize(19 + 17 * 2048, 0);
    assert_eq!(listing(&file), "region none\n");
    file.push(0);
    assert_eq!(listing(&file), "refused 11\n");
}

#[test]
fn refusals_are_listed() {
    let mut take = cases::k1();
    take.vowel[3] = 2;
    assert_eq!(listing(&take.write()), "refused 6\n");
    take.pitch[0] = -0.0;
    assert_eq!(listing(&take.write()), "refused 5\n");
    assert_eq!(listing(&Take::empty(DEFAULTS).write()), "region none\n");
}

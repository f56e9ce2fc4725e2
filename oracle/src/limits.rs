//! Fixed calls that have one thing on a limit or just beyond it, and files likewise: what an entry
//! admits and what it refuses, each cause by itself.

use crate::calls::Call;
use crate::cases;
use crate::entry::{MAX_FRAMES, MAX_SAMPLES};
use crate::stages::write;
use crate::take::Take;

/// The inputs of a kind, each different from the others.
pub fn inputs(kind: u8) -> Vec<Vec<u8>> {
    let mut out: Vec<Vec<u8>> = Vec::new();
    for change in changes() {
        let mut call = small();
        change(&mut call);
        let input = write(kind, &call);
        // Most changes are of something that this entry is not given.
        if !out.contains(&input) {
            out.push(input);
        }
    }
    out
}

/// A call of 8 frames with a nucleus and a region, and two samples.
fn small() -> Call {
    let mut call = Call::of(&take(), (1, 7), &[3]);
    (call.stored, call.samples) = (vec![5, -5], 2);
    call
}

fn take() -> Take {
    let mut take = cases::k1();
    for track in [
        &mut take.db,
        &mut take.pitch,
        &mut take.voiced_p,
        &mut take.sonority,
    ] {
        track.drain(..3);
        track.truncate(8);
    }
    take.vowel.truncate(8);
    take
}

type Change = Box<dyn Fn(&mut Call)>;

fn changes() -> Vec<Change> {
    let n = take().db.len();
    let last = n as u32;
    let long = MAX_FRAMES + 1;
    let least = f32::from_bits(1);
    let mut out: Vec<Change> = vec![Box::new(|_| {})];
    for v in [
        0.0,
        -0.0,
        -least,
        200.0,
        200.0f32.next_up(),
        f32::NAN,
        f32::INFINITY,
    ] {
        out.push(Box::new(move |c| c.settings.margin = v));
        out.push(Box::new(move |c| c.settings.dip = v));
    }
    for v in [0, 1000, 1001, u32::MAX] {
        out.push(Box::new(move |c| c.settings.gap = v));
    }
    for v in [1000.0f32, 1000.0f32.next_up(), f32::INFINITY, f32::NAN] {
        out.push(Box::new(move |c| c.db[n - 1] = v));
        out.push(Box::new(move |c| c.db[0] = -v));
    }
    // The limits of both ranges, and beside them.
    for v in [20.0f32, 40.0] {
        out.push(Box::new(move |c| c.pitch[1] = v));
        out.push(Box::new(move |c| c.pitch[1] = v.next_down()));
    }
    for v in [2000.0f32, 4000.0] {
        out.push(Box::new(move |c| c.pitch[6] = v));
        out.push(Box::new(move |c| c.pitch[6] = v.next_up()));
    }
    for v in [-0.0, least, -200.0, f32::NAN, f32::INFINITY] {
        out.push(Box::new(move |c| c.pitch[n - 1] = v));
    }
    for v in [-0.0, -least, 1.0, 1.0f32.next_up(), f32::NAN] {
        out.push(Box::new(move |c| c.voiced_p[n - 1] = v));
        out.push(Box::new(move |c| c.sonority[n - 1] = v));
    }
    // Marks, and sonority, of another length than the track's.
    for v in [1, 2, 255] {
        out.push(Box::new(move |c| c.speech[0] = v));
        out.push(Box::new(move |c| c.vowel[0] = v));
        out.push(Box::new(move |c| c.speech.push(v)));
        out.push(Box::new(move |c| c.vowel.push(v)));
    }
    for v in [0.5, 1.5] {
        out.push(Box::new(move |c| c.sonority.push(v)));
    }
    out.push(Box::new(move |c| c.sonority.truncate(n - 1)));
    out.push(Box::new(|c| c.speech.clear()));
    out.push(Box::new(|c| c.vowel.clear()));
    // A track by itself that is shorter or longer.
    out.push(Box::new(move |c| c.pitch.truncate(n - 1)));
    out.push(Box::new(|c| c.pitch.push(0.0)));
    out.push(Box::new(move |c| c.voiced_p.truncate(n - 1)));
    out.push(Box::new(|c| c.voiced_p.push(0.0)));
    out.push(Box::new(move |c| c.db.truncate(n - 1)));
    out.push(Box::new(|c| c.db.push(0.0)));
    out.push(Box::new(move |c| c.db.resize(long, 0.0)));
    out.push(Box::new(move |c| c.pitch.resize(long, 0.0)));
    out.push(Box::new(move |c| c.voiced_p.resize(long, 0.0)));
    out.push(Box::new(move |c| c.sonority.resize(long, 0.0)));
    out.push(Box::new(move |c| c.speech.resize(long, 0)));
    out.push(Box::new(move |c| c.vowel.resize(long, 0)));
    out.push(Box::new(|c| c.speech.resize(MAX_FRAMES, 0)));
    out.push(Box::new(|c| c.vowel.resize(MAX_FRAMES, 0)));
    out.push(Box::new(|c| c.nuclei = (0..MAX_FRAMES as u32).collect()));
    for region in [
        (0, 0),
        (0, last),
        (last, last),
        (1, 0),
        (last, last + 1),
        (0, last + 1),
        (last + 1, last),
        (u32::MAX, u32::MAX),
        (u32::MAX, 0),
        (0, u32::MAX),
    ] {
        out.push(Box::new(move |c| c.region = region));
    }
    for nuclei in [
        vec![],
        vec![last - 1],
        vec![last],
        vec![0, last],
        vec![3, 2],
        vec![2, 2],
        vec![1, 5, 4],
        vec![u32::MAX],
        vec![last, 2],
        (0..last).collect(),
    ] {
        out.push(Box::new(move |c| c.nuclei.clone_from(&nuclei)));
    }
    for count in [0, 1, MAX_SAMPLES - 1, MAX_SAMPLES, MAX_SAMPLES + 1] {
        out.push(Box::new(move |c| c.samples = count));
    }
    for list in 0..4 {
        out.push(Box::new(move |c| c.rooms[list] -= 1));
        out.push(Box::new(move |c| c.rooms[list] += 1));
        out.push(Box::new(move |c| c.rooms[list] = 0));
    }
    out
}

/// Files whose bytes agree and that the chain admits or refuses, two faults at a time too, and files
/// whose bytes do not agree.
pub fn files() -> Vec<Vec<u8>> {
    let faults: [fn(&mut Take); 11] = [
        |t| t.settings.margin = f32::NAN,
        |t| t.settings.dip = -1.0,
        |t| t.settings.gap = 1001,
        |t| t.db[7] = 1001.0,
        |t| t.db[0] = -1000.5,
        |t| t.pitch[7] = -0.0,
        |t| t.pitch[3] = 39.0,
        |t| t.voiced_p[7] = 1.5,
        |t| t.sonority[7] = -0.5,
        |t| t.vowel[0] = 2,
        |t| t.vowel[7] = 1,
    ];
    let mut out = Vec::new();
    for (k, one) in faults.iter().enumerate() {
        let mut first = take();
        one(&mut first);
        out.push(first.write());
        // One of each other number that comes after.
        for other in [3, 5, 9].into_iter().filter(|&other| other > k + 1) {
            let mut both = first.clone();
            faults[other](&mut both);
            out.push(both.write());
        }
    }
    out.push(Take::empty(take().settings).write());
    let good = take().write();
    for size in [0, 1, 4, 6, 7, 18, 19, good.len() - 17, good.len() - 1] {
        out.push(good[..size].to_vec());
    }
    // The byte that changes, and to what: version, length and count.
    for (at, to) in [
        (4, 0),
        (4, 2),
        (4, 255),
        (3, good[3] + 1),
        (3, 0),
        (0, 1),
        (6, 7),
        (6, 9),
        (5, 8),
    ] {
        let mut bad = good.clone();
        bad[at] = to;
        out.push(bad);
    }
    // As many bytes as the length says, but not 17 for each frame.
    for more in [1, 17] {
        let mut bad = good.clone();
        bad[3] += more;
        bad.resize(good.len() + usize::from(more), 0);
        out.push(bad.clone());
        // And more than it says.
        bad[3] = good[3];
        out.push(bad);
    }
    let mut bad = good.clone();
    bad[3] -= 1;
    bad.pop();
    out.push(bad);
    // Too many frames, whose bytes agree or do not; what the records hold is not looked at.
    let head = |n: u16| {
        [
            &(15 + 17 * u32::from(n)).to_be_bytes()[..],
            &[1],
            &n.to_be_bytes(),
        ]
        .concat()
    };
    let mut many = head(MAX_FRAMES as u16 + 1);
    many.resize(19 + 17 * (MAX_FRAMES + 1), 0xff);
    out.push(many.clone());
    many[4] = 2;
    many.truncate(40);
    out.push(many.clone());
    many[4] = 1;
    out.push(many);
    out.push(head(u16::MAX));
    out
}

//! Planted mistakes: which of them a replay list notices, and which inputs a list needs to notice
//! all that can be noticed. A mistake is noticed by a record whose answer is another with it, or
//! none.

use crate::kinds::Kind;
use crate::replay::{self, Record};
use lay::mistakes::{self, Wrong};
use std::collections::{BTreeSet, HashMap};
use std::panic::{self, AssertUnwindSafe};
use std::sync::mpsc;
use std::sync::Arc;
use std::thread;
use std::time::Duration;

/// A mistaken program that takes longer than this over one record runs forever.
const PATIENCE: Duration = Duration::from_secs(60);

/// So many inputs of a kind that come by a mistake's place are tried for it.
const TRIES: u32 = 1000;

/// A mistake that can be made.
struct Mistake {
    number: u16,
    /// The first number of its place.
    place: u16,
    stage: &'static str,
    wrong: &'static Wrong,
}

fn all() -> Vec<Mistake> {
    let of = |(place, number, at, wrong): (u16, u16, &'static mistakes::Place, _)| Mistake {
        number,
        place,
        stage: at.stage,
        wrong,
    };
    let all: Vec<Mistake> = mistakes::all().map(of).collect();
    assert!(all.len() < planted::MOST);
    all
}

/// An input with the right answer and the places that are passed on the way to it.
struct Asked {
    kind: &'static Kind,
    input: Vec<u8>,
    answer: Vec<u8>,
    passed: planted::Set,
}

impl Asked {
    fn new(kind: &'static Kind, input: Vec<u8>) -> Asked {
        planted::passed();
        let answer = kind.answer(&input).expect("an input of its kind's form");
        Asked {
            kind,
            input,
            answer,
            passed: planted::passed(),
        }
    }

    fn passes(&self, mistake: &Mistake) -> bool {
        planted::holds(&self.passed, mistake.place)
    }

    /// Whether the answer is another while a mistake is made. The thread makes none afterwards.
    fn notices(&self, mistake: &Mistake) -> bool {
        if !self.passes(mistake) {
            return false;
        }
        planted::make(mistake.number);
        let answer = panic::catch_unwind(AssertUnwindSafe(|| self.kind.answer(&self.input)));
        planted::make(0);
        !answer.is_ok_and(|answer| answer.is_some_and(|answer| answer == self.answer))
    }
}

/// The first of `asked` that notices a mistake; one that never ends is noticed by the one it hangs
/// on. Each mistake has a thread of its own, which is left to itself if it never ends.
fn noticed_by(asked: &Arc<Vec<Asked>>, mistake: Mistake) -> Option<usize> {
    let (send, receive) = mpsc::channel();
    let asked = Arc::clone(asked);
    let last = asked.len();
    thread::spawn(move || {
        for (k, one) in asked.iter().enumerate() {
            let noticed = one.notices(&mistake);
            // A closed channel: nobody waits any longer.
            if send.send((k, noticed)).is_err() || noticed {
                return;
            }
        }
    });
    for k in 0..last {
        match receive.recv_timeout(PATIENCE) {
            Ok((_, false)) => {}
            _ => return Some(k),
        }
    }
    None
}

/// Mistaken programs panic; what they say then is of no use.
fn quietly<T>(run: impl FnOnce() -> T) -> T {
    let hook = panic::take_hook();
    panic::set_hook(Box::new(|_| {}));
    let out = run();
    panic::set_hook(hook);
    out
}

/// Tells which mistakes a list notices. Whether each is noticed, or argued to change nothing and not
/// noticed; none where the list's answers are not the judge's.
pub fn report(list: &[u8], mut line: impl FnMut(String)) -> Option<bool> {
    let records = replay::read(list)?;
    let mut asked = Vec::new();
    for Record {
        kind,
        input,
        answer,
    } in records
    {
        let one = Asked::new(kind, input.to_vec());
        (one.answer == answer).then_some(())?;
        asked.push(one);
    }
    let asked = Arc::new(asked);
    let mut stages: Vec<(&str, [usize; 4])> = Vec::new();
    let mut faults = 0;
    for mistake in all() {
        if stages.last().is_none_or(|s| s.0 != mistake.stage) {
            stages.push((mistake.stage, [0; 4]));
        }
        let (number, stage, wrong) = (mistake.number, mistake.stage, mistake.wrong);
        let noticed = quietly(|| noticed_by(&asked, mistake));
        let column = match (noticed, wrong.same) {
            (Some(_), None) => 1,
            (None, Some(_)) => 2,
            _ => 3,
        };
        if column == 3 {
            faults += 1;
            let what = match noticed {
                Some(k) => format!("changes record {k} and is said to change nothing"),
                None => "is not noticed".to_string(),
            };
            line(format!("{number} {stage}: {}: {what}", wrong.words));
        }
        if let Some((_, counts)) = stages.last_mut() {
            counts[0] += 1;
            counts[column] += 1;
        }
    }
    line("| stage | mistakes | noticed | the same, argued | unexplained |".into());
    line("|---|---:|---:|---:|---:|".into());
    let mut sums = [0; 4];
    for (stage, counts) in joined(stages) {
        let [total, noticed, same, faults] = counts;
        line(format!(
            "| {stage} | {total} | {noticed} | {same} | {faults} |"
        ));
        for (sum, count) in sums.iter_mut().zip(counts) {
            *sum += count;
        }
    }
    let [total, noticed, same, _] = sums;
    line(format!(
        "{total} mistakes, {noticed} noticed by {} records, {same} argued to change no answer, \
         {faults} unexplained",
        asked.len()
    ));
    Some(faults == 0)
}

/// Stages that come more than once are counted together, where they come first.
fn joined(stages: Vec<(&str, [usize; 4])>) -> Vec<(&str, [usize; 4])> {
    let mut out: Vec<(&str, [usize; 4])> = Vec::new();
    for (stage, counts) in stages {
        match out.iter_mut().find(|s| s.0 == stage) {
            Some((_, sums)) => {
                for (sum, count) in sums.iter_mut().zip(counts) {
                    *sum += count;
                }
            }
            None => out.push((stage, counts)),
        }
    }
    out
}

/// The mistakes that change no answer, with the reason.
pub fn table(mut line: impl FnMut(String)) {
    line("| number | stage | mistake | why it changes no answer |".into());
    line("|---:|---|---|---|".into());
    for mistake in all() {
        if let Some(why) = mistake.wrong.same {
            line(format!(
                "| {} | {} | {} | {why} |",
                mistake.number, mistake.stage, mistake.wrong.words
            ));
        }
    }
}

/// Chooses, for each kind, places of the random sequence of `seed` so that the kind's records notice
/// every mistake that one of the first `count` inputs notices. Each line is a kind's number and the
/// chosen places, where any are needed.
pub fn choose(kinds: &[&'static Kind], count: u64, seed: u64, mut line: impl FnMut(String)) {
    let mistakes = all();
    let mistakes: Vec<&Mistake> = mistakes.iter().filter(|m| m.wrong.same.is_none()).collect();
    let mut missed: BTreeSet<u16> = mistakes.iter().map(|m| m.number).collect();
    for kind in kinds {
        let chosen = quietly(|| choose_of(kind, &mistakes, &mut missed, count, seed));
        if !chosen.is_empty() {
            let places: String = chosen.iter().map(|place| format!(" {place}")).collect();
            line(format!("{}{places}", kind.number));
        }
    }
    for mistake in mistakes {
        if missed.contains(&mistake.number) {
            eprintln!(
                "{} {}: {}: noticed by nothing drawn",
                mistake.number, mistake.stage, mistake.wrong.words
            );
        }
    }
}

/// A single window is answered fast, and the fractions that decide there are rare.
fn draws(kind: &Kind, count: u64) -> u64 {
    match kind.number {
        33 | 34 => 20 * count,
        _ => count,
    }
}

fn choose_of(
    kind: &'static Kind,
    mistakes: &[&Mistake],
    missed: &mut BTreeSet<u16>,
    count: u64,
    seed: u64,
) -> Vec<u64> {
    // What is in the list in any case; the full one is left out, which takes long.
    let mut open: Vec<&Mistake> = mistakes.to_vec();
    let mut certain = replay::certain(kind, seed);
    certain.pop();
    for input in certain {
        let asked = Asked::new(kind, input);
        open.retain(|m| !asked.notices(m));
    }
    // Each input that notices something new, the short ones first.
    let wanted: BTreeSet<u16> = open.iter().map(|m| m.number).collect();
    let mut drawn: Vec<(u64, Vec<u8>)> = (0..draws(kind, count))
        .map(|index| (index, replay::drawn(kind, seed, index)))
        .filter(|(_, input)| input.len() <= replay::CHOSEN_BYTES)
        .collect();
    drawn.sort_by_key(|(index, input)| (input.len(), *index));
    let mut kept: Vec<(u64, Asked)> = Vec::new();
    let mut tries: HashMap<u16, u32> = HashMap::new();
    for (index, input) in drawn {
        let asked = Asked::new(kind, input);
        let before = open.len();
        open.retain(|m| {
            let tried = tries.entry(m.number).or_insert(0);
            *tried += u32::from(asked.passes(m));
            // What another kind notices need not be looked for here forever.
            let enough = *tried > TRIES && !missed.contains(&m.number);
            enough || !asked.notices(m)
        });
        if open.len() < before {
            kept.push((index, asked));
        }
    }
    let still: BTreeSet<u16> = open.iter().map(|m| m.number).collect();
    missed.retain(|m| still.contains(m));
    // Of those, the ones that notice most for their size until nothing is left.
    let mut left: BTreeSet<u16> = wanted.difference(&still).copied().collect();
    let noticed: Vec<BTreeSet<u16>> = kept
        .iter()
        .map(|(_, asked)| {
            let of = mistakes
                .iter()
                .filter(|m| left.contains(&m.number) && asked.notices(m));
            of.map(|m| m.number).collect()
        })
        .collect();
    let mut chosen = Vec::new();
    while !left.is_empty() {
        let worth = |k: usize| {
            let size = kept[k].1.input.len() + kept[k].1.answer.len() + 100;
            noticed[k].intersection(&left).count() * 1_000_000 / size
        };
        let best = (0..kept.len()).max_by_key(|&k| (worth(k), usize::MAX - k));
        let Some(best) = best else { break };
        for number in &noticed[best] {
            left.remove(number);
        }
        chosen.push(kept[best].0);
    }
    chosen.sort_unstable();
    chosen
}

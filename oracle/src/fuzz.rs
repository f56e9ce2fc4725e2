//! Random inputs, answered by both sides.

use crate::bytes::hex;
use crate::calls;
use crate::generate;
use crate::kinds::{Form, Kind};
use crate::random::Random;
use crate::rattle;

/// What came of comparing one kind.
pub enum Outcome {
    /// How many single comparisons agreed.
    Agree(u64),
    Differ(Difference),
    /// Nothing on the other side answers this kind.
    NoOther,
}

/// Where the two sides differ, on an input made as small as cutting items out makes it.
pub struct Difference {
    pub input: Vec<u8>,
    pub reference: Vec<u8>,
    pub other: Vec<u8>,
    /// The place in the random sequence; none for a fixed input.
    pub index: Option<u64>,
}

impl Difference {
    pub fn describe(&self, kind: &Kind, seed: u64) -> String {
        let again = match self.index {
            Some(index) => format!("judge fuzz {} 1 {seed} {index}", kind.number),
            None => format!("judge fuzz {} 0 {seed}", kind.number),
        };
        let other = match &self.other[..] {
            [] => "no answer".to_string(),
            bytes => hex(bytes),
        };
        format!(
            "{}: a difference\n  again      {again}\n  input      {}\n  reference  {}\n  other      {other}",
            kind.name,
            hex(&self.input),
            hex(&self.reference),
        )
    }
}

/// Compares the fixed inputs and `count` random ones from place `first` on.
pub fn compare(kind: &Kind, count: u64, seed: u64, first: u64) -> Outcome {
    let fixed = generate::fixed(kind.number).into_iter().map(|i| (i, None));
    let random = (first..first + count).map(|index| {
        let mut random = Random::of(seed, kind.number, index);
        (generate::input(kind.number, &mut random), Some(index))
    });
    let mut agreed = 0;
    for (input, index) in fixed.chain(random) {
        match both(kind, &input) {
            None => return Outcome::NoOther,
            Some((reference, other)) if reference == other => {
                agreed += kind.comparisons(&input) as u64;
            }
            Some((reference, other)) => {
                let found = Difference {
                    input,
                    reference,
                    other,
                    index,
                };
                return Outcome::Differ(smaller(kind, found));
            }
        }
    }
    Outcome::Agree(agreed)
}

/// Both answers, the reference's first; none where one side has none.
fn both(kind: &Kind, input: &[u8]) -> Option<(Vec<u8>, Vec<u8>)> {
    let reference = kind.answer(input)?;
    Some((reference, rattle::answer(kind.number, input)?))
}

/// Asks the other side for the chain's answer to takes and to the same times a whole number. How
/// many were asked and of how many samples changed the answer at all, or the place of a take whose
/// two answers differ.
pub fn scaled(count: u64, seed: u64) -> Result<(u64, u64), u64> {
    let mut recovered = 0;
    for index in 0..count {
        let mut random = Random::of(seed, CHAIN, index);
        let [silent, one, other] = calls::scaled(&mut random);
        let answer = |input: &[u8]| rattle::answer(CHAIN, input);
        let first = answer(&one);
        if first != answer(&other) {
            return Err(index);
        }
        recovered += u64::from(first != answer(&silent));
    }
    Ok((count, recovered))
}

/// Asks the bindings for answers to calls whose region is at least 2^32 at one end or both, though its
/// lower 32 bits are a region that could be admitted: which is refused with 7 or a lower number. How
/// many were asked, or the kind and the place of one that is answered otherwise.
#[cfg(feature = "bindings")]
pub fn wide(count: u64, seed: u64) -> Result<u64, (u8, u64)> {
    let mut asked = 0;
    for kind in [40, 41, 42, 43] {
        let known = Kind::by_number(kind).expect("an entry's kind");
        // The region's place in the input: behind the settings, where there are any.
        let at = if kind == 43 { 0 } else { 12 };
        for index in 0..count {
            let mut r = Random::of(seed, kind, index);
            let mut input = generate::input(kind, &mut r);
            let end = |k: usize| {
                let bytes = input[at + 4 * k..][..4].try_into().expect("four bytes");
                u64::from(u32::from_be_bytes(bytes))
            };
            let turns = [(0, 1), (1, 0), (1, 1), (1, 2), (2, 1), (u32::MAX, u32::MAX)];
            let (x, y) = r.pick(&turns);
            let start = end(0) + (u64::from(x) << 32);
            let end = end(1) + (u64::from(y) << 32);
            // No frame lies beyond 32 bits, so that the largest number of them says the same.
            for (k, v) in [start, end].into_iter().enumerate() {
                let most = u32::try_from(v).unwrap_or(u32::MAX);
                input[at + 4 * k..][..4].copy_from_slice(&most.to_be_bytes());
            }
            let wanted = known.answer(&input);
            let region = |_| start as usize..end as usize;
            if wanted != crate::bindings::answer_in(kind, &input, region) {
                return Err((kind, index));
            }
            asked += 1;
        }
    }
    Ok(asked)
}

/// The number of the chain's kind.
const CHAIN: u8 = 48;

/// Cuts items out, half of them at first and then fewer, as long as a difference stays.
fn smaller(kind: &Kind, mut found: Difference) -> Difference {
    let Form::Items { head, item } = kind.form else {
        return found;
    };
    let items = |input: &[u8]| (input.len() - head) / item;
    let mut cut = items(&found.input) / 2;
    while cut > 0 {
        let mut at = 0;
        while at + cut <= items(&found.input) {
            let from = head + at * item;
            let mut less = found.input.clone();
            less.drain(from..from + cut * item);
            match both(kind, &less) {
                Some((reference, other)) if reference != other => {
                    found = Difference {
                        input: less,
                        reference,
                        other,
                        index: found.index,
                    };
                }
                _ => at += cut,
            }
        }
        cut /= 2;
    }
    found
}

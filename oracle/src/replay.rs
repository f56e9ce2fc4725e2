//! The replay list: a fixed sample of inputs with the reference's answers, for tests that have no
//! Rust at hand. Records follow each other to the end: kind (u8), length of the input (u32), the
//! input, length of the answer (u32), the answer.

use crate::bytes::{Reader, Writer};
use crate::generate;
use crate::kinds::{Kind, MAX_BYTES};
use crate::random::Random;

/// Random inputs of each kind, besides the fixed ones, the chosen ones and one that is full.
const SHORT: usize = 8;
/// Longer ones of these are left to the full one, so that the list stays small.
const SHORT_BYTES: usize = 1024;
/// No chosen input is longer.
pub const CHOSEN_BYTES: usize = 6144;
/// The places in the random sequence of seed 1 of inputs that notice what the others do not, a line
/// for each kind; `judge choose` writes it.
const CHOSEN: &str = include_str!("../chosen.txt");
const CHOSEN_SEED: u64 = 1;

/// The list of some kinds made from a seed.
pub fn list(seed: u64, kinds: &[&Kind]) -> Vec<u8> {
    kinds.iter().flat_map(|kind| of_kind(kind, seed)).collect()
}

fn of_kind(kind: &Kind, seed: u64) -> Vec<u8> {
    let chosen = chosen(kind.number, seed);
    let chosen = chosen.map(|index| drawn(kind, seed, index));
    let inputs = certain(kind, seed).into_iter().chain(chosen);
    inputs.flat_map(|input| record(kind, &input)).collect()
}

/// What the list has of a kind in any case: the fixed inputs, some short ones, and one that is full.
pub fn certain(kind: &Kind, seed: u64) -> Vec<Vec<u8>> {
    let fixed = generate::fixed(kind.number);
    let short = (0..)
        .map(|index| drawn(kind, seed, index))
        .filter(|input| input.len() <= SHORT_BYTES)
        .take(SHORT);
    let full = generate::full(kind.number, &mut Random::of(seed, kind.number, u64::MAX));
    fixed.into_iter().chain(short).chain([full]).collect()
}

/// The input at one place of the random sequence.
pub fn drawn(kind: &Kind, seed: u64, index: u64) -> Vec<u8> {
    generate::input(kind.number, &mut Random::of(seed, kind.number, index))
}

/// The places chosen for a kind; they were chosen for one seed only.
fn chosen(kind: u8, seed: u64) -> impl Iterator<Item = u64> {
    let line = CHOSEN.lines().map(|line| {
        let mut numbers = line.split(' ').filter_map(|word| word.parse().ok());
        (numbers.next(), numbers)
    });
    line.filter(move |(number, _)| *number == Some(kind.into()) && seed == CHOSEN_SEED)
        .flat_map(|(_, places)| places)
}

fn record(kind: &Kind, input: &[u8]) -> Vec<u8> {
    let answer = kind
        .answer(input)
        .expect("what is drawn has its kind's form");
    assert!(input.len() <= MAX_BYTES && answer.len() <= MAX_BYTES);
    let mut record = Writer::new().u8(kind.number).size(input.len());
    record.bytes.extend(input);
    let mut record = record.size(answer.len());
    record.bytes.extend(answer);
    record.bytes
}

/// A record of a list.
pub struct Record<'a> {
    pub kind: &'static Kind,
    pub input: &'a [u8],
    pub answer: &'a [u8],
}

/// The records of a list; none where it is not one.
pub fn read(list: &[u8]) -> Option<Vec<Record<'_>>> {
    let mut r = Reader::new(list);
    let mut out = Vec::new();
    while r.left() > 0 {
        let kind = Kind::by_number(r.u8()?)?;
        let input = r.size()?;
        let input = r.bytes(input)?;
        let answer = r.size()?;
        let answer = r.bytes(answer)?;
        out.push(Record {
            kind,
            input,
            answer,
        });
    }
    Some(out)
}

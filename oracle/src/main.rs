//! The commands.

use judge::fuzz::Outcome;
use judge::kinds::Kind;
#[cfg(feature = "mistakes")]
use judge::mistakes;
use judge::{bench, cases, fuzz, pipe, rattle, replay, take};
use std::fs;
use std::io::{self, Read, Write};
use std::process::ExitCode;

const USAGE: &str = "\
judge COMMAND
  cases                             the specification's cases on the reference
  marks [SOUND]                     take file on standard input, listing on standard output; SOUND is a WAV file
  replay [SEED [KINDS]]             the replay list to standard output (SEED 1, KINDS 1-56)
  fuzz KINDS COUNT SEED [FIRST]     fixed inputs and COUNT random ones of each kind, both sides,
                                    from place FIRST (0) of the random sequence on
  scaled COUNT SEED                 the library's chain on COUNT takes and on each times a whole
                                    number: the answers must be equal
  pipe PROGRAM COUNT SEED           a program on COUNT take files through pipes, and on an empty
                                    one, one of 7 bytes and one of 5 MB: it must print the listing
  wide COUNT SEED                   COUNT calls of each entry that takes a region, through the Rust
                                    bindings, with a region that 32 bits do not hold
  mistakes [LIST]                   planted mistakes, one at a time: which of them the replay list
                                    (crates/compare_replay/stdin) does not notice
  choose COUNT [KINDS]              of COUNT random inputs of each kind those that notice most, as the
                                    lines of oracle/chosen.txt
  bench [WORDS]                     both sides' times, of stages and takes whose line holds WORDS
KINDS are numbers, ranges of them or names of README.md's table, with commas between, or `all`.
fuzz, scaled and bench ask the static library where it is linked (feature `rattle`); fuzz, scaled and
wide its Rust bindings under the feature `bindings`; mistakes and choose need the feature `mistakes`.
The script `run` sees to that.
Exit status: 0 all as it should be, 1 a case or a comparison failed, 2 bad usage.";

/// The seed and the kinds of the replay list, where none are named.
const SEED: u64 = 1;
const SMALL: &str = "1-56";
/// Where the gate keeps the list.
#[cfg(feature = "mistakes")]
const LIST: &str = concat!(
    env!("CARGO_MANIFEST_DIR"),
    "/../crates/compare_replay/stdin"
);

fn main() -> ExitCode {
    let words: Vec<String> = std::env::args().skip(1).collect();
    let words: Vec<&str> = words.iter().map(String::as_str).collect();
    match run(&words) {
        Some(Ok(true)) => ExitCode::SUCCESS,
        Some(Ok(false)) => ExitCode::from(1),
        Some(Err(e)) => {
            eprintln!("judge: {e}");
            ExitCode::from(2)
        }
        None => {
            eprintln!("{USAGE}");
            ExitCode::from(2)
        }
    }
}

/// Whether all was as it should be; `None` where the words are no command.
fn run(words: &[&str]) -> Option<io::Result<bool>> {
    Some(match words {
        ["cases"] => Ok(run_cases()),
        ["marks"] => marks(&[]),
        ["marks", sound] => fs::read(sound).and_then(|wav| marks(&take::samples(&wav))),
        ["replay"] => run_replay(SEED, SMALL)?,
        ["replay", seed] => run_replay(seed.parse().ok()?, SMALL)?,
        ["replay", seed, kinds] => run_replay(seed.parse().ok()?, kinds)?,
        ["fuzz", kind, count, seed] => run_fuzz(kind, count, seed, "0")?,
        ["fuzz", kind, count, seed, first] => run_fuzz(kind, count, seed, first)?,
        ["scaled", count, seed] => run_scaled(count.parse().ok()?, seed.parse().ok()?),
        ["pipe", program, count, seed] => {
            run_pipe(program, count.parse().ok()?, seed.parse().ok()?)
        }
        #[cfg(feature = "bindings")]
        ["wide", count, seed] => run_wide(count.parse().ok()?, seed.parse().ok()?),
        #[cfg(feature = "mistakes")]
        ["mistakes"] => run_mistakes(LIST),
        #[cfg(feature = "mistakes")]
        ["mistakes", list] => run_mistakes(list),
        #[cfg(feature = "mistakes")]
        ["choose", count] => run_choose(count.parse().ok()?, "all")?,
        #[cfg(feature = "mistakes")]
        ["choose", count, kinds] => run_choose(count.parse().ok()?, kinds)?,
        ["bench", only @ ..] => {
            bench::table(&only.join(" "), |line| println!("{line}"));
            Ok(true)
        }
        _ => return None,
    })
}

fn out(bytes: &[u8]) -> io::Result<bool> {
    io::stdout().write_all(bytes).map(|()| true)
}

fn marks(samples: &[i16]) -> io::Result<bool> {
    let mut file = Vec::new();
    io::stdin().read_to_end(&mut file)?;
    out(take::listing_with(&file, samples).as_bytes())
}

fn run_cases() -> bool {
    let cases = cases::all();
    for case in &cases {
        match &case.outcome {
            Ok(()) => println!("{:<7}ok     {}", case.name, case.what),
            Err(why) => println!("{:<7}WRONG  {}: {why}", case.name, case.what),
        }
    }
    let wrong = cases.iter().filter(|c| c.outcome.is_err()).count();
    println!("{} cases, {wrong} wrong", cases.len());
    wrong == 0
}

fn run_replay(seed: u64, kinds: &str) -> Option<io::Result<bool>> {
    Some(out(&replay::list(seed, &Kind::by_words(kinds)?)))
}

fn run_scaled(count: u64, seed: u64) -> io::Result<bool> {
    let found = fuzz::scaled(count, seed);
    match found {
        Ok((pairs, recovered)) => {
            println!("{pairs} takes answered alike times a whole number, {recovered} of them with recovered pitches");
        }
        Err(index) => {
            println!("take {index} of seed {seed} is answered otherwise times a whole number")
        }
    }
    Ok(found.is_ok())
}

#[cfg(feature = "bindings")]
fn run_wide(count: u64, seed: u64) -> io::Result<bool> {
    let found = fuzz::wide(count, seed);
    match found {
        Ok(calls) => {
            println!("{calls} calls with a region beyond 32 bits refused as they should be")
        }
        Err((kind, index)) => {
            println!("call {index} of kind {kind} and seed {seed} is answered otherwise with a region beyond 32 bits");
        }
    }
    Ok(found.is_ok())
}

#[cfg(feature = "mistakes")]
fn run_mistakes(list: &str) -> io::Result<bool> {
    let list = std::fs::read(list)?;
    mistakes::table(|line| println!("{line}"));
    match mistakes::report(&list, |line| println!("{line}")) {
        Some(explained) => Ok(explained),
        None => {
            println!("this is no list of records with the judge's own answers");
            Ok(false)
        }
    }
}

#[cfg(feature = "mistakes")]
fn run_choose(count: u64, kinds: &str) -> Option<io::Result<bool>> {
    mistakes::choose(&Kind::by_words(kinds)?, count, SEED, |line| {
        println!("{line}")
    });
    Some(Ok(true))
}

fn run_pipe(program: &str, count: u64, seed: u64) -> io::Result<bool> {
    let found = pipe::compare(program, count, seed)?;
    match &found {
        Ok(files) => println!("{program}: {files} files listed as they should be"),
        Err(what) => println!("{program}: {what} is listed otherwise"),
    }
    Ok(found.is_ok())
}

fn run_fuzz(kinds: &str, count: &str, seed: &str, first: &str) -> Option<io::Result<bool>> {
    let (count, seed) = (count.parse().ok()?, seed.parse().ok()?);
    let first = first.parse().ok()?;
    let kinds = Kind::by_words(kinds)?;
    println!("the reference against {}", rattle::SIDE);
    let mut all_agree = true;
    for kind in kinds {
        match fuzz::compare(kind, count, seed, first) {
            Outcome::Agree(agreed) => println!("{}: {agreed} answers agree", kind.name),
            Outcome::NoOther => println!("{}: nothing to compare with", kind.name),
            Outcome::Differ(difference) => {
                println!("{}", difference.describe(kind, seed));
                all_agree = false;
            }
        }
    }
    Some(Ok(all_agree))
}

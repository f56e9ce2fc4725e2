//! A program that reads a take file on standard input and prints its listing, run as others run it.

use crate::generate;
use crate::random::Random;
use crate::take::listing;
use std::io::{self, ErrorKind, Write};
use std::process::{Command, Stdio};
use std::thread;

/// The number of the take files' kind.
const FILE: u8 = 56;

/// How many files were listed as they should be, or which one was not.
pub fn compare(program: &str, count: u64, seed: u64) -> io::Result<Result<usize, String>> {
    let named = [
        ("an empty file", vec![]),
        ("a file of 7 bytes", vec![0, 0, 0, 15, 1, 0, 0]),
        ("a file of 5 MB", vec![1; 5_000_000]),
    ];
    let named = named.map(|(name, file)| (name.to_string(), file));
    let fixed = generate::fixed(FILE).into_iter();
    let fixed = fixed.map(|file| ("a fixed file".to_string(), file));
    let random = (0..count).map(|index| {
        let file = generate::input(FILE, &mut Random::of(seed, FILE, index));
        (format!("file {index} of seed {seed}"), file)
    });
    let mut files = 0;
    for (name, file) in named.into_iter().chain(fixed).chain(random) {
        let wanted = listing(&file);
        if printed(program, file)? != wanted.as_bytes() {
            return Ok(Err(name));
        }
        files += 1;
    }
    Ok(Ok(files))
}

/// What the program prints for a file. It may stop reading before the end.
fn printed(program: &str, file: Vec<u8>) -> io::Result<Vec<u8>> {
    let mut child = Command::new(program)
        .stdin(Stdio::piped())
        .stdout(Stdio::piped())
        .spawn()?;
    let mut input = child.stdin.take().expect("the pipe that was asked for");
    let writer = thread::spawn(move || match input.write_all(&file) {
        Err(e) if e.kind() != ErrorKind::BrokenPipe => Err(e),
        _ => Ok(()),
    });
    let output = child.wait_with_output()?;
    writer.join().expect("the writer does not panic")?;
    Ok(output.stdout)
}

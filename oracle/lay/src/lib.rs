//! Build help: copies the reference's files into a crate's output folder, makes the edits, and
//! writes the `mod` lines that the crate includes. So the reference is compiled from where it is
//! kept and no line of it is kept here. Under the feature `mistakes` the planted mistakes are laid
//! in too, also in files of our own.

mod edits;
pub mod mistakes;

use edits::{CRATES, EDITS, PROBES};
use mistakes::{Place, PLACES};
use std::env;
use std::fs;
use std::path::{Path, PathBuf};
use std::process::exit;

/// Names the folder of the reference; a relative one is taken from the project's root.
const VARIABLE: &str = "KIDDWYR_REFERENCE";
/// Where the reference is looked for otherwise, from the project's root.
const DEFAULT: &str = "../shared/docs/src";

/// For a build script: lays out the reference's crate `name` as `modules.rs` and its files in
/// `OUT_DIR`.
pub fn lay(name: &str) {
    let from = reference().join("crates").join(name).join("src");
    println!("cargo::rerun-if-env-changed={VARIABLE}");
    let Some((_, files)) = CRATES.iter().find(|(known, _)| *known == name) else {
        stop(&format!("{name} is no crate of the reference"));
    };
    lay_files(name, &from, files, "mod");
}

/// For a build script: lays out files of the crate `name` of our own with the mistakes in them.
pub fn lay_own(name: &str, files: &[&str]) {
    let crate_folder = env::var_os("CARGO_MANIFEST_DIR").expect("a build script has its folder");
    lay_files(
        name,
        &Path::new(&crate_folder).join("src"),
        files,
        "pub mod",
    );
}

fn lay_files(name: &str, from: &Path, files: &[&str], word: &str) {
    let out = PathBuf::from(env::var_os("OUT_DIR").expect("a build script has OUT_DIR"));
    let mut modules = String::new();
    for file in files {
        let source = from.join(format!("{file}.rs"));
        println!("cargo::rerun-if-changed={}", source.display());
        let text = fs::read_to_string(&source).unwrap_or_else(|e| stop(&missing(&source, &e)));
        let laid = out.join(format!("{file}.rs"));
        let known = format!("{name}/src/{file}.rs");
        let mut text = edited(&known, text);
        if env::var_os("CARGO_FEATURE_MISTAKES").is_some() {
            text = planted(&known, text);
        }
        write(&laid, &text);
        // Constants that only an edited line read are left unused, and a choice has its own look.
        let quiet = "#[allow(dead_code, unused_braces, unused_parens, clippy::all)]";
        modules += &format!("{quiet}\n#[path = {laid:?}]\n{word} {file};\n");
    }
    write(&out.join("modules.rs"), &modules);
}

fn reference() -> PathBuf {
    let root = Path::new(env!("CARGO_MANIFEST_DIR")).join("../..");
    root.join(env::var_os(VARIABLE).unwrap_or_else(|| DEFAULT.into()))
}

fn missing(source: &Path, why: &std::io::Error) -> String {
    format!(
        "the reference Rust is not there: {} ({why}). Set {VARIABLE} to the folder that holds \
         its `crates`, absolute or from the project's root; without it {DEFAULT} is taken.",
        source.display()
    )
}

/// `text` of `file` with its edits and, at its end, its probe.
fn edited(file: &str, mut text: String) -> String {
    for edit in EDITS.iter().filter(|e| e.file == file) {
        let at = only(file, &text, edit.old);
        text.replace_range(at..at + edit.old.len(), edit.new);
    }
    for probe in PROBES.iter().filter(|p| p.file == file) {
        text += probe.text;
    }
    text
}

/// Where `text` of `file` holds `old`, which it does exactly once.
fn only(file: &str, text: &str, old: &str) -> usize {
    let times = text.matches(old).count();
    if times != 1 {
        stop(&format!(
            "{file} holds {old:?} {times} times, not once: this is not the file that the edits \
             were written for."
        ));
    }
    text.find(old).unwrap_or(0)
}

/// `text` of `file` with a choice at every planted place. Places do not overlap.
fn planted(file: &str, mut text: String) -> String {
    let mut first = 1;
    let mut choices = Vec::new();
    for place in PLACES {
        if place.file == file {
            let (before, marked, after) = place.parts();
            let old = [before, marked, after].concat();
            let start = only(file, &text, &old) + before.len();
            choices.push((start, start + marked.len(), choice(place, first, marked)));
        }
        first += place.wrong.len();
    }
    choices.sort_by_key(|choice| choice.0);
    if let Some(w) = choices.windows(2).find(|w| w[0].1 > w[1].0) {
        stop(&format!("{file} has two places that overlap: {}", w[1].2));
    }
    // From the end, so that what comes before stays where it is.
    for (start, end, choice) in choices.iter().rev() {
        text.replace_range(start..end, choice);
    }
    text
}

/// What stands at a place: each mistake under its number, else what was there.
fn choice(place: &Place, first: usize, right: &str) -> String {
    let wrong = place.wrong.iter().enumerate();
    let wrong: String = wrong
        .map(|(k, w)| format!("{} => {{ {} }}\n", first + k, w.new))
        .collect();
    let choice = format!("match planted::at({first}) {{\n{wrong}_ => {{ {right} }}\n}}");
    match right.chars().last() {
        // Statements, or a place where one can stand; or a block, which needs no more.
        None | Some(';' | '}') => choice,
        _ => format!("({choice})"),
    }
}

fn write(path: &Path, text: &str) {
    fs::write(path, text).unwrap_or_else(|e| stop(&format!("{}: {e}", path.display())));
}

/// Ends the build with one message, which cargo takes for the failure.
fn stop(message: &str) -> ! {
    println!("cargo::error={}", message.replace('\n', " "));
    exit(0)
}

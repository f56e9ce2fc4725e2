//! The reference's tonekit-core, laid out by the build script, and its names.

include!(concat!(env!("OUT_DIR"), "/modules.rs"));

pub use signal::*;
pub use syllable_runs::{syllable_runs, SyllableRun, PITCH_BREAK_ST};

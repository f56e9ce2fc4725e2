//! The reference's tonekit-f0, laid out by the build script, and its names.

include!(concat!(env!("OUT_DIR"), "/modules.rs"));

pub mod probe;
pub use recover::recover_pitch;
pub use repair::repair_octaves;

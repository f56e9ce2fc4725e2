//! The reference's tonekit-segment, laid out by the build script, and its names.

include!(concat!(env!("OUT_DIR"), "/modules.rs"));

pub mod probe;
pub use boundaries::{boundaries, boundaries_with};
pub use extra::{extra_candidates, ExtraCandidates};
pub use nuclei::nuclei;
pub use region::{speech_frames, speech_region, speech_threshold, SegmentParams};

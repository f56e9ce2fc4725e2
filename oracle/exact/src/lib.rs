//! The reference's logarithm tests over exact values.

#[cfg(not(feature = "mistakes"))]
mod powers;
#[cfg(feature = "mistakes")]
include!(concat!(env!("OUT_DIR"), "/modules.rs"));

pub use powers::*;

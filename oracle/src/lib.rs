//! The judge: the reference, our reading of the specification on top of it, and the comparison of
//! the Rattle side with both.

pub mod bench;
#[cfg(feature = "bindings")]
pub mod bindings;
pub mod bytes;
pub mod calls;
pub mod cases;
pub mod fuzz;
pub mod generate;
pub mod limits;
#[cfg(feature = "mistakes")]
pub mod mistakes;
pub mod pipe;
pub mod random;
pub mod rattle;
pub mod replay;
pub mod second;
pub mod speech;
pub mod stages;

#[cfg(not(feature = "mistakes"))]
pub mod entry;
#[cfg(not(feature = "mistakes"))]
pub mod kinds;
#[cfg(not(feature = "mistakes"))]
pub mod take;
// With the mistakes planted in them.
#[cfg(feature = "mistakes")]
include!(concat!(env!("OUT_DIR"), "/modules.rs"));

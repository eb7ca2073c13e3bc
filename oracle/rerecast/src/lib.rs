//! The watershed part of `rerecast`, unchanged, over the smallest types that carry it.
//!
//! `region.rs`, `watershed_distance_field.rs` and `watershed_build_regions.rs` are rerecast's own files, byte for byte.
//! The rest stands in for what they use.

extern crate alloc;

mod compact_heightfield;
mod math;
mod region;
mod span;
mod watershed_build_regions;
include!(concat!(env!("OUT_DIR"), "/distance_module.rs"));

pub use compact_heightfield::{CompactCell, CompactHeightfield, CompactSpan};
pub use region::RegionId;
pub use span::AreaType;
pub use watershed_build_regions::BuildRegionsError;

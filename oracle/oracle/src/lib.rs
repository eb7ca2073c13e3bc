//! Answers of the unchanged Rust watershed, in the terms of document 01.

pub mod damage;
pub mod doors;
pub mod field;
pub mod file;
pub mod levels;
pub mod listing;
pub mod mending;
pub mod model;
pub mod pieces;
pub mod plain;
pub mod refusals;
pub mod rng;
pub mod run;
pub mod samples;
pub mod sizes;
pub mod sketch;
pub mod stored;
pub mod vectors;

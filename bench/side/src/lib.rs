//! Gussetraft and the unchanged Rust on the same levels.

pub mod door;
pub mod level;
pub mod measured;
pub mod rooms;
pub mod run;
pub mod stored;
pub mod timed;

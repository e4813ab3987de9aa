//! The model: document 01 in plain Rust, in 01's order and words, written from 01 alone,
//! and from 02 where a request changes it. A file for each of 01's sections.
//! The proved programs are compared with it. It is meant to be read beside the paper, so
//! it is simple and not fast: lines and trackers are enums, and who holds a map block is
//! found by asking every tracker. Refusals are 01's numbers. `draw` is no part of the model:
//! it has the random memories and damaged images of the tests.

#![allow(dead_code, unused_imports)]

mod archive;
mod cache;
pub mod draw;
mod memory;
mod replay;
mod step;

pub use archive::*;
pub use cache::*;
pub use memory::*;
pub use replay::*;

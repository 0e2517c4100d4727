//! The independent model of the plan reader and of the engine, and what compares it with the proved library.
//!
//! The model is written from document 01 and shares no code with the proved crates. Where document 01 leaves a state that no run reaches open it was made to
//! answer as the proved engine does (the list stands in `order.rs`), and its reader of texts was written with the desk's in view.
//!
//! - `cargo test --offline` checks the model by itself; no library is needed.
//! - `model/run compare [SEED] [COUNT]` asks the library in a process of its own.
//! - `model/run writing [SEED] [COUNT]` does so for the writer.
//! - `model/run texts [SEED] [COUNT]` asks the desk, for plans as text.
//! - `model/run mend [SEED] [COUNT]` does so for the mending of padded plans.
//! - `model/run engine [SEED] [COUNT]` does so for runs of the engine.
//! - `model/run bench` links `libboundary.a`, on x86-64.

#![deny(unsafe_code)]

pub mod answers;
pub mod calls;
pub mod comparison;
pub mod describe;
pub mod edges;
pub mod engine;
pub mod full;
pub mod fullest;
pub mod generate;
pub mod layout;
pub mod lively;
pub mod mending;
pub mod order;
pub mod packed;
pub mod plan;
pub mod process;
pub mod reader;
pub mod rows;
pub mod scenarios;
pub mod scramble;
pub mod state;
pub mod text;
pub mod vectors;
pub mod wander;

#[cfg(feature = "library")]
#[allow(unsafe_code)]
pub mod boundary;

#[cfg(feature = "writing")]
#[allow(unsafe_code)]
pub mod boundary_writer;

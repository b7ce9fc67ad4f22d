//! The crate unopus, our proved library and libopus in one process.
//!
//! The crate's modules stand at the root, since its files name one another by `crate::silk::..`.

include!(concat!(env!("OUT_DIR"), "/unopus.rs"));

pub mod board;
pub mod bytes;
pub mod coder;
pub mod compare;
pub mod counters;
pub mod domain;
#[cfg(libopus)]
pub mod encoder;
pub mod frames;
pub mod hold;
#[cfg(libopus)]
pub mod libopus;
pub mod models;
pub mod ours;
pub mod packets;
pub mod programs;
pub mod reader;
pub mod record;
pub mod report;
pub mod rng;
pub mod roundtrip;
pub mod row;
pub mod shim;
pub mod spectra;
pub mod state;
mod states;
pub mod tables;
pub mod types;
pub mod unopus;
#[cfg(libopus)]
mod voice;
mod ways;
pub mod writer;

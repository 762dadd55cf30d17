//! The published crate `bus`, with a cartridge of our own and the run's bit cycles.

pub mod cartridge;
pub mod constants;

include!(concat!(env!("OUT_DIR"), "/modules.rs"));

pub use crate::bus::Bus;

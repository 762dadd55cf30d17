//! The published dma.rs over a core of our own.

pub mod logged;
pub mod rsnes;

include!(concat!(env!("OUT_DIR"), "/modules.rs"));

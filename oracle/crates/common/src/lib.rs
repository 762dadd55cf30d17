//! The published crate `common`, as far as its text is held.

include!(concat!(env!("OUT_DIR"), "/modules.rs"));

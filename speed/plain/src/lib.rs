//! Document 01's calls as plain Rust: one machine that is changed in place, the same models, checks and record as the
//! proved library, which is timed against it. The rules follow r-snes, whose licence stands in NOTICE.

mod bus;
mod calls;
mod dma;
mod image;
mod io;
mod joypad;
mod machine;
mod refusals;

pub use bus::{Access, Accesses};
pub use calls::{Cycle, Lent, Moved, page};
pub use machine::{Event, Machine};

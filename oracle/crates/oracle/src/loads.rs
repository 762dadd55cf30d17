//! Whole general transfers (document 02's request 5): the formula, and random set-ups that the published Rust runs.

mod channels;
mod check;
mod draw;
pub mod formula;
mod reached;
mod sides;

pub use check::{Run, check, follow};
pub use draw::{SetUp, set_up};
pub use reached::Reached;

/// Checks `count` set-ups of a seed; the text says what differed first.
pub fn loads(seed: u64, count: u64) -> Result<Reached, String> {
    let mut reached = Reached::default();
    for index in 0..count {
        let run = check(&set_up(seed, index)).map_err(|what| format!("seed {seed}, set-up {index}: {what}"))?;
        reached.add(&run);
    }
    Ok(reached)
}

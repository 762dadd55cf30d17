//! Document 01's calls, record, bench file and trace over the published Rust.

pub mod any_image;
pub mod bench;
pub mod benchfile;
pub mod calls;
pub mod convert;
pub mod coverage;
pub mod figures;
pub mod generator;
pub mod image;
pub mod layout;
pub mod lent;
pub mod listed;
pub mod loads;
pub mod moves;
pub mod page;
pub mod random;
pub mod ranges;
pub mod record;
pub mod refusals;
pub mod row;
pub mod selfcheck;
pub mod sums;
pub mod trace;

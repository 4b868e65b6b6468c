//! Document 01's floor in plain Rust, written from the paper and our readings of its open points, to compare the proved library and the
//! rehearsal with.

#![forbid(unsafe_code)]

pub mod access_point;
pub mod alone;
pub mod floor;
pub mod generator;
pub mod packet;
pub mod refusal;
pub mod script;
pub mod sequence;
pub mod spoiler;
#[cfg(feature = "linked")]
pub mod twins;
pub mod xorshift;

pub use access_point::AccessPoint;
pub use alone::Alone;
pub use floor::{Event, Floor, Reply};
pub use refusal::Refusal;

/// A station's MAC address.
pub type Station = [u8; 6];

//! Documents 01 and 02 in plain Rust, written from the papers alone: the cache machine, lists of accesses in one call, the tape, the drill, the bus and
//! its handler, the messages and the interrupts.
//! It shares no code and no data structure with the proved crates, so that the differential test holds two
//! separate readings of the papers against each other.
#[cfg(feature = "archive")]
pub mod archive;
pub mod batch;
pub mod bus;
pub mod drill;
pub mod handler;
pub mod interrupt;
pub mod machine;
pub mod message;
pub mod random;
pub mod tape;

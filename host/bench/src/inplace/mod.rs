//! The box's functions written by hand in safe Rust, in place: the same slices and layout, the same checks, the same
//! answers as the archive's. Only what crosses the C interface is unsafe, and it is the archive's own interface, so that
//! a call costs the same.

pub mod frames;
pub mod receiver;

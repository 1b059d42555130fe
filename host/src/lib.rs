//! A safe binding of Pikurandal, the proved link layer library of a wall box.
//!
//! - [`Table`] is the LARQ receiver: 64 channels, each putting its frames back into sequence.
//! - [`Station`] keeps the capability sets of one station.
//! - [`rate`] reads and writes rate request frames.
//!
//! The work is done in the archive `libwallbox.a`, each of whose functions is proved to do what is said of it on every
//! input. This crate adds Rust's types, so that safe code cannot break what the archive leaves to its caller: pointers
//! that are valid and aligned, lengths that are theirs, and slices that are apart. Beside them it adds that a table names
//! its open channels, and closes all of them. [`raw`] has the archive's functions as they are, and [`lent`] the channel
//! events on any slices of the caller's.
//!
//! ```
//! use pikurandal::{Channel, Table};
//!
//! let channel = Channel { destination: [2, 0, 0, 0, 0, 1], source: [2, 0, 0, 0, 0, 2], priority: 3 };
//! let mut table = Table::new();
//! assert_eq!(table.data(&channel, 100, 10, 1010)?.up, [1010]); // the first frame opens the channel
//! let gap = table.data(&channel, 101, 12, 1012)?; // number 11 is missing
//! assert_eq!((gap.up, gap.nack), (&[][..], &[11][..]));
//! assert_eq!(table.data(&channel, 105, 11, 1011)?.up, [1011, 1012]);
//! # Ok::<(), pikurandal::Refusal>(())
//! ```

#![deny(unsafe_op_in_unsafe_fn)]
#![warn(missing_docs)]

#[doc(hidden)]
pub mod c;
pub mod lent;
mod numbered;
pub mod rate;
pub mod raw;
mod refusal;
mod station;
mod table;

pub use lent::Channel;
pub use refusal::Refusal;
pub use station::{Frame, Order, Station, Timer};
pub use table::{Answer, Cell, Record, Table};

/// The version of this crate and of the archive that it links.
pub const VERSION: &str = env!("CARGO_PKG_VERSION");

/// Asks for the name that an archive of this major version has, so that one of another does not link.
#[used]
static LINKED: raw::Version = raw::pik_version_1;

//! Holds an implementation of the box's functions against `peer`, the independent second program, on random input.
//!
//! [`lent`] makes random lent tables and calls on them, [`sessions`] random sessions. What differs is a [`Mismatch`],
//! which a seed and an index find again.

#![forbid(unsafe_code)]
#![warn(missing_docs)]

pub mod lent;
pub mod players;
pub mod sessions;

/// The first difference found, or that there was too little to compare.
#[derive(Clone, Debug)]
pub struct Mismatch {
    /// The seed of the material.
    pub seed: u64,
    /// The index of the call or event in it.
    pub index: u64,
    /// What was asked, what the implementation gave, and what `peer` gives.
    pub account: String,
}

impl std::fmt::Display for Mismatch {
    fn fmt(&self, formatter: &mut std::fmt::Formatter<'_>) -> std::fmt::Result {
        let Mismatch { seed, index, account } = self;
        write!(formatter, "seed {seed}, index {index}: {account}")
    }
}

/// The number compared, where it is the number asked for and not 0: no answers at all are always alike.
fn all_of(seed: u64, asked: u64, compared: u64) -> Result<u64, Mismatch> {
    if compared == asked && compared > 0 {
        return Ok(compared);
    }
    Err(Mismatch {
        seed,
        index: compared,
        account: format!("{compared} were compared, of {asked} that were asked for"),
    })
}

#[test]
fn fewer_than_asked_for_are_no_agreement() {
    assert_eq!(all_of(1, 5, 5).ok(), Some(5));
    assert!(all_of(1, 5, 4).is_err());
    assert!(all_of(1, 5, 6).is_err());
    assert!(all_of(1, 0, 0).is_err());
}

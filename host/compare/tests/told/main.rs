//! The comparisons look: an implementation that errs in one thing is told, by that thing, and the archive is not.

#![forbid(unsafe_code)]

mod calls;
mod looks;
mod sessions;

use compare::Mismatch;
use pikurandal::lent::{self, Slices};

const SEED: u64 = 1;

/// What a place has of each slice.
const KEY: usize = lent::KEYS / lent::PLACES;
const WORDS: usize = lent::WORDS / lent::PLACES;
const SLOTS: usize = lent::HANDLES / lent::PLACES;

/// Which of its words is the latest time.
const LATEST: usize = 2;

/// How many calls, looks or events each wrong implementation is tried on.
const TRIED: u64 = 5_000;

/// A comparison has to end with a difference, and its account has to have these words.
fn assert_told(slip: &str, words: &str, compared: Result<u64, Mismatch>) {
    match compared {
        Ok(compared) => panic!("{slip}: {compared} were found to be alike"),
        Err(mismatch) => assert!(
            mismatch.account.contains(words),
            "{slip}: '{words}' is not told: {mismatch}"
        ),
    }
}

/// The same slices, lent once more.
fn lent_again<'a>(slices: &'a mut Slices<'_>) -> Slices<'a> {
    Slices {
        keys: slices.keys,
        words: slices.words,
        handles: slices.handles,
        marks: slices.marks,
    }
}

/// The first free place.
fn free_place(slices: &Slices<'_>) -> Option<usize> {
    slices.keys.chunks(KEY).position(|key| key[0] == 0)
}

//! Numbers in a ring of 4,096, kept as whole numbers (document 01, 'Numbers in a ring of 4,096').

/// How many numbers the ring has: 0 to 4,095.
pub const SIZE: u64 = 4_096;

/// How far ahead or behind a number may lie: twice the window.
pub const REACH: i64 = 64;

/// The waiting window: how many numbers may lie from M to C.
pub const WINDOW: u64 = 32;

/// Whether `number` is a sequence number at all.
pub fn is_number(number: u64) -> bool {
    number < SIZE
}

/// `number` plus `doors`, a sum of sequence numbers taken in the ring.
pub fn step(number: u64, doors: u64) -> u64 {
    (number + doors) % SIZE
}

/// How many steps forward lead from one number to the other: 0 to 4,095.
pub fn forward(from: u64, to: u64) -> u64 {
    (to + SIZE - from) % SIZE
}

/// The distance: `to` minus `from`, modulo 4,096, taken in -2,048 to 2,047.
pub fn distance(from: u64, to: u64) -> i64 {
    let steps = forward(from, to) as i64;
    if steps <= 2_047 {
        steps
    } else {
        steps - SIZE as i64
    }
}

//! Numbers and times for random channel events: the edges of the reach, of the window, of the ring and of patience.

use crate::random::Random;
use crate::record::Record;
use crate::ring;

/// Distances at the edges.
pub const EDGES: [i64; 24] = [
    -2_048, -2_047, -66, -65, -64, -63, -33, -32, -31, -2, -1, 0, 1, 2, 30, 31, 32, 33, 62, 63, 64, 65, 66, 2_047,
];

/// Distances that restart a channel.
pub const FAR: [i64; 6] = [-2_048, -1_000, -65, 65, 1_000, 2_047];

/// The number at a distance from `current`, which may be anything in a table handed in.
pub fn at_distance(current: u64, d: i64) -> u16 {
    ring::step(current % ring::SIZE, d.rem_euclid(ring::SIZE as i64) as u64) as u16
}

/// A number to open a channel with, often near the ring's end.
pub fn opening(random: &mut Random) -> u16 {
    let any = random.below(ring::SIZE) as i64;
    let last = ring::SIZE as i64 - 1;
    let near_the_end = random.pick(&[0, 1, 31, 32, 63, 64, last - 64, last - 40, last - 31, last - 2, last]);
    at_distance(0, random.pick(&[any, near_the_end]))
}

/// A number that is none.
pub fn above(random: &mut Random) -> u16 {
    random.pick(&[4_096, 4_097, 8_191, 32_768 + 11, 65_535])
}

/// A time to open a channel at.
pub fn opening_time(random: &mut Random) -> u64 {
    let small = random.below(1_000);
    let late = u64::MAX - random.below(400);
    random.weighted(&[(20, small), (2, 0), (1, late)])
}

/// A time not before the latest, mostly soon after it.
pub fn later(random: &mut Random, latest: u64) -> u64 {
    let soon = random.below(4);
    let after_a_while = random.below(60);
    let much_later = random.between(140, 400);
    latest.saturating_add(random.weighted(&[(12, 0), (20, soon), (6, after_a_while), (1, much_later)]))
}

/// A time at the edge of what a tick gives up: 149, 150 or 151 after some number was first known missing.
pub fn edge_of_patience(random: &mut Random, record: &Record) -> u64 {
    let times: Vec<u64> = record.missing_times().collect();
    let (first, last) = match (times.first(), times.last()) {
        (Some(&first), Some(&last)) => (first, last),
        _ => return later(random, record.latest),
    };
    let any = random.pick(&times);
    let since = random.pick(&[first, first, last, any]);
    let edge = since.saturating_add(random.pick(&[149, 150, 151]));
    if random.once_in(8) {
        edge
    } else {
        edge.max(record.latest)
    }
}

/// A time before the latest, where there is one.
pub fn earlier(random: &mut Random, latest: u64) -> u64 {
    let just_before = latest.saturating_sub(1);
    let long_before = if latest == 0 { 0 } else { random.below(latest) };
    random.pick(&[just_before, long_before])
}

//! Keys of random channels, many of which differ in one part only.

use crate::random::Random;
use crate::table::{Address, Key};

const DESTINATIONS: [Address; 3] = [[2, 0, 0, 0, 0, 1], [0; 6], [0xff; 6]];

const SOURCES: [Address; 5] = [
    [2, 0, 0, 0, 0, 2],
    [2, 0, 0, 0, 0, 3],
    [2, 0, 0, 0, 0, 1],
    [0; 6],
    [0xff, 0xff, 0xff, 0xff, 0xff, 0xfe],
];

/// One of 120 keys.
pub fn any(random: &mut Random) -> Key {
    Key {
        destination: random.pick(&DESTINATIONS),
        source: random.pick(&SOURCES),
        priority: random.below(8) as u8,
    }
}

/// All 120 keys, more than a table has places for.
pub fn all() -> impl Iterator<Item = Key> {
    let key = |number: usize| Key {
        destination: DESTINATIONS[number / 8 % DESTINATIONS.len()],
        source: SOURCES[number / 8 / DESTINATIONS.len()],
        priority: (number % 8) as u8,
    };
    (0..8 * DESTINATIONS.len() * SOURCES.len()).map(key)
}

/// A key and three that each differ from it in one part.
pub fn family(random: &mut Random) -> [Key; 4] {
    let key = any(random);
    let [x, y, ..] = key.destination;
    [
        key,
        Key {
            destination: [x, y, 0, 0, 7, 7],
            ..key
        },
        Key {
            source: [x, y, 0, 0, 7, 7],
            ..key
        },
        Key {
            priority: 7 - key.priority,
            ..key
        },
    ]
}

//! Random sessions, event by event beside `peer`.

use crate::players::{Given, Player, Second};
use crate::{all_of, Mismatch};
use peer::make::Maker;
use peer::random::Random;
use peer::session::Event;

/// The most octets an output has.
const LARGEST_ROOM: u16 = 1_600;

/// Makes the session of this seed and holds each answer of one who is at a session's start against `peer`'s. Gives the
/// number of events that were compared, which are as many as were asked for.
pub fn compare(
    player: &mut dyn Player,
    seed: u64,
    events: u64,
    mut progress: impl FnMut(u64),
) -> Result<u64, Mismatch> {
    let mut second = Second::begin();
    let mut random = Random::from_seed(seed);
    let mut index = 0;
    for event in Maker::from_seed(seed).take(events as usize) {
        let litter = litter(&mut random, &event);
        let given = played(player, &event, &litter);
        let expected = played(&mut second, &event, &litter);
        agree(&event, given, expected).map_err(|account| Mismatch { seed, index, account })?;
        index += 1;
        progress(index);
    }
    agree(&"a close of every channel", player.close_all(), second.close_all()).map_err(|account| Mismatch {
        seed,
        index,
        account,
    })?;
    all_of(seed, events, index)
}

/// What a request's output holds before: as many octets as it has room for, so that those past the count are seen to stay.
fn litter(random: &mut Random, event: &Event) -> Vec<u8> {
    match event {
        Event::Write(writing) => {
            let room = writing.room.min(LARGEST_ROOM);
            (0..room).map(|_| random.octet()).collect()
        }
        _ => Vec::new(),
    }
}

/// An event's answer, and the output after it.
fn played(player: &mut dyn Player, event: &Event, litter: &[u8]) -> (Given, Vec<u8>) {
    let mut output = litter.to_vec();
    (player.play(event, &mut output), output)
}

/// Agreement, or an account of both answers.
fn agree<T: std::fmt::Debug + PartialEq>(asked: &dyn std::fmt::Debug, given: T, expected: T) -> Result<(), String> {
    if given == expected {
        return Ok(());
    }
    Err(format!("{asked:?} is answered {given:?}; peer: {expected:?}"))
}

//! Random material from a seed: sessions from an empty table that reach deep, and lent tables with calls on them.

mod channels;
mod frames;
mod keys;
mod moods;
mod numbers;
mod requests;
mod stations;
pub mod tables;

use crate::random::Random;
use crate::session::{self, Event};
use channels::Channels;
use stations::Stations;
use std::io::{self, Write};

/// A maker of random sessions: it goes along with the table, so that it knows which numbers and times are at the edges.
#[derive(Clone, Debug)]
pub struct Maker {
    random: Random,
    channels: Channels,
    stations: Stations,
}

/// The parts of the library that an event can be for.
#[derive(Clone, Copy)]
enum Part {
    Channels,
    Stations,
    Read,
    Write,
}

const PARTS: [(u64, Part); 4] = [
    (70, Part::Channels),
    (12, Part::Stations),
    (10, Part::Read),
    (8, Part::Write),
];

impl Maker {
    /// The maker of the session with this seed.
    pub fn from_seed(seed: u64) -> Maker {
        let mut random = Random::from_seed(seed);
        let channels = Channels::begin(&mut random);
        Maker {
            random,
            channels,
            stations: Stations::begin(),
        }
    }
}

impl Iterator for Maker {
    type Item = Event;

    /// The next event; there is always one.
    fn next(&mut self) -> Option<Event> {
        let random = &mut self.random;
        Some(match random.weighted(&PARTS) {
            Part::Channels => self.channels.event(random),
            Part::Stations => self.stations.event(random),
            Part::Read => Event::Read(frames::frame(random)),
            Part::Write => Event::Write(requests::writing(random)),
        })
    }
}

/// How a session's stream ends.
#[derive(Clone, Copy, Debug, PartialEq, Eq)]
pub enum Ending {
    /// Where an entry would begin.
    Whole,
    /// Inside an entry's length or body.
    Cut,
    /// With a body that is unreadable, and some more octets.
    Unreadable,
}

/// Writes the session of this seed: so many events, and then its ending.
pub fn session(seed: u64, events: usize, ending: Ending, output: &mut impl Write) -> io::Result<()> {
    for event in Maker::from_seed(seed).take(events) {
        output.write_all(&session::entry(&event.to_body()))?;
    }
    output.write_all(&self::ending(seed, ending))
}

/// The octets a session's stream ends with, after its events.
pub fn ending(seed: u64, ending: Ending) -> Vec<u8> {
    let mut random = Random::from_seed(!seed);
    let whole = match Maker::from_seed(!seed).next() {
        Some(event) => event.to_body(),
        None => Vec::new(),
    };
    match ending {
        Ending::Whole => Vec::new(),
        Ending::Cut => {
            let mut entry = session::entry(&whole);
            entry.truncate(random.between(1, entry.len() as u64 - 1) as usize);
            entry
        }
        Ending::Unreadable => [session::entry(&unreadable(&mut random)), session::entry(&whole)].concat(),
    }
}

/// A body that is unreadable: empty, of no kind, or of a length that is not its kind's.
fn unreadable(random: &mut Random) -> Vec<u8> {
    let (kind, length) = random.pick(&session::LENGTHS);
    let one_too_many = [vec![kind], vec![0; length]].concat();
    match random.below(4) {
        0 => Vec::new(),
        1 => vec![random.pick(&[0, 12, 255]); random.between(1, 30) as usize],
        2 if kind < 10 => one_too_many,
        _ => one_too_many[..random.below(length as u64) as usize].to_vec(),
    }
}

//! Document 01 held against this program: its runs at the edges, its numbers in order, its frames, sets and tables.

#![forbid(unsafe_code)]

mod capability;
mod edges;
mod lent;
mod numbers;
mod random;
mod rate;
mod ring;
mod session;
mod slips;
mod story;

use peer::answer::Answer;
use peer::receiver::{Act, Buffers, ChannelEvent};
use peer::table::{Key, Table};

/// A key by number: the first 512 differ.
fn key(number: u16) -> Key {
    Key {
        destination: [2, 0, 0, 0, 0, 1],
        source: [2, 0, 0, 0, 0, (number / 8) as u8],
        priority: (number % 8) as u8,
    }
}

/// The handle given with number `s`, so that one can see it in an answer.
fn handle(s: u16) -> u32 {
    1_000_000 + u32::from(s)
}

fn take(table: &mut Table, key: Key, time: u64, act: Act) -> Answer {
    table.take(Buffers::ENOUGH, &ChannelEvent { key, time, act })
}

fn data(table: &mut Table, time: u64, s: u16) -> Answer {
    take(table, key(0), time, Act::Data(s, handle(s)))
}

fn reminder(table: &mut Table, time: u64, s: u16) -> Answer {
    take(table, key(0), time, Act::Reminder(s))
}

fn tick(table: &mut Table, time: u64) -> Answer {
    take(table, key(0), time, Act::Tick)
}

fn close(table: &mut Table, time: u64) -> Answer {
    take(table, key(0), time, Act::Close)
}

/// A table with the fresh record of 'Runs at the edges': C = 10, M = 11, latest time 100.
fn fresh() -> Table {
    let mut table = Table::empty();
    assert_eq!(data(&mut table, 100, 10), up([10]));
    table
}

/// An answer that only hands up these numbers' handles.
fn up(numbers: impl IntoIterator<Item = u16>) -> Answer {
    Answer {
        up: numbers.into_iter().map(handle).collect(),
        ..Answer::default()
    }
}

/// An answer that only returns these numbers' handles.
fn returned(numbers: impl IntoIterator<Item = u16>) -> Answer {
    Answer {
        returned: numbers.into_iter().map(handle).collect(),
        ..Answer::default()
    }
}

/// An answer that only asks for these numbers.
fn nack(numbers: impl IntoIterator<Item = u64>) -> Answer {
    Answer {
        nack: numbers.into_iter().collect(),
        ..Answer::default()
    }
}

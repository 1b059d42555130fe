//! The example session of the east dormitory: what may never happen again when a channel is closed with a frame waiting.
//!
//! Handles can be followed: the first digit says whose channel, the other four the number; 5,000 more is a copy. Two
//! students' channels are 1 and 2; channel 3 is another person's, which takes the place that channel 1 leaves.

use crate::capability::Frame;
use crate::rate::{Band, Request};
use crate::receiver::{Act, ChannelEvent};
use crate::session::{Event, Writing};
use crate::table::{Address, Key};

const BOX: Address = [2, 0, 0, 0, 0, 1];
const ROUTER: Address = [2, 0, 0, 0, 0, 2];

fn channel(digit: u8) -> Key {
    Key {
        destination: BOX,
        source: [2, 0, 0, 0, 0x0e, digit],
        priority: 5,
    }
}

fn data(digit: u8, time: u64, number: u16) -> Event {
    data_as(digit, time, number, u32::from(digit) * 10_000 + u32::from(number))
}

fn copy(digit: u8, time: u64, number: u16) -> Event {
    data_as(
        digit,
        time,
        number,
        u32::from(digit) * 10_000 + 5_000 + u32::from(number),
    )
}

fn data_as(digit: u8, time: u64, number: u16, handle: u32) -> Event {
    event(digit, time, Act::Data(number, handle))
}

fn event(digit: u8, time: u64, act: Act) -> Event {
    let key = channel(digit);
    Event::Channel(ChannelEvent { key, time, act })
}

fn look(digit: u8) -> Event {
    Event::Look(channel(digit))
}

/// The session's events.
pub fn events() -> Vec<Event> {
    [
        closed_while_waiting(),
        the_place_used_again(),
        given_up_and_restarted(),
        station_and_rate(),
    ]
    .concat()
}

/// Two channels; 12 waits behind 11 on the first, and the close gives its handle back.
fn closed_while_waiting() -> Vec<Event> {
    vec![
        data(1, 100, 10),
        data(2, 100, 4_095),
        data(2, 101, 0),
        data(1, 102, 12),
        look(1),
        event(1, 103, Act::Close),
        look(1),
    ]
}

/// Channel 3 takes the freed place; its own gap is filled, and nothing of channel 1 comes up.
fn the_place_used_again() -> Vec<Event> {
    vec![
        data(3, 104, 30),
        look(3),
        data(3, 105, 33),
        data(3, 106, 32),
        look(3),
        data(3, 107, 31),
        copy(3, 107, 31),
        data(1, 108, 11),
    ]
}

/// On channel 2 a number is given up after 150 ticks; then a frame far ahead restarts it, and what waited comes
/// back.
fn given_up_and_restarted() -> Vec<Event> {
    vec![
        data(2, 110, 2),
        event(2, 259, Act::Tick),
        event(2, 260, Act::Tick),
        event(2, 261, Act::Reminder(4)),
        data(2, 262, 4),
        look(2),
        data(2, 263, 1_000),
        event(2, 262, Act::Tick),
    ]
}

/// The station announces a new flag, hears its neighbour and ends a period; a rate request comes and another goes.
fn station_and_rate() -> Vec<Event> {
    let heard = Frame {
        opcode: 1,
        oldest_tx: 0,
        current_tx: 0x21,
        current_rx: 0x0f,
    };
    let mut frame = [&BOX[..], &ROUTER, &[0x88, 0x6c, 1, 8, 0, 0, 1, 0, 4, 1, 0, 0]].concat();
    frame.resize(60, 0);
    let request = Request {
        destination: ROUTER,
        source: BOX,
        opcode: 0,
        num_bands: 2,
        band_1: Band { pe: 7, rank: 2 },
        band_2: Band { pe: 12, rank: 1 },
    };
    vec![
        Event::Fresh(0x0f),
        Event::Use(0x10),
        Event::Received(heard),
        Event::PeriodEnd,
        Event::Read(frame),
        Event::Write(Writing {
            request,
            room: 64,
            addresses: vec![1, 0, 0x5e, 0, 0, 1],
        }),
    ]
}

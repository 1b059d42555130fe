//! What is measured: for each scenario the tables at its start and the calls, or the frames.

use crate::measure::Stage;
use compare::players::request_of;
use peer::lent::Lent;
use peer::rate::Band;
use peer::receiver::{Act, Buffers, ChannelEvent};
use peer::record::{Cell, Record};
use peer::table::{Key, Owner};
use pikurandal::raw::{Frame, Request, Station};

/// A scenario of channel events. Before each pass the tables are put back to `start`.
pub struct Events {
    /// What happens.
    pub name: &'static str,
    /// The tables at the start of a pass.
    pub start: Vec<Lent>,
    /// The calls of a pass, each on one of the tables.
    pub calls: Vec<(usize, ChannelEvent)>,
    /// The lengths of the answer buffers.
    pub buffers: Buffers,
}

/// A scenario of one call, made again and again.
pub enum Single {
    /// A frame to read.
    Read(Vec<u8>),
    /// A request to write, with its addresses, and the frame that it gives.
    Write(Request, Vec<u8>, Vec<u8>),
    /// A capability frame to receive.
    Receive(Station, u8, Frame),
}

/// All that is measured.
pub struct Scenarios {
    events: Vec<Events>,
    singles: Vec<(&'static str, Single)>,
}

impl Scenarios {
    /// All scenarios.
    pub fn all() -> Scenarios {
        Scenarios {
            events: events(),
            singles: singles(),
        }
    }

    /// Those of channel events.
    pub fn events(&self) -> &[Events] {
        &self.events
    }

    /// Those of one call, each by its name.
    pub fn singles(&self) -> &[(&'static str, Single)] {
        &self.singles
    }

    /// Each by its name, in the state that its passes begin with.
    pub fn stages(&self) -> impl Iterator<Item = (&'static str, Stage<'_>)> {
        let events = self.events.iter();
        let singles = self.singles.iter();
        events
            .map(|events| (events.name, Stage::of_events(events)))
            .chain(singles.map(|(name, single)| (*name, Stage::of_single(single))))
    }
}

/// How many events a pass has where the channel stays as it is from event to event.
const LONG: u64 = 2_048;

/// How many tables a pass has where each serves one event.
const TABLES: usize = 32;

/// The key of the channel at a place.
fn key(place: usize) -> Key {
    Key {
        destination: [2, 0, 0, 0, 0, 1],
        source: [2, 0, 0, 0, 1, place as u8],
        priority: (place % 8) as u8,
    }
}

/// The key of the channel at a place of a table whose channels have one source.
fn key_of_one_source(place: usize) -> Key {
    Key {
        destination: [2, 0, 0, 0, 0, place as u8],
        source: [2, 0, 0, 0, 1, 0],
        ..key(place)
    }
}

fn quiet(current: u64) -> Record {
    Record::opened(current, 1_000)
}

/// A full window: the oldest is missing, the 31 after it wait.
fn full(current: u64) -> Record {
    let waiting = (0..31).map(Cell::Waits);
    Record {
        current,
        oldest: current - 31,
        latest: 1_000,
        cells: [Cell::Missing(900)].into_iter().chain(waiting).collect(),
    }
}

/// A window of 32 missing numbers.
fn starved(current: u64) -> Record {
    Record {
        cells: vec![Cell::Missing(900); 32],
        ..full(current)
    }
}

/// A broken record: the last of 32 missing numbers is missing for longer than those before it.
fn falling(current: u64) -> Record {
    let mut record = starved(current);
    record.cells[31] = Cell::Missing(899);
    record
}

/// A table with channels open at its first places, all with this record.
fn table(open: usize, record: &Record) -> Lent {
    table_of(open, key, record)
}

/// Such a table, its channels by their keys.
fn table_of(open: usize, key: fn(usize) -> Key, record: &Record) -> Lent {
    let mut lent = Lent::empty();
    for place in 0..open {
        lent.put(place, &Owner::Channel(key(place)), record);
    }
    lent
}

fn at(place: usize, time: u64, act: Act) -> ChannelEvent {
    ChannelEvent {
        key: key(place),
        time,
        act,
    }
}

/// Events one after the other on one table, whose channels are quiet at the start.
fn running(name: &'static str, open: usize, event: impl Fn(u64) -> ChannelEvent) -> Events {
    Events {
        name,
        start: vec![table(open, &quiet(10))],
        calls: (0..LONG).map(|index| (0, event(index))).collect(),
        buffers: Buffers::ENOUGH,
    }
}

/// One event on each of several tables that are alike.
fn each(name: &'static str, start: Lent, event: ChannelEvent) -> Events {
    Events {
        name,
        start: vec![start; TABLES],
        calls: (0..TABLES).map(|table| (table, event)).collect(),
        buffers: Buffers::ENOUGH,
    }
}

/// Data with the number at so many steps from 10.
fn data(place: usize, time: u64, steps: u64) -> ChannelEvent {
    at(place, time, Act::Data(((10 + steps) % 4_096) as u16, steps as u32))
}

/// In blocks of 16 the last comes first, then the others from the last to the first.
fn reversed(index: u64) -> ChannelEvent {
    let (block, step) = (index / 16, index % 16);
    data(0, 1_000 + index, 16 * block + 16 - step)
}

/// Two events: a frame too early by one, and the one that was missing.
fn gap_and_fill(index: u64) -> ChannelEvent {
    let steps = if index % 2 == 0 { index + 2 } else { index };
    data(0, 1_000 + index, steps)
}

/// Ticks of the last of 64 channels that have one source, so that each key before it differs in its first word alone.
fn one_source(name: &'static str) -> Events {
    let tick = |index| ChannelEvent {
        key: key_of_one_source(63),
        time: 1_000 + index,
        act: Act::Tick,
    };
    Events {
        start: vec![table_of(64, key_of_one_source, &quiet(10))],
        ..running(name, 64, tick)
    }
}

/// The scenarios of channel events.
fn events() -> Vec<Events> {
    let in_order = |place| move |index| data(place, 1_000 + index, index + 1);
    let tick_at = |place| move |index| at(place, 1_000 + index, Act::Tick);
    let mut scenarios = vec![
        running("in order, place 0", 1, in_order(0)),
        running("in order, place 63", 64, in_order(63)),
        running("gap and fill", 1, gap_and_fill),
        running("fills in reverse, blocks of 16", 1, reversed),
        running("jump of 64", 1, |index| data(0, 1_000 + index, 64 * (index + 1))),
        each(
            "jump of 64, 31 wait",
            table(1, &full(100)),
            at(0, 1_000, Act::Data(164, 7)),
        ),
        each(
            "jump of 32, 31 wait",
            table(1, &full(100)),
            at(0, 1_000, Act::Data(132, 7)),
        ),
        each(
            "the oldest fills, 32 go up",
            table(1, &full(100)),
            at(0, 1_000, Act::Data(69, 7)),
        ),
        each(
            "copy of a waiting frame",
            table(1, &full(100)),
            at(0, 1_000, Act::Data(100, 7)),
        ),
        running("restart", 1, |index| data(0, 1_000 + index, 2_000 * (index + 1))),
        each(
            "restart, 31 wait",
            table(1, &full(100)),
            at(0, 1_000, Act::Data(2_100, 7)),
        ),
        each("opening, place 0", Lent::empty(), at(0, 1_000, Act::Data(10, 7))),
        each(
            "opening, place 63",
            table(63, &quiet(10)),
            at(63, 1_000, Act::Data(10, 7)),
        ),
        running("reminder of the current number", 1, |index| {
            at(0, 1_000 + index, Act::Reminder(10))
        }),
        each(
            "reminder of 32 more",
            table(1, &quiet(100)),
            at(0, 1_000, Act::Reminder(132)),
        ),
        each(
            "tick, full window, none overdue",
            table(1, &full(100)),
            at(0, 1_000, Act::Tick),
        ),
        each("tick, 1 lost, 31 go up", table(1, &full(100)), at(0, 1_100, Act::Tick)),
        each("tick, 32 lost", table(1, &starved(100)), at(0, 1_100, Act::Tick)),
        each("close", table(1, &quiet(100)), at(0, 1_000, Act::Close)),
        each("close, 31 wait", table(1, &full(100)), at(0, 1_000, Act::Close)),
        running("refused by 2", 1, |index| at(0, 1_000 + index, Act::Data(4_096, 7))),
        running("refused by 5", 64, |_| at(64, 1_000, Act::Data(11, 7))),
        running("refused by 7", 1, |_| at(0, 999, Act::Data(11, 7))),
        running("refused by 8", 1, |_| at(0, 1_000, Act::Reminder(75))),
        running("lookup, place 0", 64, tick_at(0)),
        running("lookup, place 31", 64, tick_at(31)),
        running("lookup, place 63", 64, tick_at(63)),
        running("lookup, absent", 64, tick_at(64)),
        one_source("lookup, place 63, one source"),
    ];
    let mut short = running("refused by 1", 1, in_order(0));
    short.buffers.nack = 31;
    scenarios.push(short);
    let mut broken = running("refused by 6, a time falls", 1, in_order(0));
    broken.start = vec![table(1, &falling(100))];
    scenarios.push(broken);
    scenarios
}

/// A request with one or two bands.
fn request(bands: u8) -> peer::rate::Request {
    peer::rate::Request {
        destination: [2, 0, 0, 0, 0, 1],
        source: [2, 0, 0, 0, 0, 2],
        opcode: 1,
        num_bands: bands,
        band_1: Band { pe: 4, rank: 1 },
        band_2: match bands {
            2 => Band { pe: 12, rank: 2 },
            _ => Band::default(),
        },
    }
}

/// The frame of such a request, as the second program writes it.
fn frame(bands: u8, addresses: &[u8]) -> Vec<u8> {
    let mut out = vec![0; 300];
    let count = peer::rate::write(&request(bands), addresses, &mut out).expect("a request that can be written");
    out.truncate(count);
    out
}

/// The scenarios of frames.
fn singles() -> Vec<(&'static str, Single)> {
    let forty = [3, 0, 0, 0, 0, 9].repeat(40);
    let mut refused = frame(2, &forty);
    refused[264] = 1;
    let station = Station {
        default_set: 0x0f,
        new_tx: 0x1f,
        previous_tx: 0x2f,
        oldest_tx: 0x4f,
        new_rx: 0x0103,
        previous_rx: 0x0203,
    };
    let heard = Frame {
        oldest_tx: 0x0111,
        current_tx: 0x1011,
        current_rx: 0x2011,
    };
    let write = |bands, addresses: &[u8]| {
        Single::Write(request_of(&request(bands)), addresses.to_vec(), frame(bands, addresses))
    };
    vec![
        ("read, no address", Single::Read(frame(1, &[]))),
        ("read, 40 addresses", Single::Read(frame(2, &forty))),
        ("read, refused by 22", Single::Read(refused)),
        ("write, no address", write(1, &[])),
        ("write, 40 addresses", write(2, &forty)),
        ("capability frame", Single::Receive(station, 1, heard)),
    ]
}

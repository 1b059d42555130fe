//! Passes over a scenario's calls, put back to the start before each.

use crate::implementations::Implementation;
use crate::scenarios::{Events, Single};
use peer::lent::Lent;
use peer::receiver::ChannelEvent;
use peer::table::{Key, Table};
use pikurandal::lent::{Buffers, Slices};
use pikurandal::raw::Answer;
use std::arch::asm;
use std::time::{Duration, Instant};

/// How many calls a pass over a single call makes.
const CALLS: usize = 2_048;

/// Octets of an output: more than a request takes.
pub const ROOM: usize = 300;

/// A scenario in the state that its passes work on.
pub struct Stage<'a> {
    what: What<'a>,
}

enum What<'a> {
    Events(&'a Events, Vec<Lent>, Vec<usize>, OwnedBuffers),
    Single(&'a Single, Vec<u8>),
}

/// The answer buffers. They are not cleared between calls.
#[derive(Clone, Debug, PartialEq, Eq)]
struct OwnedBuffers {
    up: Vec<u32>,
    returned: Vec<u32>,
    nack: Vec<u16>,
}

/// What a pass gave, so that implementations can be held against each other.
#[derive(Debug, PartialEq, Eq)]
pub struct Trace {
    answers: Vec<String>,
    tables: Vec<Lent>,
}

fn lent(table: &mut Lent) -> Slices<'_> {
    Slices {
        keys: &mut table.keys,
        words: &mut table.words,
        handles: &mut table.handles,
        marks: &mut table.marks,
    }
}

impl OwnedBuffers {
    fn lent(&mut self) -> Buffers<'_> {
        Buffers {
            up: &mut self.up,
            returned: &mut self.returned,
            nack: &mut self.nack,
        }
    }
}

impl<'a> Stage<'a> {
    /// The stage of a scenario of channel events.
    pub fn of_events(events: &'a Events) -> Stage<'a> {
        let places = addressed(events);
        let buffers = OwnedBuffers {
            up: vec![0; events.buffers.up],
            returned: vec![0; events.buffers.returned],
            nack: vec![0; events.buffers.nack],
        };
        Stage {
            what: What::Events(events, events.start.clone(), places, buffers),
        }
    }

    /// The stage of a single call.
    pub fn of_single(single: &'a Single) -> Stage<'a> {
        Stage {
            what: What::Single(single, vec![0xff; ROOM]),
        }
    }

    /// How many calls a pass makes.
    pub fn calls(&self) -> usize {
        match &self.what {
            What::Events(events, ..) => events.calls.len(),
            What::Single(..) => CALLS,
        }
    }

    /// One pass: how long its calls took.
    pub fn pass(&mut self, implementation: &Implementation) -> Duration {
        match &mut self.what {
            What::Events(events, tables, places, buffers) => {
                put_back(&events.start, tables, places);
                let began = Instant::now();
                calls_of_events(implementation, &events.calls, tables, buffers);
                began.elapsed()
            }
            What::Single(single, out) => {
                let began = Instant::now();
                calls_of_single(implementation, single, out);
                began.elapsed()
            }
        }
    }

    /// One pass, with all that it gave.
    pub fn trace(&mut self, implementation: &Implementation) -> Trace {
        match &mut self.what {
            What::Events(events, tables, places, buffers) => {
                put_back(&events.start, tables, places);
                let calls = events.calls.iter();
                let answers = calls
                    .map(|(table, event)| {
                        let answer = implementation.take(lent(&mut tables[*table]), buffers.lent(), event);
                        format!("{answer:?} {}", written(&answer, buffers))
                    })
                    .collect();
                Trace {
                    answers,
                    tables: tables.clone(),
                }
            }
            What::Single(single, out) => {
                out.fill(0xff);
                let answer = match single {
                    Single::Read(frame) => format!("{:?}", implementation.rate_read(frame)),
                    Single::Write(request, addresses, _) => {
                        format!("{:?}", implementation.rate_write(out, *request, addresses))
                    }
                    Single::Receive(station, opcode, frame) => {
                        format!("{:?}", implementation.station_receive(*station, *opcode, *frame))
                    }
                };
                Trace {
                    answers: vec![answer, format!("{out:?}")],
                    tables: Vec::new(),
                }
            }
        }
    }
}

/// The places that the calls address: those of their channels, or the first free one, where the channel is opened.
fn addressed(events: &Events) -> Vec<usize> {
    let of_64_places = |start: &Lent| Table::from_slices(&start.slices()).expect("a table of 64 places");
    let tables: Vec<Table> = events.start.iter().map(of_64_places).collect();
    let mut channels: Vec<(usize, Key)> = events.calls.iter().map(|(table, event)| (*table, event.key)).collect();
    channels.dedup();
    let place = |(table, key): &(usize, Key)| tables[*table].channel_of(key).or_else(|| tables[*table].first_free());
    let mut places: Vec<usize> = channels.iter().filter_map(place).collect();
    places.sort_unstable();
    places.dedup();
    places
}

/// What an answer's counts say was written.
fn written(answer: &Answer, buffers: &OwnedBuffers) -> String {
    let up = &buffers.up[..answer.up];
    let returned = &buffers.returned[..answer.returned];
    let nack = &buffers.nack[..answer.nack];
    format!("{up:?} {returned:?} {nack:?}")
}

/// Puts the places that the calls address back to what they were; no other place changes.
fn put_back(start: &[Lent], tables: &mut [Lent], places: &[usize]) {
    for (was, is) in start.iter().zip(tables) {
        for &place in places {
            copy_part(&was.keys, &mut is.keys, place);
            copy_part(&was.words, &mut is.words, place);
            copy_part(&was.handles, &mut is.handles, place);
            copy_part(&was.marks, &mut is.marks, place);
        }
    }
}

fn copy_part<T: Copy>(from: &[T], to: &mut [T], place: usize) {
    let size = from.len() / pikurandal::lent::PLACES;
    to[size * place..][..size].copy_from_slice(&from[size * place..][..size]);
}

/// The same value, of which the compiler knows nothing any more.
#[inline(always)]
fn black_box<T>(value: T) -> T {
    // SAFETY: no instruction stands in it.
    unsafe { asm!("/* {0} */", in(reg) &value, options(nostack, preserves_flags)) };
    value
}

/// What is timed.
#[inline(never)]
fn calls_of_events(
    implementation: &Implementation,
    calls: &[(usize, ChannelEvent)],
    tables: &mut [Lent],
    buffers: &mut OwnedBuffers,
) {
    for (table, event) in calls {
        black_box(implementation.take(lent(&mut tables[*table]), buffers.lent(), event));
    }
}

/// What is timed.
#[inline(never)]
fn calls_of_single(implementation: &Implementation, single: &Single, out: &mut [u8]) {
    for _ in 0..CALLS {
        match single {
            Single::Read(frame) => {
                black_box(implementation.rate_read(black_box(frame)));
            }
            Single::Write(request, addresses, _) => {
                black_box(implementation.rate_write(out, black_box(*request), black_box(addresses)));
            }
            Single::Receive(station, opcode, frame) => {
                black_box(implementation.station_receive(black_box(*station), *opcode, black_box(*frame)));
            }
        }
    }
}
